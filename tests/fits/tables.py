#!/usr/bin/env python3
"""Writes the tables of test_fits, test_jumps or test_verify, with what the plain checker tells of each row.

    tables.py DIRECTORY        of one of these crates
"""
import os
import sys
import common
import cuts
import jumps
import limits
import refusals
import sizes
import slots

TABLES = {
    "test_fits": (sizes, limits, common, cuts),
    "test_jumps": (jumps, slots),
    "test_verify": (refusals,),
}


def main(directory):
    with open(directory + "/stdout", "w") as out:
        for module in TABLES[os.path.basename(os.path.abspath(directory))]:
            with open("%s/data/%s.txt" % (directory, module.__name__), "w") as table:
                for name, row, answer in module.rows():
                    table.write("# %s\n%s\n" % (name, row))
                    out.write("# %s\n%s\n" % (name, answer))


if __name__ == "__main__":
    main(sys.argv[1])
