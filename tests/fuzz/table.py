"""Writes random code files as a table for a program of tests, with the answers of the plain checker.

  table.py TABLE ANSWERS [--from N] [--many N] [--jobs N] [--built FOLDER]

TABLE has for each file a line with its seed and one with its bytes in hex, as the tables of test_verify have, and ANSWERS what is to be printed
of it. FOLDER has code files of scripts, as `pt build` writes them, which are changed too.
"""
import argparse
import multiprocessing
import sys
from fuzz import Files, in_folder
import files

source = None


def row(seed):
    _, data = source.file(seed)
    return seed, data.hex(), files.told(files.answer(data))


def main():
    global source
    options = argparse.ArgumentParser()
    options.add_argument("table")
    options.add_argument("answers")
    options.add_argument("--from", dest="first", type=int, default=0)
    options.add_argument("--many", type=int, default=5000)
    options.add_argument("--jobs", type=int, default=1)
    options.add_argument("--built")
    given = options.parse_args()
    source = Files(in_folder(given.built) if given.built else [])
    with multiprocessing.get_context("fork").Pool(given.jobs) as pool, open(given.table, "w") as table, open(given.answers, "w") as answers:
        for seed, digits, answer in pool.imap(row, range(given.first, given.first + given.many), chunksize=50):
            table.write(f"# seed {seed}\n{digits}\n")
            answers.write(f"# seed {seed}\n{answer}\n")


if __name__ == "__main__":
    sys.exit(main())
