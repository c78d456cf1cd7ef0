"""What the checks over random scripts share: they go over scripts and count what they see, or show that each error of a table is found."""
import argparse

import errors
from check import CRATES, PLANS
from follow import Differs
from machines import Specs


def read_options(many):
    parser = argparse.ArgumentParser()
    parser.add_argument("--crates", default=CRATES)
    parser.add_argument("--from", dest="start", type=int, default=1)
    parser.add_argument("--many", type=int, default=many)
    parser.add_argument("--runs", type=int, default=len(PLANS))
    parser.add_argument("--errors", action="store_true")
    return parser.parse_args()


def remember_flows(d):
    """The walk over a piece at a place from the same slots is made once for each block."""
    flow = d.module("Rattle.law_pieces.specs.piece_kinds.Walk").definitions["flow"]
    code, plain, known = d.function(flow), d.compiled(flow), {}

    def remembered(links, next_of, piece, setting, base, place, slots):
        key = id(piece), place, str(slots)
        if key not in known:
            known[key] = piece, plain(links, next_of, piece, setting, base, place, slots)
        return known[key][1]
    d.space[code] = remembered
    return known


def specs_of(crates):
    specs = Specs(crates)
    specs.flows = remember_flows(specs.pieces)
    return specs


def first_found(options, check, names, error, crate):
    """The first script at which an error shows, and what shows there."""
    with errors.put_in(options.crates, error, *crate) as copy:
        specs = specs_of(copy)
        for seed in range(1, options.many + 1):
            try:
                check(specs, seed, 1, dict.fromkeys(names, 0))
            except Exception as e:
                return seed, f"{type(e).__name__} {e}"
    return None


def over_errors(options, check, names, wrong, crate):
    found = {}
    for error in wrong:
        found[error.name] = first_found(options, check, names, error, crate)
        print(f"{error.name}: {found[error.name]}", flush=True)
    return 1 if None in found.values() else 0


def over_scripts(options, check, names):
    specs, wrong, totals = specs_of(options.crates), 0, dict.fromkeys(names, 0)
    for seed in range(options.start, options.start + options.many):
        try:
            check(specs, seed, options.runs, totals)
        except Differs as e:
            wrong += 1
            print(f"script {seed}: {e}", flush=True)
    print(f"scripts {options.many} from {options.start}, {totals}, wrong {wrong}")
    return 1 if wrong else 0


def main(check, names, wrong, many, *crate):
    """Goes over random scripts with a check that counts what these names say, or over the errors that it has to find in a crate."""
    options = read_options(many)
    return over_errors(options, check, names, wrong, crate) if options.errors else over_scripts(options, check, names)
