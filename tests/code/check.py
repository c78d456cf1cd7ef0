"""Runs the code of statements in pieces beside control over the tree, for random scripts of all statements and of all forms.

  check.py [--crates FOLDER] [--from N] [--many N] [--runs N] [--show SEED] [--errors]

With --errors each of the errors of errors.py is put into the definitions, and the first script that shows it is told.
"""
import argparse
import os
import random
import sys
import traceback

import blocks
import errors
from machines import CRATES, Script, Specs, scripts
from follow import Differs, Pair  # noqa: I001

import deep  # noqa: I001

# how often an answer is a raise, and how often a jump comes, in the runs of a block, in turn
PLANS = [(0.0, 0.0), (0.04, 0.0), (0.15, 0.0), (0.04, 0.25)]


def text_of(seed):
    """Every fourth script is one of `tests/run`, of statements that mean something."""
    return scripts.script(seed) if seed % 4 == 0 else blocks.script(seed)


class Totals:
    def __init__(self):
        self.blocks = self.runs = self.ends = self.acts = self.jumps = self.permitted = self.bytes = 0

    def add(self, pair, ended):
        self.runs += 1
        self.ends += ended
        self.acts += pair.acts
        self.jumps += pair.jumps_tried
        self.permitted += pair.jumped


def check(specs, seed, runs, totals):
    script = Script(specs, text_of(seed))
    for n, b in enumerate(script.blocks):
        totals.blocks += 1
        totals.bytes += len(script.plain["blocks"][n]["code"])
        for k in range(runs):
            pair = Pair(specs, script, b, random.Random(f"{seed} {n} {k}"), *PLANS[k % len(PLANS)])
            try:
                totals.add(pair, pair.run())
            except Differs as e:
                raise Differs(f"block {n}, run {k}, act {pair.acts}: {e}") from None


def first_seen(crates, error, most):
    """After how many scripts an error in the definitions shows, and how."""
    with errors.put_in(crates, error) as copy:
        specs = Specs(copy)
        for seed in range(1, most + 1):
            try:
                check(specs, seed, len(PLANS), Totals())
            except Differs as e:
                return seed, str(e)
    return None, ""


def main(options):
    if options.errors:
        missed = 0
        for error in errors.ERRORS:
            seed, how = first_seen(options.crates, error, options.many)
            missed += seed is None
            print(f"{error.name}: " + (f"seen in script {seed} ({how[:90]})" if seed else f"not seen in {options.many} scripts"), flush=True)
        return 1 if missed else 0
    specs, totals, wrong = Specs(options.crates), Totals(), 0
    seeds = [options.show] if options.show is not None else range(options.start, options.start + options.many)
    for seed in seeds:
        try:
            check(specs, seed, options.runs, totals)
        except Exception as e:
            wrong += 1
            print(f"script {seed}: {e if isinstance(e, Differs) else traceback.format_exc()}", flush=True)
            if options.show is not None:
                print(text_of(seed))
        if seed % 100 == 0:
            print(f"so far to {seed}: blocks {totals.blocks}, acts {totals.acts}, jumps {totals.jumps}, wrong {wrong}", flush=True)
    print(f"scripts {len(seeds)} from {seeds[0]}, blocks {totals.blocks}, bytes {totals.bytes}, runs {totals.runs} of which {totals.ends} ended, "
          f"acts {totals.acts}, jumps {totals.jumps} of which {totals.permitted} permitted, wrong {wrong}")
    return 1 if wrong else 0


if __name__ == "__main__":
    parser = argparse.ArgumentParser()
    parser.add_argument("--crates", default=CRATES)
    parser.add_argument("--from", dest="start", type=int, default=1)
    parser.add_argument("--many", type=int, default=1000)
    parser.add_argument("--runs", type=int, default=len(PLANS))
    parser.add_argument("--show", type=int)
    parser.add_argument("--errors", action="store_true")
    sys.exit(deep.call(lambda: main(parser.parse_args())))
