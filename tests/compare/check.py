"""Compares what the program answers to `run` and `trace` of scripts of the supported forms with what CPython 3.12.1 tells of them: output,
ending, traceback and events, but for what docs/DECISIONS.md lists under "What CPython tells otherwise".

  check.py [--definitions] [--from N] [--many N] [--show SEED] [--jobs N] [--forms]

With --forms a table tells to how many scripts each form came.
"""
import argparse
import collections
import glob
import multiprocessing
import os
import sys
import warnings

from answers import DONE, HERE, OUTSIDE, RAISED, SPENT, ByDefinitions, ByProgram, by_cpython, events_of, tracebacks
import deep
import instances
from form_counts import forms_of, table
from layout import broken, compared
from programs import program

ENDINGS = {DONE: "done", RAISED: "raised", SPENT: "spent", OUTSIDE: "outside"}


def is_alike(event, wanted):
    return event == wanted or wanted[2] is None and (event[0], event[1], event[3]) == (wanted[0], wanted[1], wanted[3])


def first_difference(events, wanted, is_whole):
    """The place of the first event that differs; those of a run that isn't whole are the first ones."""
    for i, (one, other) in enumerate(zip(events, wanted)):
        if not is_alike(one, other):
            return i
    if len(events) > len(wanted) or is_whole and len(events) < len(wanted):
        return min(len(events), len(wanted))
    return None


def differences(run, trace, text):
    """What the answers to `run` and to `trace` differ in from one another and from CPython, each as a line."""
    found = []
    if trace.status not in ENDINGS:
        return [f"trace ends with status {trace.status}: {trace.log[-1:]}"]
    events, last = events_of(text, trace.log)
    if (run.status, run.out, run.log) != (trace.status, trace.out, last):
        found.append(f"run answers {run.status}, {run.log}, and trace {trace.status}, {last}")
    if bool(last) != (trace.status in (SPENT, OUTSIDE, RAISED)):
        found.append(f"the log ends with {last} at status {trace.status}")
    out, end, wanted = by_cpython(text)
    is_whole = trace.status in (DONE, RAISED)
    if is_whole and trace.out != out or not out.startswith(trace.out):
        found.append(f"printed {trace.out[-200:]!r}, CPython {out[-200:]!r}")
    if is_whole and (end == "done") != (trace.status == DONE):
        found.append(f"ended {ENDINGS[trace.status]}, CPython {end}")
    # which exception left: a StopIteration has no event, and what goes on has none of its own
    if trace.status == RAISED and not found:
        told, traceback = tracebacks(text, last)
        if told != traceback:
            found.append(f"traceback {told!r}, CPython {traceback!r}")
    events, wanted = compared(events, text), compared(wanted, text)
    at = first_difference(events, wanted, is_whole)
    if at is not None:
        found.append(f"event {at}: {events[max(0, at - 3):at + 2]}, CPython {wanted[max(0, at - 3):at + 2]}")
    return found


def random_script(seed):
    """Every second one has line ends within parentheses, most have containers, and some exceptions, comprehensions, stars and orders of sequences,
    builtins that come seldom or are written in Python, and classes; some ask special methods of instances in loops, tests, `with` and unpacking."""
    if seed % 9 == 4:
        return instances.script(seed)
    text = program(seed, containers=seed % 4 > 0, exceptions=seed % 5 == 0, forms=seed % 4 > 1, builtins=seed % 3 == 0, helpers=seed % 3 == 1,
                   classes=seed % 7 < 2)
    return broken(text, seed) if seed % 2 else text


class Compare:
    def __init__(self, by):
        self.by = by

    def one(self, text):
        """How a script ended, how many events it told, the forms that it came to, and what differs."""
        try:
            run, trace = self.by.answer("run", text), self.by.answer("trace", text)
            found = differences(run, trace, text)
            forms = forms_of(text, {event[2] for event in events_of(text, trace.log)[0] if event[0] == "line"})
        except Exception as e:
            return "broke", 0, set(), [repr(e)]
        return ENDINGS.get(trace.status, str(trace.status)), len(trace.log), forms, found


def asked(one):
    """A script by its name and text, in a process of its own."""
    warnings.simplefilter("ignore")
    name, text = one
    return name, deep.call(lambda: COMPARE.one(text))


def main():
    global COMPARE
    p = argparse.ArgumentParser()
    p.add_argument("--definitions", action="store_true")
    p.add_argument("--from", type=int, default=0, dest="first")
    p.add_argument("--many", type=int, default=2000)
    p.add_argument("--show", type=int)
    p.add_argument("--jobs", type=int, default=2)
    p.add_argument("--forms", action="store_true")
    a = p.parse_args()
    COMPARE = Compare(ByDefinitions() if a.definitions else ByProgram())
    seeds = [a.show] if a.show is not None else range(a.first, a.first + a.many)
    written = [] if a.show is not None else sorted(glob.glob(os.path.join(HERE, "scripts", "*.py")))
    scripts = [(os.path.basename(f), open(f, encoding="utf-8").read()) for f in written] + [(f"seed {s}", random_script(s)) for s in seeds]
    endings, forms, events, bad = collections.Counter(), collections.Counter(), 0, 0
    with multiprocessing.get_context("fork").Pool(a.jobs) as pool:
        for name, (ending, told, its_forms, found) in pool.imap(asked, scripts, chunksize=8):
            endings[ending] += 1
            forms.update(its_forms)
            events += told
            bad += bool(found)
            for line in found:
                print(f"{name}: {line}")
    if a.show is not None:
        print("\n".join(f"{i + 1:3} {line}" for i, line in enumerate(scripts[0][1].split("\n"))))
    if a.forms:
        print(table(forms))
    print(", ".join(f"{k} {n}" for k, n in sorted(endings.items())))
    print(f"{len(written)} written and {len(seeds)} random scripts, {events} events, {bad} with a difference")
    return bad > 0


if __name__ == "__main__":
    warnings.simplefilter("ignore")
    sys.exit(main())
