"""Runs a program of benchmarks and CPython's own operations beside each other, each at one size and at twice the size.

Times are those of the processor, in the program and in the system for it. They are taken in rounds, in each of which every call
runs once at both sizes, so that whatever else the machine does meets all of them alike. What is printed is the least of the rounds,
and the ratio of the least times: higher ones come of other work of the machine, and aren't those of what is timed (LIB `timeit`,
`Timer.repeat`). Beside it stand the medians and their ratio, which tell how much other work there was. Where valgrind is there, it
counts the program's instructions too, once, since they are the same each time, and at small sizes, since it is slow: work that is
linear doubles them, while times also tell how far the data lies.
"""

import multiprocessing
import os
import re
import shutil
import statistics
import subprocess
import sys
import time

import timing

# how often each call is run
ROUNDS = timing.RUNS
# what is told of the times of all rounds
TELLERS = (min, statistics.median)
# the greatest size at which instructions are counted, and at twice which
COUNTED = 50_000


class Program:
    """The program of a crate of benchmarks; `empty` are the words of a run that does nothing."""

    def __init__(self, crate, empty):
        self.path = timing.program(crate, *empty)
        self.start = min(self.run(empty)[0] for _ in range(ROUNDS))
        self.first_count = self.counted(empty)

    def run(self, words):
        """Seconds of the processor and peak KiB of one run."""
        child = subprocess.Popen([self.path, *words])
        _, status, usage = os.wait4(child.pid, 0)
        child.returncode = os.waitstatus_to_exitcode(status)
        if child.returncode != 0:
            sys.exit(f"{words} ended with status {child.returncode}")
        return usage.ru_utime + usage.ru_stime, usage.ru_maxrss

    def counted(self, words):
        """How many instructions a run has, or None without valgrind."""
        if shutil.which("valgrind") is None:
            return None
        tool = ["valgrind", "--tool=cachegrind", "--cache-sim=no", "--cachegrind-out-file=/dev/null"]
        ran = subprocess.run([*tool, self.path, *words], capture_output=True, text=True)
        return int(re.search(r"I\s+refs:\s+([\d,]+)", ran.stderr)[1].replace(",", ""))

    def instructions(self, words):
        """How many instructions a run has beyond one that does nothing."""
        count = self.counted(words)
        return None if count is None else count - self.first_count


def less(figures, begun):
    return tuple(None if one is None else one - other for one, other in zip(figures, begun))


def timed(call, size, turns):
    """Seconds of the processor that CPython takes for so many calls."""
    start = time.process_time()
    for _ in range(turns):
        call(size)
    return time.process_time() - start


def alone(call, size, turns):
    """The same in a process of its own: what this one takes would count as memory of its children."""
    with multiprocessing.get_context("fork").Pool(1) as pool:
        return pool.apply(timed, (call, size, turns))


class Figures:
    """What a call takes at a size and at twice the size, so many times each: of the times of the program and of CPython the least and
    the medians, and the greatest memory; and instructions, at a size that may be less."""

    def __init__(self, own, theirs, counts, memory):
        self.own, self.theirs, self.counts, self.memory = own, theirs, counts, memory

    def beyond(self, begun):
        """The figures without those of what a run began with."""
        own = [less(*both) for both in zip(self.own, begun.own)]
        theirs = [less(*both) for both in zip(self.theirs, begun.theirs)]
        return Figures(own, theirs, less(self.counts, begun.counts), self.memory)


def measured(program, calls, size, turns=1):
    """The figures of calls, which have the names of what the program does, all in the same rounds."""
    sizes = (size, 2 * size)
    words = {call: [[call.__name__, str(it), *([str(turns)] if turns > 1 else [])] for it in sizes] for call in calls}
    own, theirs = {call: [] for call in calls}, {call: [] for call in calls}
    memory = dict.fromkeys(calls, 0)
    for _ in range(ROUNDS):
        for call in calls:
            runs = [program.run(it) for it in words[call]]
            own[call].append(tuple(seconds - program.start for seconds, _ in runs))
            memory[call] = max(memory[call], runs[1][1])
            theirs[call].append(tuple(alone(call, it, turns) for it in sizes))
    few = min(size, COUNTED)
    counts = {call: tuple(program.instructions([call.__name__, str(it)]) for it in (few, 2 * few)) for call in calls}
    return [Figures(told(own[call]), told(theirs[call]), counts[call], memory[call]) for call in calls]


def told(rounds):
    """The least times at both sizes, and the medians."""
    return [tuple(teller(times) for times in zip(*rounds)) for teller in TELLERS]


def heading():
    times = f"{'twice':>8} {'ratio':>6} {'median':>8} {'twice':>8} {'ratio':>6}"
    print(f"{'':12} {'size':>9} {'seconds':>8} {times} {'of each, instructions':>22} {'ratio':>6} {'KiB':>8} {'CPython':>8} {times}", flush=True)


def row(name, size, figures):
    """Prints the figures of a call."""
    own, theirs = (" ".join(f"{once:8.3f} {twice:8.3f} {twice / once:6.2f}" for once, twice in it) for it in (figures.own, figures.theirs))
    count, more = figures.counts
    counts = f"{'':22} {'':>6}" if count is None else f"{count / min(size, COUNTED):22.1f} {more / count:6.3f}"
    print(f"{name:12} {size:9} {own} {counts} {figures.memory:8} {theirs}", flush=True)
