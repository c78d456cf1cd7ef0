"""Proves the crates that the program is made of, several at once, and builds the program.

usage: prove.py [JOBS]: at most so many crates at once; else as many as processors and memory allow.

`rt` works on one crate at a time in a checkout, and reads all sources anew where libraries are to be built. So each crate is
proved in one of several copies of the sources, as soon as those that it needs are proved, and what is built of it is
handed on to the others. A line tells each crate as it is proved. crates/pt/out/prove/ has what rt says of each.
"""
import contextlib
import fcntl
import os
import shutil
import signal
import subprocess
import sys
import tempfile
import time

TOP = os.path.dirname(os.path.dirname(os.path.realpath(__file__)))
PROGRAM = "pt"
OUT = f"crates/{PROGRAM}/out"
LOGS = f"{OUT}/prove"
# What a crate is made of.
PARTS = ("src", "specs", "proofs")
FAILED = 70
# What the proof of a big crate takes, in KiB.
MEMORY = 5 << 20
# How often it is asked who has ended, in seconds.
INTERVAL = 0.2


def crates_of_program():
    """The crates of the program, by crates.txt, each with those of them that it needs."""
    named = {}
    with open(f"{TOP}/crates.txt", encoding="utf-8") as file:
        for line in file:
            head, colon, names = line.partition("#")[0].partition(":")
            if colon:
                named[head.split()[0]] = names.split()
    needs, work = {}, [PROGRAM]
    while work:
        name = work.pop()
        if name not in needs:
            needs[name] = [it for it in named[name] if it in named]
            work += needs[name]
    return needs


def sources(name):
    return [it for it in (f"crates/{name}/{part}" for part in PARTS) if os.path.isdir(f"{TOP}/{it}")]


def heights(needs):
    """How much code each crate and the longest way up from it to the program have, in bytes: what is proved first."""

    def size(name):
        walked = os.walk(f"{TOP}/crates/{name}/src")
        return sum(os.path.getsize(f"{at}/{file}") for at, _, files in walked for file in files)

    above = {name: [it for it in needs if name in needs[it]] for name in needs}
    found = {}

    def height(name):
        if name not in found:
            found[name] = size(name) + max(map(height, above[name]), default=0)
        return found[name]

    return {name: height(name) for name in needs}


def at_once():
    with open("/proc/meminfo", encoding="utf-8") as file:
        free = next(int(line.split()[1]) for line in file if line.startswith("MemAvailable:"))
    return max(1, min(len(os.sched_getaffinity(0)), free // MEMORY))


def copied(folder):
    """A copy of all sources in this folder."""
    os.makedirs(folder)
    for file in ("crates.txt", "HANDLES"):
        shutil.copy(f"{TOP}/{file}", folder)
    for name in os.listdir(f"{TOP}/crates"):
        for part in sources(name):
            shutil.copytree(f"{TOP}/{part}", f"{folder}/{part}")
    return folder


def second_name(one, other):
    """Gives a file a second name where rt replaces such a file and never writes into it, and else copies it."""
    if "/rlib/" in one or one.endswith(".oantt"):
        os.link(one, other)
    else:
        shutil.copy2(one, other)


def hand_on(part, name, one, other):
    """Gives a checkout what another has built of a crate (rlib), or has kept of its proof (incremental)."""
    kept, to = (f"{it}/crates/{name}/out/{part}" for it in (one, other))
    if os.path.isdir(kept):
        shutil.rmtree(to, ignore_errors=True)
        shutil.copytree(kept, to, copy_function=second_name)


def below(name, needs):
    """The crates on which a crate stands."""
    return set(needs[name]).union(*(below(it, needs) for it in needs[name]))


class Proof:
    """The proofs of the program's crates, so many at once, each in a copy of the sources that no other uses."""

    def __init__(self, needs, copies):
        self.left, self.needs, self.free = set(needs), needs, copies
        self.running, self.heights = {}, heights(needs)
        self.start, self.is_sound = time.monotonic(), True

    def ready(self):
        """The crates whose needs are proved, the one with the longest way above it first."""
        begun = {name for name, _ in self.running.values()}
        waiting = [it for it in self.left - begun if not self.left.intersection(self.needs[it])]
        return sorted(waiting, key=self.heights.get, reverse=True)

    def begin(self, name, jobs):
        """Proves a crate in a free copy, by so many processes; the program, which is the last, in place."""
        folder = TOP if name == PROGRAM else self.free.pop()
        if folder != TOP:
            for part in ("incremental", "rlib"):
                hand_on(part, name, TOP, folder)
            for it in below(name, self.needs):
                if not os.path.isdir(f"{folder}/crates/{it}/out/rlib"):
                    hand_on("rlib", it, TOP, folder)
        # (what is built of a program ends with a run of it, on an empty script)
        command = ["rt", "run", "--", "run", os.devnull] if name == PROGRAM else ["rt", "lib"]
        command[2:2] = ["--jobs", str(jobs)]
        with open(f"{TOP}/{LOGS}/{name}.log", "w", encoding="utf-8") as log:
            how = {"stdin": subprocess.DEVNULL, "stdout": log, "stderr": log}
            child = subprocess.Popen(command, cwd=f"{folder}/crates/{name}", start_new_session=True, **how)
        self.running[child] = name, folder

    def end(self, child):
        name, folder = self.running.pop(child)
        if folder != TOP:
            self.free.append(folder)
        if child.returncode != 0:
            self.is_sound = False
            print(f"{name} isn't proved: {LOGS}/{name}.log says why", flush=True)
            return
        if folder != TOP:
            for part in ("incremental", "rlib"):
                hand_on(part, name, folder, TOP)
        self.left.remove(name)
        print(f"{time.monotonic() - self.start:5.0f} s: {name} is proved, {len(self.left)} left", flush=True)

    def run(self):
        """Whether all are proved. Behind the first that isn't, none is begun."""
        try:
            while True:
                ready = self.ready() if self.is_sound else []
                if not ready and not self.running:
                    return not self.left
                # What is left over goes to the crate with the longest way above it.
                spare = len(self.free) - len(ready)
                for name in ready[: len(self.free)]:
                    self.begin(name, 1 + max(spare, 0))
                    spare = 0
                time.sleep(INTERVAL)
                for child in [it for it in self.running if it.poll() is not None]:
                    self.end(child)
        finally:
            self.stop()

    def stop(self):
        """Ends what is still at work, and what that has started. What it has proved is kept for the next time."""
        for child in self.running:
            with contextlib.suppress(ProcessLookupError):
                os.killpg(child.pid, signal.SIGTERM)
        for child, (name, folder) in self.running.items():
            child.wait()
            if folder != TOP:
                hand_on("incremental", name, folder, TOP)


def prove(needs, jobs):
    """Whether the program is proved and built."""
    with tempfile.TemporaryDirectory(prefix="copies-", dir=f"{TOP}/{OUT}") as folder:
        copies = [copied(f"{folder}/{number}") for number in range(jobs)]
        return Proof(needs, copies).run()


def main(words):
    if len(words) > 1 or not all(it.isdigit() and int(it) for it in words):
        print("usage: ./pt --prove [JOBS]", file=sys.stderr)
        return 2
    needs = crates_of_program()
    jobs = int(words[0]) if words else at_once()
    os.makedirs(f"{TOP}/{LOGS}", exist_ok=True)
    with open(f"{TOP}/{OUT}/proving", "a+", encoding="utf-8") as file:
        try:
            fcntl.flock(file, fcntl.LOCK_EX | fcntl.LOCK_NB)
        except BlockingIOError:
            print("another ./pt --prove is at work here", file=sys.stderr)
            return FAILED
        # This file's age is that of the sources that are proved, so it is written before the first is copied.
        file.truncate(0)
        folders = [part for name in sorted(needs) for part in sources(name)]
        file.write("\n".join(["crates.txt", *folders]) + "\n")
        file.flush()
        start = time.monotonic()
        print(f"{len(needs)} crates to prove, {jobs} at once", flush=True)
        if not prove(needs, jobs):
            return FAILED
        os.replace(f"{TOP}/{OUT}/proving", f"{TOP}/{OUT}/proved")
    print(f"the program is proved and built, in {time.monotonic() - start:.0f} s", flush=True)
    return 0


if __name__ == "__main__":
    # A signal that would end this ends what it has started first.
    for number in (signal.SIGTERM, signal.SIGHUP):
        signal.signal(number, lambda number, _: sys.exit(128 + number))
    try:
        sys.exit(main(sys.argv[1:]))
    except KeyboardInterrupt:
        sys.exit(130)
