"""Compares what is answered to random code files with what the plain checker tells of them.

  fuzz.py [--verify] [--from N] [--many N] [--jobs N] [--steps N] [--scripts N | --built FOLDER] [--show SEED] [--shrink SEED]

A file is one of a script, written by `pt build`, one by the grammar, one of the generators of tests/fits or one of its rows; most are changed
then. Each has a seed. By `pt exec` a file that is accepted has to end as a run does, within so many acts; one that is refused has to be so with
the number and the place of the checker, and without output. With --verify what answers is the program of test_verify, which runs nothing, and
VERIFY is its path where it isn't the one that is built here. --show tells all of one file, --shrink makes it smaller as long as the answers
differ. PT is the program, where it isn't the proved one of this folder. With --verify it writes the files of scripts alone, and isn't needed
where a folder has them.
"""
import argparse
import collections
import glob
import multiprocessing
import os
import pathlib
import random
import shlex
import subprocess
import sys
import tempfile

HERE = os.path.dirname(os.path.abspath(__file__))
TOP = os.path.join(HERE, "..", "..")
sys.path[:0] = [os.path.join(HERE, "..", name) for name in ("", "run", "fits")]
import grammar  # noqa: E402
import mutations  # noqa: E402
from shapes import parsed  # noqa: E402
import files  # noqa: E402
from checker import BadFile  # noqa: E402
from common import nested_block  # noqa: E402
from limits import random_finally, random_tables  # noqa: E402
from programs import program  # noqa: E402
from random_code import random_block  # noqa: E402
from refusals import rows  # noqa: E402
from rows import A  # noqa: E402
from sizes import wide_block  # noqa: E402

VERIFIER = os.path.abspath(os.path.join(TOP, "crates", "test_verify", "out", "test_verify"))
SCRIPTS = [os.path.join(HERE, "..", name, "*.py") for name in ("scripts", "dis/scripts", "compare/scripts")]
# how a run ends, by the status
ENDINGS = {0: "done", 1: "raised", 3: "spent", 4: "outside", 12: "not built"}
REFUSED, TOO_LONG = 7, 8
SECONDS = 60
BATCH = 100
# of a file that a script has, so that the plain checker isn't slow
LARGEST = 6000
SHOWN = 20


class Program:
    """The program, by its command."""

    def __init__(self, command, steps):
        self.command, self.steps = command, steps

    def built(self, script):
        """The code file of a script, or None where it has none."""
        done = subprocess.run([*self.command, "build", script], capture_output=True, stdin=subprocess.DEVNULL, timeout=SECONDS)
        return done.stdout if done.returncode == 0 else None

    def answer(self, path):
        """The status, what is written, and the log."""
        words = [*self.command, "exec", path, "--steps", str(self.steps)]
        done = subprocess.run(words, capture_output=True, stdin=subprocess.DEVNULL, timeout=SECONDS)
        return done.returncode, done.stdout, done.stderr.decode(errors="replace")


class Verifier:
    """The program of test_verify, which answers to all files of a table at once."""

    TABLE = "refusals.txt"

    def __init__(self, path):
        self.path = path

    def answers(self, datas, folder):
        """What is told of each of these files, in words."""
        with open(os.path.join(folder, self.TABLE), "w") as table:
            table.writelines(f"{data.hex()}\n" for data in datas)
        done = subprocess.run([self.path, self.TABLE], cwd=folder, capture_output=True, stdin=subprocess.DEVNULL, timeout=SECONDS, text=True)
        lines = done.stdout.splitlines()
        return lines if done.returncode == 0 and len(lines) == len(datas) else [f"status {done.returncode}, {len(lines)} lines"] * len(datas)


def command_of_program():
    """The words before a command; a proved program that is up to date is called itself."""
    if "PT" in os.environ:
        return shlex.split(os.environ["PT"])
    asked = subprocess.run([os.path.join(TOP, "pt"), "--only-proved", "build", os.devnull], capture_output=True, text=True)
    if asked.returncode != 0:
        sys.exit(asked.stderr)
    return [os.path.join(TOP, "crates", "pt", "out", "pt")]


def compiled(built, folder, many):
    """The files of the scripts, and of so many random ones."""
    found = [built(script) for pattern in SCRIPTS for script in sorted(glob.glob(pattern))]
    path = os.path.join(folder, "script.py")
    for seed in range(many):
        with open(path, "w") as script:
            script.write(program(seed, containers=seed % 2 > 0))
        found.append(built(path))
    return [data for data in found if data]


def in_folder(folder):
    """The files in a folder."""
    return [path.read_bytes() for path in sorted(pathlib.Path(folder).iterdir())]


class Files:
    """The file of each seed."""

    def __init__(self, of_scripts):
        self.of_scripts = [data for data in of_scripts if len(data) <= LARGEST]
        self.rows = [bytes.fromhex(digits) for _, digits, _ in rows()]

    def base(self, rng):
        """A file, how often one of its sort is changed, and the name of the sort."""
        chance = rng.random()
        if chance < 0.35 and self.of_scripts:
            return rng.choice(self.of_scripts), 0.95, "script"
        if chance < 0.75:
            return grammar.random_file(rng).encoded(), 0.8, "grammar"
        if chance < 0.95:
            return rng.choice((random_block, random_finally, random_tables, nested_block, wide_block))(rng), 0.4, "small"
        return rng.choice(self.rows), 0.9, "row"

    def file(self, seed):
        rng = random.Random(seed)
        data, often, sort = self.base(rng)
        if rng.random() < often:
            try:
                data = mutations.changed(rng, parsed(data)).encoded()
            except (BadFile, IndexError):
                # what isn't a code file has no shape
                data = mutations.changed_bytes(rng, data or b"\0")
        if data and rng.random() < 0.08:
            data = mutations.changed_bytes(rng, data)
        return sort, data


class Fuzz:
    """By the program, or by the verifier, if there is one."""

    def __init__(self, program, of_scripts, verifier=None):
        self.program, self.files, self.verifier = program, Files(of_scripts), verifier

    def differs(self, data, folder):
        """How the answers to a file differ, or None."""
        return self.differ([data], folder)[0][0]

    def differ(self, datas, folder):
        """How the answers to each of these files differ, or None, and the name of the answer."""
        if not self.verifier:
            return [self.differs_by_program(data, folder) for data in datas]
        wanted = [files.told(files.answer(data)) for data in datas]
        return [(None if got == want else f"{got}, and not {want}", want.split()[0] if got == want else "otherwise")
                for got, want in zip(self.verifier.answers(datas, folder), wanted)]

    def differs_by_program(self, data, folder):
        wanted = files.answer(data)
        path = os.path.join(folder, "code")
        with open(path, "wb") as file:
            file.write(data)
        try:
            status, out, log = self.program.answer(path)
        except subprocess.TimeoutExpired:
            return "has no end, and not " + files.told(wanted), "no end"
        if wanted is None:
            if status in ENDINGS and "bad code" not in log:
                return None, ENDINGS[status]
            return f"status {status}, {log[-200:]!r}, and not fits", "otherwise"
        if (status, out, log) == (REFUSED, b"", f"pt: bad code {files.logged(wanted)}\n"):
            return None, str(wanted[0])
        return f"status {status}, {out[:80]!r}, {log[-200:]!r}, and not {files.told(wanted)}", "otherwise"

    def batch(self, seeds):
        """How often there was each sort and answer, and what differs."""
        counts, found = collections.Counter(), []
        made = [self.files.file(seed) for seed in seeds]
        with tempfile.TemporaryDirectory(dir="/dev/shm" if os.path.isdir("/dev/shm") else None) as folder:
            told = self.differ([data for _, data in made], folder)
        for seed, (sort, data), (how, name) in zip(seeds, made, told):
            counts[sort, name] += 1
            if how:
                found.append((seed, how, data))
        return counts, found

    def shrunk(self, data):
        """A smaller file at which the answers differ, by dropping what may be dropped from its shape."""
        with tempfile.TemporaryDirectory() as folder:
            goes_on = True
            while goes_on:
                goes_on = False
                for smaller in smaller_files(data):
                    if self.differs(smaller, folder):
                        data, goes_on = smaller, True
                        break
        return data


def differs_at_limit(program, folder):
    """Whether a file of as many bytes as are read isn't read to its end, or one of one more is."""
    path, found = os.path.join(folder, "code"), []
    for size, wanted in ((files.LIMIT, (REFUSED, b"", f"pt: bad code 22 at {len(A)}\n")), (files.LIMIT + 1, (TOO_LONG, b"", "pt: too long\n"))):
        with open(path, "wb") as file:
            file.write(A.ljust(size, b"\0"))
        answer = program.answer(path)
        if answer != wanted:
            found.append(f"a file of {size} bytes: {answer}, and not {wanted}")
    return found


def smaller_files(data):
    """Files with one part of the shape less."""
    try:
        shape = parsed(data)
    except BadFile:
        return
    for n, block in enumerate(shape.blocks):
        parts = [("blocks", None, n)] if len(shape.blocks) > 1 else []
        parts += [(name, n, at) for name in ("handlers", "marks", "starts", "code") for at in range(len(getattr(block, name)))]
        for name, of, at in parts:
            less = shape.copied()
            if name == "blocks":
                del less.blocks[at]
            elif name == "code":
                if len(block.code) == 1:
                    continue
                less.blocks[of].remove(at)
            else:
                del getattr(less.blocks[of], name)[at]
            yield less.encoded()


fuzz = None


def batch(seeds):
    return fuzz.batch(seeds)


def report(counts):
    sorts = sorted({sort for sort, _ in counts})
    names = sorted({name for _, name in counts}, key=lambda name: (not name.isdigit(), name))
    print(f"{'':10}" + "".join(f"{name:>10}" for name in names))
    for sort in [*sorts, "all"]:
        row = [sum(n for (s, a), n in counts.items() if a == name and sort in (s, "all")) for name in names]
        print(f"{sort:10}" + "".join(f"{n:10}" for n in row))


def main():
    global fuzz
    options = argparse.ArgumentParser()
    options.add_argument("--verify", action="store_true")
    options.add_argument("--from", dest="first", type=int, default=0)
    options.add_argument("--many", type=int, default=100_000)
    options.add_argument("--jobs", type=int, default=os.cpu_count())
    options.add_argument("--steps", type=int, default=2000)
    options.add_argument("--scripts", type=int, default=100)
    options.add_argument("--built")
    options.add_argument("--show", type=int)
    options.add_argument("--shrink", type=int)
    given = options.parse_args()
    verifier = Verifier(os.environ.get("VERIFY", VERIFIER)) if given.verify else None
    tried = None if given.verify and given.built else Program(command_of_program(), given.steps)
    with tempfile.TemporaryDirectory() as folder:
        of_scripts = in_folder(given.built) if given.built else compiled(tried.built, folder, given.scripts)
        fuzz = Fuzz(tried, of_scripts, verifier)
        chosen = given.show if given.shrink is None else given.shrink
        if chosen is not None:
            sort, data = fuzz.files.file(chosen)
            data = data if given.shrink is None else fuzz.shrunk(data)
            print(sort, data.hex(), files.told(files.answer(data)), fuzz.differs(data, folder) or "alike", sep="\n")
            return 0
        at_limit = [] if verifier else differs_at_limit(tried, folder)
    print("\n".join(at_limit), end="\n" * bool(at_limit))
    seeds = range(given.first, given.first + given.many)
    batches = [seeds[at:at + BATCH] for at in range(0, len(seeds), BATCH)]
    counts, differing = collections.Counter(), len(at_limit)
    with multiprocessing.get_context("fork").Pool(given.jobs) as pool:
        for some, found in pool.imap_unordered(batch, batches):
            counts += some
            for seed, how, data in found:
                differing += 1
                if differing <= SHOWN:
                    print(f"seed {seed}: {how}\n  {data.hex() if len(data) < 1000 else f'{len(data)} bytes'}", flush=True)
    report(counts)
    lacking = sorted({str(number) for number in range(18, 29)} - {name for _, name in counts})
    print(f"{given.many} files, {differing} of them otherwise" + (f"; none with {', '.join(lacking)}" if lacking else ""))
    return differing > 0


if __name__ == "__main__":
    sys.exit(main())
