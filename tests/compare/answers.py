"""What a run of a script answers: by the program, by the definitions in its place, and by CPython, in the words of the program's log."""
import collections
import os
import shlex
import subprocess
import sys
import tempfile

HERE = os.path.dirname(os.path.abspath(__file__))
TOP = os.path.join(HERE, "..", "..")
sys.path[:0] = [os.path.join(HERE, ".."), os.path.join(HERE, "..", "run")]
from check import RULES, Plan, of_ended_iteration, of_one_line  # noqa: E402
from check_objects import Check, as_here, by_class, traceback_by_python  # noqa: E402
from layout import compared_traceback  # noqa: E402
from objects import NamesRunner  # noqa: E402
from record import Recorder  # noqa: E402

# `log` is the lines that it has
Answer = collections.namedtuple("Answer", "status out log")
DONE, RAISED, SPENT, OUTSIDE = 0, 1, 3, 4
KINDS = ("call", "line", "return", "exception")
SECONDS = 120


class ByProgram:
    def __init__(self, command=None):
        program, *options = shlex.split(command or os.environ.get("PT") or f"{os.path.join(TOP, 'pt')} --only-proved")
        self.command = [os.path.abspath(program) if "/" in program else program, *options]

    def answer(self, word, text):
        with tempfile.TemporaryDirectory() as folder:
            with open(os.path.join(folder, "script.py"), "wb") as script:
                script.write(text.encode())
            words = [*self.command, word, "script.py"]
            done = subprocess.run(words, cwd=folder, capture_output=True, stdin=subprocess.DEVNULL, timeout=SECONDS)
        return Answer(done.returncode, done.stdout.decode(), done.stderr.decode().splitlines())


class ByDefinitions:
    """The definitions of a run and of its host, which stand for the program where it isn't built."""

    def __init__(self, most=20000):
        self.check, self.most = Check(os.path.join(TOP, "crates"), NamesRunner), most

    def answer(self, word, text):
        told, out, end, acts = self.check.run(text, self.most)
        match end:
            case ("outside", what, line):
                status, last = OUTSIDE, [f"pt: outside the profile: {what.lower()} at line {line}"]
            case ("spent",):
                status, last = SPENT, [f"pt: spent after {acts} acts"]
            case ("done",):
                status, last = DONE, []
            case _:
                status, last = RAISED, self.check.traceback.splitlines()
        return Answer(status, out, ([line.rstrip("\n") for line in told.log] if word == "trace" else []) + last)


class Frames:
    """What rules of check.py ask of the one whose events they judge: the lines of a script, and the last line told of each frame."""

    def __init__(self, text):
        self.lines, self.told_last, self.target = text.split("\n"), {}, None


def events_of(text, log):
    """The events of a log as (kind, block, line, class of the exception), with a block as its name and first line, and what stands behind
    the events."""
    frames, open_, events, lines, count = Frames(text), [], [], {}, 0
    for i, row in enumerate(log):
        kind, _, rest = row.partition(" ")
        if kind not in KINDS:
            return events, log[i:]
        line, name, *error = rest.split(" ")
        if kind == "call":
            open_.append(((name, int(line)), count))
            lines[count] = int(line)
            count += 1
        block, frame = open_[-1]
        if kind == "line":
            lines[frame] = int(line)
        # an act is told on its line, so nothing else happens on another one
        assert block[0] == name and lines[frame] == int(line), row
        told = (kind, block, int(line), f"<{error[0]}>" if error else "", False, frame)
        if not any([rule(frames, "trace", told) for rule in (of_ended_iteration, of_one_line)]):
            events.append((kind, block, int(line), error[0] if error else ""))
        if kind == "return":
            open_.pop()
    return events, []


def tracebacks(text, last):
    """The traceback at the end of a log and CPython's, as far as they are compared. CPython's of a RecursionError is shorter."""
    told, wanted = "\n".join(last), traceback_by_python(text)
    if wanted.splitlines()[-1].startswith("RecursionError"):
        return told.splitlines()[-1].split(":")[0], "RecursionError"
    return compared_traceback(by_class(told), text), compared_traceback(by_class(wanted), text)


def by_cpython(text):
    """What CPython prints, how it ends ("done", or the exception's class), and its events. The line of a `return` that gives None is None,
    since CPython has none where several ways lead to the end of a block."""
    recorder = Recorder(text, Plan(streams=("trace",)), RULES)
    recorder.space["__name__"] = "__main__"
    recorder.run()
    events = []
    for kind, block, line, told, _, _ in recorder.heard["trace"]:
        error = told.strip("<>") if kind == "exception" else ""
        events.append((kind, block, None if kind == "return" and told == "None" else max(line, 1), error))
    return as_here(recorder.out), recorder.end.strip("<>"), events
