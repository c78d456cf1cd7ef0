"""How much stack the built program takes to read each of the deepest scripts, and to make the code of those that it runs, the most first.

    python3 need.py [--front] [--by-rattle] [--program FILE] [WORD ..]      of the scripts whose names have one of these words, or of all

The program is pt, or with --front the front end alone as test_depth runs it; as LLVM builds it, or as Rattle's own compiler
does, which the gate leaves beside it; or another file that was built of it. A script is read with less and less stack, down
to a step of 32 KiB. The last line counts those that take more than half of a default stack, and the status is 1 where there
are some, or where a script isn't taken or refused as it should be."""
import argparse
import resource
import subprocess
import sys
import tempfile
from pathlib import Path

import shapes

KIB = 1024
STEP = 32 * KIB
DEFAULT = 8192 * KIB
MOST = 8 * DEFAULT

# the words before the name of a text, and the status where it is no script
WORDS = {"pt": (["run", "--steps", "0"], 6), "test_depth": (["time", "answers"], 1)}


def status(command, script, stack):
    """How a command ends with so much stack; negative where a signal ends it."""
    room = lambda: resource.setrlimit(resource.RLIMIT_STACK, (stack, MOST))
    return subprocess.run([*command, script], capture_output=True, preexec_fn=room).returncode


def need(command, script):
    """The least stack by which a script is read, up to what the system takes of it at random, and how the program ends with more."""
    low, high = 0, MOST // STEP
    while high - low > 1:
        middle = (low + high) // 2
        if status(command, script, middle * STEP) < 0:
            low = middle
        else:
            high = middle
    return high * STEP, status(command, script, (high + 2) * STEP)


def main():
    parser = argparse.ArgumentParser()
    parser.add_argument("--front", action="store_true")
    parser.add_argument("--by-rattle", action="store_true")
    parser.add_argument("--program", type=Path)
    parser.add_argument("words", nargs="*")
    asked = parser.parse_args()
    name, words = "test_depth" if asked.front else "pt", asked.words
    built = Path(__file__).resolve().parent / "../../crates" / name / "out" / (name + ".by-rattle" * asked.by_rattle)
    before, refused = WORDS[name]
    command = [(asked.program or built).resolve(), *before]
    needs, wrong = [], 0
    with tempfile.TemporaryDirectory() as folder:
        script = Path(folder, "script.py")
        for name, pieces, answer in shapes.rows():
            if not words or any(word in name for word in words):
                script.write_text(shapes.written(pieces))
                stack, ended = need(command, script)
                is_wrong = (ended == refused) != (answer != "taken")
                needs.append((stack, name + (" (another answer)" if is_wrong else "")))
                wrong += is_wrong
    for stack, name in sorted(needs, reverse=True):
        print(f"{stack // KIB:6} KiB  {name}")
    deep = sum(stack > DEFAULT // 2 for stack, _ in needs)
    print(f"{deep} of {len(needs)} take more than {DEFAULT // 2 // KIB} KiB; {wrong} other answers")
    sys.exit(1 if deep or wrong else 0)


if __name__ == "__main__":
    main()
