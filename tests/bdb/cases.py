"""Random cases for a debugger: lines of commands, breakpoints, views and sessions."""
import random

import rules

# each command with its answers, its short names and its faults
LINES = [
    "", " ", "\t", "break", "b", "break 5", "b 5", "break 5, x > 1", "b 5,x", "b 5 ,\tx ", "break 5,", "break 5, ", "break x", "break 5 x", "break 5,a,b",
    "break 4294967295", "break 4294967296", "break 0", "break 007", "break +5", "break -5", "break 5.", "break, x", "break ,", "breaks 5", "Break 5",
    "tbreak 5", "tbreak 5, nosuch", "tbreak", "tbreak 5,", "tb 5", "clear", "cl", "clear 1", "cl 1", "clear 1 2", "clear x", "clear 4294967296",
    "condition 1", "condition 1 x > 1", "condition 1  x  > 1 ", "condition", "condition x", "condition 1,x", "condition 4294967296 x", "cond 1",
    "ignore 1", "ignore 1 0", "ignore 1 3", "ignore 1 18446744073709551615", "ignore 1 18446744073709551616", "ignore", "ignore x", "ignore 1 x",
    "ignore 1 2 3", "ignore 1 -1", "enable 1", "enable", "enable 1 2", "disable 1", "disable", "disable x", "step", "s", "step 1", "next", "n", "n 2",
    "until", "unt", "until 5", "unt 5", "until x", "until 4294967296", "return", "r", "return 1", "continue", "c", "cont", "continue 3", "conti",
    "jump 5", "j 5", "jump", "jump x", "jump 4294967296", "up", "u", "up 1", "down", "d", "where", "w", "bt", "where 1", "args", "a", "a x",
    "p x", "p", "p ", "p  x + 1 ", "p(x)", "pp x", "p\tx", "p\fx", "print x", "quit", "q", "quit now", " step ", "\tn\t", "step\t", "hello", "!x", "?",
    "p '\u00e9\U0001f40d'", "\u00e9", "b 5, '\u00e9'", "b \u0665", "p x\u00a0", "step\r", "p \u3000x",
]
WORDS = [*rules.WORDS, *("break b tbreak clear condition ignore enable disable until jump p".split() * 4), "hello", "tb", "p(x)", "\u00e9"]
NUMBERS = ["0", "1", "2", "3", "5", "10", "007", "4294967295", "4294967296", "18446744073709551615", "18446744073709551616", "99999999999999999999", "+1", "-1", "x"]
TEXTS = ["x", "x > 1", "t", "f 1", "a, b", "'\u00e9'", "t,"]
BLANKS = [" ", " ", " ", "", "  ", "\t", "\f", " \t"]


def line():
    """A line that may be a command."""
    parts = [random.choice(BLANKS + [""] * 10), random.choice(WORDS)]
    for _ in range(random.randrange(4)):
        parts += [random.choice(BLANKS), random.choice([*NUMBERS, *NUMBERS, *TEXTS, ",", ", "])]
    return "".join(parts) + random.choice(["", "", " ", "\t"])


CONDITIONS = [None, None, "true", "false", "broken", "t x", "f \u00e9", "x > 1"]


def breaks():
    """Some breakpoints on few lines."""
    out = rules.Breaks(range(1, 5))
    for _ in range(random.randrange(6)):
        out.set(random.randrange(1, 5), random.random() < 0.3, random.choice(CONDITIONS))
        if random.random() < 0.1:
            out.last = random.choice([8, 97, 998, 9998, 99998, 2 ** 32 - 9])
    for n in list(out.rows):
        row = out.rows[n]
        row.enabled, row.ignore = random.random() < 0.8, random.choice([0, 0, 1, 3, 2 ** 64 - 1])
        row.hits = random.choice([0, 1, 5, 2 ** 64 - 2, 2 ** 64 - 1])
        if random.random() < 0.2:
            del out.rows[n]
    return out


BREAKS = [("break", 1, False, None), ("break", 2, True, None), ("break", 3, False, "true"), ("break", 3, True, "true"), ("break", 4, False, "false"),
          ("break", 4, False, "x > 1"), ("break", 2, True, "x > 1"), ("break", 3, True, "broken"), ("break", 9, False, None), ("clear", 1), ("clear", 3), ("clear_all",),
          ("condition", 1, None), ("condition", 2, "x > 1"), ("condition", 2, "false"), ("ignore", 1, 2), ("ignore", 2, 1), ("ignore", 3, 0), ("enable", 1, True),
          ("enable", 1, False), ("enable", 2, False), ("enable", 9, True)]
GOING = [("step",), ("next",), ("until", None), ("until", 2), ("until", 4), ("return",), ("continue",), ("continue",)]


def commands(line):
    """Commands at a stop on a line, the last of which goes on."""
    going = [it for it in GOING if it[0] != "until" or it[1] is None or it[1] > line]
    return [*random.choices(BREAKS, k=random.choice([0, 0, 1, 2, 4])), random.choice(going)]


class Frame:
    def __init__(self, name, line, params, values):
        self.name, self.line, self.params, self.values = name, line, params, values


class View:
    def __init__(self, file, source, frames, chosen):
        self.file, self.source, self.frames, self.chosen = file, source, frames, chosen


def view():
    """The frames of a run, over a source."""
    ends = random.choice(["\n", "\n", "\r\n", "\r"])
    source = ends.join(random.choice(["x = 1", "  y = '\u00e9'  ", "\t\fpass", "", "  ", "def f(a, b):"]) for _ in range(random.randrange(1, 6)))
    frames = []
    for i in range(random.randrange(1, 5)):
        params = random.sample(["a", "b", "c", "\u00e9"], random.randrange(4))
        values = sorted(set(random.sample(params, random.randrange(len(params) + 1))) | set(random.sample(["x", "y"], random.randrange(3))))
        frames.append(Frame(random.choice(["<module>", "f", "g\u00e9"]) if i else "<module>", random.randrange(8), params, values))
    return View(random.choice(["b.py", "s\u00e9.py"]), source, frames, random.randrange(len(frames)))


def event():
    frame = random.randrange(3)
    kind = random.choice(["line"] * 5 + ["call", "return", "exception"])
    return rules.Event(kind, frame, frame, random.randrange(1, 7), frame == 2), frame - 1 if frame and random.random() < 0.9 else None


SESSION = ["break 1", "break 2", "b 3, true", "b 4, false", "b 4, x", "b 2, x > 1", "tbreak 2", "tbreak 3, broken", "tbreak 3, true", "tbreak 1, x", "b 9", "break",
           "clear 1", "clear 2", "clear", "condition 1", "condition 2 false", "condition 1 true", "condition 3 x", "ignore 1 2", "ignore 2", "ignore 3 1", "enable 1",
           "disable 1", "disable 2", "enable 9", "", "hello", "up", "p x"]
GO = ["step", "next", "until", "until 4", "until 2", "return", "continue", "s", "n", "unt", "r", "c", ""]


def session():
    """Events of a run and lines of commands at them, and what conditions on `x` are worth."""
    out = []
    for _ in range(random.randrange(1, 12)):
        if random.random() < 0.4:
            out.append(rules.Worth(random.choice([True, False, None])))
        out.append(event())
        out += [random.choice(SESSION) if random.random() < 0.97 else line() for _ in range(random.choice([0, 0, 1, 1, 2, 4]))]
        if random.random() < 0.7:
            out.append(random.choice(GO))
    return out
