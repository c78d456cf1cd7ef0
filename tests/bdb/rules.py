"""The rules of a debugger's commands, breakpoints and stops, written plainly: what the crates pt_bdb and pt_pdb are held beside."""
import re

BLANKS = " \t\f"
WORDS = {"break": "break", "b": "break", "tbreak": "tbreak", "clear": "clear", "cl": "clear", "condition": "condition", "ignore": "ignore",
         "enable": "enable", "disable": "disable", "step": "step", "s": "step", "next": "next", "n": "next", "until": "until", "unt": "until",
         "return": "return", "r": "return", "continue": "continue", "c": "continue", "cont": "continue", "jump": "jump", "j": "jump",
         "up": "up", "u": "up", "down": "down", "d": "down", "where": "where", "w": "where", "bt": "where", "args": "args", "a": "args",
         "p": "p", "quit": "quit", "q": "quit"}
ALONE = {"step", "next", "return", "continue", "up", "down", "where", "args", "quit"}
BAD = ("bad",)
NUMBER = re.compile("[0-9]+")


def number(text, bits=32):
    return int(text) if NUMBER.fullmatch(text) and int(text) < 2 ** bits else None


def split(text):
    """The first word, and what stands behind it."""
    m = re.match(r"([^ \t\f]*)[ \t\f]*(.*)", text, re.S)
    return m.group(1), m.group(2)


def with_number(make, text):
    n = number(text)
    return BAD if n is None else make(n)


def break_on(rest, temporary):
    line, comma, condition = rest.partition(",")
    condition = condition.strip(BLANKS)
    if comma and not condition:
        return BAD
    return with_number(lambda n: ("break", n, temporary, condition if comma else None), line.rstrip(BLANKS))


def ignore(rest):
    word, count = split(rest)
    count = number(count, 64) if count else 0
    return BAD if count is None else with_number(lambda n: ("ignore", n, count), word)


def command(line):
    """The command that a line of text is."""
    if line == "":
        return ("repeat",)
    word, rest = split(line.strip(BLANKS))
    verb = WORDS.get(word)
    if verb in ALONE:
        return BAD if rest else (verb,)
    if verb == "break":
        return break_on(rest, False) if rest else ("list",)
    if verb == "tbreak":
        return break_on(rest, True)
    if verb == "clear":
        return with_number(lambda n: ("clear", n), rest) if rest else ("clear all",)
    if verb == "condition":
        n, condition = split(rest)
        return with_number(lambda n: ("condition", n, condition or None), n)
    if verb == "ignore":
        return ignore(rest)
    if verb in ("enable", "disable"):
        return with_number(lambda n: ("enable", n, verb == "enable"), rest)
    if verb == "until":
        return with_number(lambda n: ("until", n), rest) if rest else ("until", None)
    if verb == "jump":
        return with_number(lambda n: ("jump", n), rest)
    if verb == "p" and rest:
        return ("p", rest)
    return BAD


class Row:
    def __init__(self, line, temporary, condition):
        self.line, self.temporary, self.condition = line, temporary, condition
        self.enabled, self.ignore, self.hits = True, 0, 0


class Breaks:
    """Breakpoints, where acts stand on some lines."""

    def __init__(self, lines):
        self.lines, self.rows, self.last = set(lines), {}, 0

    def set(self, line, temporary, condition):
        if line not in self.lines:
            return None
        self.last += 1
        self.rows[self.last] = Row(line, temporary, condition)
        return self.last

    def effective(self, line, judge):
        """The number of the breakpoint that stops at a line, and whether it is deleted."""
        for n, row in sorted(self.rows.items()):
            if not row.enabled or row.line != line:
                continue
            row.hits = min(row.hits + 1, 2 ** 64 - 1)
            verdict = True if row.condition is None else judge(row.condition)
            if verdict is None:
                return n, False
            if verdict and row.ignore > 0:
                row.ignore -= 1
            elif verdict:
                if row.temporary:
                    del self.rows[n]
                return n, row.temporary
        return None

    def listing(self, file):
        out = []
        for n, row in sorted(self.rows.items()):
            disposition, enabled = "del " if row.temporary else "keep", "yes" if row.enabled else "no "
            out.append(f"{n:<4}breakpoint   {disposition} {enabled}   at {file}:{row.line}\n")
            if row.condition is not None:
                out.append(f"\tstop only if {row.condition}\n")
            if row.ignore:
                out.append(f"\tignore next {row.ignore} hits\n")
            if row.hits:
                out.append(f"\tbreakpoint already hit {row.hits} times\n")
        return "".join(["Num Type         Disp Enb   Where\n", *out] if out else [])


ANY, NEVER = "any", "never"


class Stops:
    """Where a run stops: a stop frame, a stop line, a return frame."""

    def __init__(self):
        self.step()

    def step(self):
        self.frame, self.line, self.back = ANY, None, None

    def next(self, frame):
        self.frame, self.line, self.back = frame, 0, None

    def until(self, frame, line):
        self.frame, self.line, self.back = frame, line, frame

    def ret(self, frame, caller, generator):
        if generator:
            self.frame, self.line, self.back = frame, None, None
        else:
            self.frame, self.line, self.back = NEVER if caller is None else caller, 0, frame

    def cont(self):
        self.frame, self.line, self.back = NEVER, None, None

    def returned(self, frame):
        if self.frame == frame and self.line is not None:
            self.step()

    def here(self, event):
        rule = self.frame == ANY or (self.frame == event.frame and self.line is not None and event.line >= self.line)
        if event.kind in ("line", "exception"):
            return rule
        if event.generator and self.frame != ANY:
            return False
        if event.kind == "call":
            return rule and event.block != 0
        return rule or self.back == event.frame


class Event:
    def __init__(self, kind, frame, block, line, generator):
        self.kind, self.frame, self.block, self.line, self.generator = kind, frame, block, line, generator


def judge(condition, x=None):
    """Conditions of rows are judged by their first letter: true, false, or what `x` is worth; None where that can't be said."""
    return {"t": True, "f": False, "x": x}.get(condition[0])


class Worth:
    """What the conditions on `x` are worth from now on."""

    def __init__(self, x):
        self.x = x


class Debugger:
    """Breakpoints and stops under commands: no run, and what `p`, `jump`, `up`, `down` and `where` ask of one is left out."""

    def __init__(self, file, lines):
        self.file, self.breaks, self.stops, self.last, self.event, self.caller = file, Breaks(lines), Stops(), None, None, None
        self.x, self.outcome = None, ("answered",)

    def judge(self, condition):
        return judge(condition, self.x)

    def at(self, event, caller):
        """What is written at an event."""
        self.event, self.caller = event, caller
        if self.stops.here(event):
            return "stop\n"
        hit = None
        if event.kind == "line":
            lines = {n: row.line for n, row in self.breaks.rows.items()}
            hit = self.breaks.effective(event.line, self.judge)
        if hit is None:
            return "-\n"
        number, removed = hit
        return f"Deleted breakpoint {number} at {self.file}:{lines[number]}\nstop\n" if removed else "stop\n"

    def on(self, number, answer):
        """The answer to a command on the breakpoint with a number."""
        row = self.breaks.rows.get(number)
        return f"*** No breakpoint numbered {number}\n" if row is None else answer(row)

    def do(self, line):
        """What is written of a line of commands: the prompt with the line, and the answer. What comes of it stands in `outcome`."""
        self.outcome = ("answered",)
        return f"(Pdb) {line}\n" + self.answer(line)

    def answer(self, line):
        if line:
            self.last = line
        what = command(self.last) if self.last is not None else BAD
        kind, *args = what
        place = lambda told, n, row: f"{told} {n} at {self.file}:{row.line}\n"
        if kind == "bad":
            return f"*** Unknown command: {self.last if self.last is not None else ''}\n"
        if kind == "break":
            n = self.breaks.set(*args)
            return f"*** No code at line {args[0]}\n" if n is None else place("Breakpoint", n, self.breaks.rows[n])
        if kind == "list":
            return self.breaks.listing(self.file)
        if kind == "clear":
            return self.on(args[0], lambda row: self.breaks.rows.pop(args[0]) and place("Deleted breakpoint", args[0], row))
        if kind == "clear all":
            out = "".join(place("Deleted breakpoint", n, row) for n, row in sorted(self.breaks.rows.items()))
            self.breaks.rows.clear()
            return out
        if kind == "condition":
            def put(row):
                row.condition = args[1]
                return f"Breakpoint {args[0]} is now unconditional.\n" if args[1] is None else f"New condition set for breakpoint {args[0]}.\n"
            return self.on(args[0], put)
        if kind == "ignore":
            def count(row):
                row.ignore = args[1]
                if args[1] == 0:
                    return f"Will stop next time breakpoint {args[0]} is reached.\n"
                return f"Will ignore next {args[1]} crossings of breakpoint {args[0]}.\n"
            return self.on(args[0], count)
        if kind == "enable":
            def switch(row):
                row.enabled = args[1]
                return place("Enabled breakpoint" if args[1] else "Disabled breakpoint", args[0], row)
            return self.on(args[0], switch)
        return self.go(kind, args)

    def go(self, kind, args):
        frame, line = self.event.frame, self.event.line
        if kind == "step":
            self.stops.step()
        elif kind == "next":
            self.stops.next(frame)
        elif kind == "until":
            if args[0] is not None and args[0] <= line:
                return f"*** Line {args[0]} is not after the current line\n"
            self.stops.until(frame, min(line + 1, 2 ** 32 - 1) if args[0] is None else args[0])
        elif kind == "return":
            self.stops.ret(frame, self.caller, self.event.generator)
        elif kind == "continue":
            self.stops.cont()
        else:
            self.outcome = ("asks", kind, *args)
            return ""
        self.outcome = ("goes",)
        if self.event.kind == "return":
            self.stops.returned(frame)
        return ""


REASONS = {"NoStatement": "line {} is not a statement of this block", "IntoBlock": "line {} is inside a block that is not open here",
           "OutOfFinally": "a finally part can be neither entered nor left"}


def jump_failed(ended, at_line, bottom, refused, line):
    """The answer of a refused `jump`, by what the run says where it is asked."""
    if ended:
        reason = "the script has ended"
    elif not at_line:
        reason = "not at a line event"
    elif not bottom:
        reason = "only the bottom frame can jump"
    else:
        reason = REASONS[refused].format(line)
    return f"*** Jump failed: {reason}\n"


def command_lines(file):
    """The lines of a file of commands, both bytes."""
    *lines, last = file.split(b"\n")
    return [line.removesuffix(b"\r") for line in lines] + ([last] if last else [])


def shown_lines(source):
    """The lines of a source without their outer blanks."""
    return [line.strip(BLANKS) for line in re.split("\r\n|\r|\n", source)]


def position(file, lines, line, name, chosen=True):
    shown = lines[line - 1] if 0 < line <= len(lines) else ""
    return f"{'> ' if chosen else '  '}{file}({line}){name}()\n-> {shown}\n"


def heading(kind, error=None):
    return {"call": "--Call--\n", "return": "--Return--\n", "post": "--Post-mortem--\n", "exception": f"{error}\n", "line": ""}[kind]


def arguments(params, values, answer):
    """`args`: the parameters that have a value."""
    return "".join(f"{name} = {answer(name)}\n" for name in params if name in values)
