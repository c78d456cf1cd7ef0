"""Writes the tables of test_debugger, and what it is to print of them, by the rules of rules.py.

Run with Python 3.12 in this folder.
"""
import random
from pathlib import Path

import cases
import rules

CRATE = Path(__file__).resolve().parent.parent.parent / "crates" / "test_debugger"
ESCAPES = {"\\": "\\\\", "\n": "\\n", "\r": "\\r", "\t": "\\t", "\f": "\\f"}


def escaped(text, more=""):
    """A text on a line, in the signs of test_notation; those of `more` as numbers."""
    return "".join(ESCAPES.get(c) or (f"\\x{ord(c):02x}" if c in more else c) for c in text) if text else "\\_"


def printed(text):
    """What `escape_ascii` writes of a text."""
    special = {9: "\\t", 10: "\\n", 13: "\\r", 34: '\\"', 39: "\\'", 92: "\\\\"}
    return "".join(special.get(b) or (chr(b) if 32 <= b < 127 else f"\\x{b:02x}") for b in text.encode())


def debug_text(text):
    special = {"\t": "\\t", "\n": "\\n", "\r": "\\r", '"': '\\"', "\\": "\\\\", "\f": "\\u{c}", "\u2028": "\\u{2028}"}
    return 'Text { inner: "%s" }' % "".join(special.get(c, c) for c in text)


def option(value, write):
    return "None" if value is None else f"Some({write(value)})"


def truth(b):
    return "true" if b else "false"


def line_number(n):
    return f"Line({n})"


NAMES = {"list": "List", "clear all": "ClearAll"}


def debug(what):
    """A command as the program prints it."""
    kind, *args = what
    name = NAMES.get(kind, kind.title())
    if kind == "break":
        line, temporary, condition = args
        return f"Break {{ line: {line_number(line)}, temporary: {truth(temporary)}, condition: {option(condition, debug_text)} }}"
    if kind == "clear":
        return f"Clear {{ number: {args[0]} }}"
    if kind == "condition":
        return f"Condition {{ number: {args[0]}, condition: {option(args[1], debug_text)} }}"
    if kind == "ignore":
        return f"Ignore {{ number: {args[0]}, count: {args[1]} }}"
    if kind == "enable":
        return f"Enable {{ number: {args[0]}, on: {truth(args[1])} }}"
    if kind == "until":
        return f"Until {{ line: {option(args[0], line_number)} }}"
    if kind == "jump":
        return f"Jump {{ line: {line_number(args[0])} }}"
    if kind == "p":
        return f"Print {{ expression: {debug_text(args[0])} }}"
    return name


def outcome(what):
    """What comes of a line of commands, as the program writes it."""
    kind, *command = what
    return f"{kind.title()} {{ command: {debug(command)} }}\n" if command else f"{kind.title()}\n"


def session_row(file, lines, items):
    """A session as a row, and what is written of it."""
    debugger, fields, out = rules.Debugger(file, lines), [escaped(file), ",".join(map(str, lines))], []
    for item in items:
        if isinstance(item, str):
            fields.append(">" + escaped(item))
            out.append(debugger.do(item) + outcome(debugger.outcome))
        elif isinstance(item, rules.Worth):
            debugger.x = item.x
            fields.append("=" + {True: "t", False: "f", None: "b"}[item.x])
        else:
            event, caller = item
            words = [event.kind, event.frame, event.block, event.line, "generator" if event.generator else "function", *([] if caller is None else [caller])]
            fields.append("!" + " ".join(map(str, words)))
            out.append(debugger.at(event, caller))
    return "\t".join(fields), printed("".join(out))


def line_at(frame, line, caller=None, generator=False, kind="line", block=None):
    return rules.Event(kind, frame, frame if block is None else block, line, generator), caller


def told_sessions():
    """Sessions whose answers are known from the rules, one for each."""
    module = [line_at(0, n) for n in range(1, 7)]
    loop = lambda n: [e for _ in range(n) for e in (line_at(0, 3), line_at(0, 4), line_at(0, 5))]
    ret = lambda frame, line, caller=None, generator=False: line_at(frame, line, caller, generator, "return")
    call = lambda frame, line, caller=0, generator=False: line_at(frame, line, caller, generator, "call")
    yield [module[0], "break 5, true", "ignore 1 1", "continue", *loop(3), "break"]
    yield [module[0], "break 5, false", "ignore 1 1", "continue", *loop(2), "condition 1 true", *loop(2), "break", "continue", *loop(1)]
    yield [module[0], "tbreak 5, broken", "continue", *loop(1), "break", "clear 1", "continue", *loop(1)]
    yield [module[0], "tbreak 5", "tbreak 5, true", "continue", *loop(3), "break"]
    yield [module[0], "break 5, false", "break 5", "continue", *loop(2), "break", "disable 2", "continue", *loop(2), "break", "enable 2", "ignore 2 1", "c", *loop(3), "b"]
    yield [module[0], "disable 1", "b 5", "ignore 1 2", "disable 1", "c", *loop(3), "b", "enable 1", *loop(3), "b"]
    yield [module[0], "b 3", "b 3", "clear 1", "b 3", "b", "c", *loop(1), "clear", "b", "clear", "clear 3"]
    # `until` without and with a line; at a line that isn't behind the current one it stays
    yield [module[2], "until", *loop(1), module[5]]
    yield [module[2], "until 5", line_at(0, 4), line_at(0, 3), line_at(0, 5)]
    yield [module[2], "until 3", "until 2", "until 0", line_at(0, 4)]
    yield [line_at(0, 2 ** 32 - 1), "until", line_at(0, 2 ** 32 - 2), line_at(0, 2 ** 32 - 1), ret(0, 5)]
    yield [line_at(1, 3, 0), "until", line_at(1, 2, 0), ret(1, 2, 0), "", line_at(0, 2), "step", line_at(0, 3)]
    # `return` in a function, at the module and in a generator
    yield [line_at(1, 3, 0), "return", line_at(1, 4, 0), ret(1, 4, 0), "return", line_at(0, 2)]
    yield [line_at(0, 3), "return", line_at(0, 4), ret(0, 4)]
    yield [line_at(2, 3, 0, True), "return", line_at(2, 4, 0, True), ret(2, 4, 0, True), line_at(0, 4)]
    # `next` over a call, at a return, in a generator
    yield [line_at(0, 3), "next", call(1, 1), line_at(1, 2, 0), ret(1, 2, 0), line_at(0, 4)]
    yield [line_at(1, 3, 0), "next", ret(1, 3, 0), "next", line_at(0, 1)]
    yield [ret(1, 3, 0), "next", line_at(0, 4)]
    yield [line_at(2, 3, 0, True), "next", ret(2, 3, 0, True), line_at(2, 4, 0, True)]
    # any frame: calls and returns of generators stop, the call of the module doesn't
    yield [call(2, 1, 0, True), "step", ret(2, 1, 0, True), call(0, 1, None), line_at(0, 1)]
    yield [line_at(0, 3), "step", line_at(1, 3, 0, False, "exception"), "continue", line_at(1, 3, 0, False, "exception"), line_at(0, 4)]
    # scripts with their breakpoints: a condition with a count, a temporary one that can't be judged, a function under `until`
    turns = lambda xs: [e for x in xs for e in (line_at(0, 3), line_at(0, 4), rules.Worth(x), line_at(0, 5))]
    yield [call(0, 1, None), module[0], "break 5, x > 1", "ignore 1 1", "continue", module[1], *turns([False, False, True, True]), "p x", "break", "continue",
           line_at(0, 3), module[5], ret(0, 6)]
    yield [call(0, 1, None), module[0], "tbreak 5, nosuch", "continue", module[1], *loop(1), "break", "clear 1", "continue", *loop(3), line_at(0, 3), module[5], ret(0, 6)]
    yield [call(0, 1, None), module[0], "break 2, nosuch", "step", module[1], "p [0] * 3", "where", "args", "clear 9", "hello", "continue", ret(0, 2)]
    f = lambda n: line_at(1, n, 0)
    yield [call(0, 1, None), module[0], "break 3", "continue", module[4], call(1, 1), f(2), f(3), "clear 1", "until", f(2), f(3), f(2), f(3), f(2), f(4), "until", ret(1, 4, 0),
           "continue", module[5], ret(0, 6)]
    # a temporary one whose condition holds goes at its stop, behind the crossings that are ignored, and stays where it is false
    yield [module[0], "tbreak 5, x", "ignore 1 1", "continue", *turns([False, True]), "b", "c", *turns([True]), "b", *turns([True])]
    # where the run stops by the last command no breakpoint is tried, and none is at another event
    yield [module[0], "tbreak 2", "b 2", "step", module[1], "b", "c", line_at(1, 2, 0, kind="call"), ret(1, 2, 0), line_at(1, 2, 0, kind="exception"), "b", line_at(1, 2, 0), "b"]
    # the first that stops is the one with the least number, and those behind it aren't tried
    yield [module[0], "b 3", "b 3, false", "b 3", "clear 1", "c", *loop(1), "b", "disable 3", "b 3, broken", "tbreak 3", "c", *loop(1), "b"]
    # each command with its answers, names and faults
    yield [module[0], "break 5", "b 5", "break 5, x > 1", "b 5,x", "tbreak 5", "tbreak 5, x", "break 9", "b 9, x", "tbreak 9", "tbreak 9, x", "break 5,", "tbreak", "tbreak 5,",
           "tb 5", "break x", "break 5 x", "break 4294967295", "break 4294967296", "break", "b"]
    yield [module[0], "b 5", "b 4", "b 3", "clear 2", "clear 2", "cl 1", "cl 7", "clear x", "clear 1 2", "clear 4294967295", "clear 4294967296", "clear", "clear", "cl", "b"]
    yield [module[0], "b 5", "condition 1 x > 1", "b", "condition 1", "b", "condition 1", "condition 2 x", "condition 2", "condition", "condition x", "condition 4294967296", "cond 1"]
    yield [module[0], "b 5", "ignore 1 3", "b", "ignore 1 0", "b", "ignore 1", "ignore 1 18446744073709551615", "b", "ignore 1 18446744073709551616", "ignore 1 x", "ignore 2 1",
           "ignore 2", "ignore 2 0", "ignore", "ignore 1 2 3", "ignore 4294967296"]
    yield [module[0], "b 5", "disable 1", "b", "disable 1", "enable 1", "b", "enable 1", "enable 2", "disable 2", "enable", "disable", "enable x", "disable 1 2", "enable 4294967296"]
    for word in ("step", "s", "next", "n", "until", "unt", "return", "r", "continue", "c", "cont"):
        yield [line_at(1, 3, 0), f"{word} x", word, line_at(1, 2, 0), line_at(1, 4, 0), ret(1, 4, 0), line_at(0, 2)]
    yield [line_at(1, 3, 0), "until 3", "unt 0", "until 4294967296", "until 4 5", "unt 4", f(3), f(4), "until 4294967295", f(5), ret(1, 4, 0)]
    yield [module[0], "jump 5", "j 5", "up", "u", "down", "d", "where", "w", "bt", "args", "a", "p x", "p  x + 1 ", "quit", "q", "jump", "jump x", "jump 4294967296", "j 5 5", "up 1",
           "d 1", "where 1", "bt 1", "a x", "p", "p(x)", "pp x", "quit now"]
    yield [module[0], "", " ", "", "\t", "hello", "", "b 5", "", "b", "p x", "", "c", module[1], "", "clear", ""]
    # an empty line repeats
    yield [module[0], "", "hello", "", "b 2", "", "b", "", "s", module[1], "", module[2]]


def frames_row(view):
    shown, names = rules.shown_lines(view.source), lambda ns: "".join(escaped(n, " ,") + "," for n in ns)
    fields = [escaped(view.file), escaped("\n".join(shown)), str(view.chosen)]
    fields += [" ".join([escaped(f.name, " "), str(f.line), names(f.params), names(f.values)]) for f in view.frames]
    out = [rules.position(view.file, shown, f.line, f.name, i == view.chosen) for i, f in enumerate(view.frames)]
    f = view.frames[-1]
    for kind in ("call", "line", "return", "exception", "post"):
        out.append(rules.heading(kind, "ValueError: x") + rules.position(view.file, shown, f.line, f.name))
    out.append(rules.arguments(f.params, f.values, lambda name: name))
    return "\t".join(fields), printed("".join(out))


def k_view():
    """The frames of an exception that leaves a script, as in a post-mortem."""
    source = 'def get(d, k):\n    return d[k]\ndef main():\n    d = {"a": 1}\n    return get(d, "b")\nmain()\n'
    frames = [cases.Frame("<module>", 6, [], ["get", "main"]), cases.Frame("main", 5, [], ["d"]), cases.Frame("get", 2, ["d", "k"], ["d", "k"])]
    return cases.View("k.py", source, frames, 2)


def byte_row(data):
    """Bytes on a line."""
    return "".join(chr(b) if 32 <= b < 127 and b != 92 else f"\\x{b:02x}" for b in data) or "\\_"


def line_told(line):
    """A line of commands behind the prompt, and which command it is."""
    try:
        text = line.decode()
    except UnicodeDecodeError:
        text = "?"
    return f"(Pdb) {text}\n{debug(rules.command(text))}\n"


def files(count):
    """Files of commands: ends of lines, empty lines, lines that aren't UTF-8."""
    fixed = [b"", b"\n", b"\n\n", b"\r\n", b"\r", b"\r\r\n", b"step", b"step\n", b"step\r\n", b"step\r", b"step\rnext\n", b"step\n\nnext\n", b"\xff\ncontinue\n",
             b"p \xc3\xa9\r\n\xc3\n\r\nq", b"break 5\x0bx\n\x0c\n", b"p 1\xe2\x80\xa8s\nn", b"s\x00\n\x85\n"]
    for file in [*fixed, *(bytes(random.choices(b"\n\n\r\rsnp \xff\xc3\xa9", k=random.randrange(16))) for _ in range(count))]:
        yield byte_row(file), printed("".join(map(line_told, rules.command_lines(file))))


def answers():
    fixed = [("shown", "3", "3\n"), ("shown", "'\u00e9\\n'", "'\u00e9\\n'\n"), ("shown", "", "\n"), ("raised", "KeyError: 'b'", "*** KeyError: 'b'\n"),
             ("raised", "Outside: length", "*** Outside: length\n"), ("refused", "", "*** Refused: a call\n"), ("syntax", "", "*** SyntaxError\n"),
             ("oldest", "", "*** Oldest frame\n"), ("newest", "", "*** Newest frame\n"), ("unknown", " he llo\t", "*** Unknown command:  he llo\t\n"),
             ("unknown", "", "*** Unknown command: \n")]
    for kind, text, told in fixed:
        yield f"{kind}\t{escaped(text)}", printed(told)
    for ended in (False, True):
        for at_line in (False, True):
            for bottom in (False, True):
                for refused in rules.REASONS if (ended, at_line, bottom) == (False, True, True) else ["IntoBlock"]:
                    words = ["ended" if ended else "runs", "line" if at_line else "event", "bottom" if bottom else "above", refused, "7"]
                    yield "jump\t" + " ".join(words), printed(rules.jump_failed(ended, at_line, bottom, refused, 7))
    for line in (b"p x", b"", b"p \xc3\xa9", b"p \xff", b"\xc3", b"\xed\xa0\x80", b"step\r"):
        yield f"line\t{byte_row(line)}", printed(line_told(line))


    place = lambda told: lambda n, k: f"{told} {n} at b.py:{k}\n"
    broken = {"set": place("Breakpoint"), "deleted": place("Deleted breakpoint"), "enabled": place("Enabled breakpoint"),
              "disabled": place("Disabled breakpoint"), "no_code": lambda n, k: f"*** No code at line {k}\n",
              "condition": lambda n, k: f"New condition set for breakpoint {n}.\n", "unconditional": lambda n, k: f"Breakpoint {n} is now unconditional.\n",
              "ignored": lambda n, k: f"Will ignore next {k} crossings of breakpoint {n}.\n" if k else f"Will stop next time breakpoint {n} is reached.\n",
              "none": lambda n, k: f"*** No breakpoint numbered {n}\n"}
    for kind, told in broken.items():
        for n, k in ((1, 5), (2 ** 32 - 1, 2 ** 32 - 1)) + (((7, 0), (7, 2 ** 64 - 1)) if kind == "ignored" else ()):
            yield f"break\t{kind} {n} {k}", printed(told(n, k))


def commands():
    random.seed(1)
    plain = [line for line in cases.LINES if "\u00a0" not in line and "\u3000" not in line]
    for line in [*plain, *(cases.line() for _ in range(120))]:
        yield escaped(line), debug(rules.command(line))


def sessions(count):
    for items in told_sessions():
        yield session_row("b.py", [*range(1, 7), 2 ** 32 - 1], items)
    for _ in range(count):
        yield session_row("b.py", range(1, 5), cases.session())


def frames(count):
    yield frames_row(k_view())
    for _ in range(count):
        yield frames_row(cases.view())


def write(folder, name, rows):
    """Writes a table, and gives what is to be printed of it."""
    rows = list(rows)
    (folder / f"{name}.txt").write_text("".join(row + "\n" for row, _ in rows))
    return "".join(answer + "\n" for _, answer in rows)


def main():
    (CRATE / "data").mkdir(exist_ok=True)
    random.seed(2)
    tables = {"commands": commands(), "frames": frames(25), "answers": answers(), "files": files(40), "sessions": sessions(60)}
    out = [write(CRATE / "data", name, rows) for name, rows in tables.items()]
    (CRATE / "stdout").write_text("".join(out))
    (CRATE / "args").write_text("".join(f"{name}\n{name}.txt\n" for name in tables))
    print(f"{sum(part.count(chr(10)) for part in out)} rows")


if __name__ == "__main__":
    main()
