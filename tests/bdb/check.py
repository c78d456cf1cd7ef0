"""Runs the definitions of pt_commands, pt_pdb, pt_bdb, pt_breakpoints_text, pt_command_files and pt_sessions beside the rules of rules.py, over random
lines, files of commands, breakpoints, stops, texts and sessions, and the list of breakpoints and the words of commands beside CPython's
own bdb and pdb.

usage: check.py [--many N]. Run with CPython 3.12 in this folder.
"""
import bdb
import codecs
import io
import pdb
import random
import sys
from pathlib import Path

import cases
import cpython
import rows
import rules

HERE = Path(__file__).resolve().parent
sys.path.insert(0, str(HERE.parent / "run"))
import definitions
from counting import Count
from definitions import items, listed

CRATES = HERE.parent.parent / "crates"


def text(value):
    return bytes(items(value)).decode()


def bytes_of(t):
    return listed(t.encode())


def prefix_len(f, xs):
    n = 0
    for x in items(xs):
        if not f(x):
            break
        n += 1
    return n


def concat(xs):
    return listed(b for x in items(xs) for b in items(x))


def utf8_valid_len(xs):
    data = bytes(items(xs))
    try:
        data.decode()
    except UnicodeDecodeError as e:
        return e.start
    return len(data)


def lines(file):
    """The lines that CPython's files of bytes have, without their ends."""
    ended = [line.removesuffix(b"\r\n").removesuffix(b"\n") if line.endswith(b"\n") else line for line in io.BytesIO(bytes(items(file)))]
    return listed(map(listed, ended))


WORDS = {
    **definitions.STD,
    "codes": lambda t: listed(codecs.decode(t, "unicode_escape").encode()),
    "concat": concat,
    "flat_map": lambda f, xs: concat(listed(f(x) for x in items(xs))),
    "list_all": lambda f, xs: all(map(f, items(xs))),
    "decimal": lambda n: listed(str(n).encode()),
    "digit_value": lambda c: c - 48 if 48 <= c < 58 else 36,
    "digits_value": lambda base, xs: int(bytes(items(xs)) or b"0", base),
    "min": lambda a, b: min(a, b),
    "repeat": lambda n, xs: listed(items(xs) * n),
    "lines": lines,
    "find": lambda f, xs: next((("Some", x) for x in items(xs) if f(x)), ("None",)),
    "utf8_valid_len": utf8_valid_len,
    "slice_index_or": lambda xs, n, d: dict(enumerate(items(xs))).get(n, d),
}


class Given:
    def __init__(self):
        self.all = definitions.load(str(CRATES), WORDS)

    def get(self, crate, module, name):
        return self.all.get(f"Rattle.{crate}.specs.{module}", name)


KINDS = {"List": "list", "ClearAll": "clear all", "Step": "step", "Next": "next", "Return": "return", "Continue": "continue", "Up": "up",
         "Down": "down", "Where": "where", "Args": "args", "Quit": "quit", "Repeat": "repeat", "Bad": "bad"}


def option(value, of):
    return None if value[0] == "None" else of(value[1])


def command_of(value):
    """A command of the definitions as rules.py has it."""
    name, *args = value
    if name in KINDS:
        return (KINDS[name],)
    if name == "Break":
        return ("break", args[0]["0"], args[1], option(args[2], text))
    if name == "Condition":
        return ("condition", args[0], option(args[1], text))
    if name == "Until":
        return ("until", option(args[0], lambda l: l["0"]))
    if name == "Jump":
        return ("jump", args[0]["0"])
    if name == "Print":
        return ("p", text(args[0]))
    return (name.lower(), *args)


def check_commands(given, count, many):
    command = given.get("pt_commands", "Commands", "command_on")
    for line in [*cases.LINES, *(cases.line() for _ in range(many))]:
        count.see(line, command_of(command(bytes_of(line))), rules.command(line))


def check_files(given, count, many):
    command_lines = given.get("pt_command_files", "CommandFile", "command_lines")
    for _ in range(many):
        file = bytes(random.choices(b"\n\n\r\rsp \xff", k=random.randrange(9)))
        count.see(file, [bytes(items(line)) for line in items(command_lines(listed(file)))], rules.command_lines(file))


def breakpoint(n, row):
    condition = ("None",) if row.condition is None else ("Some", bytes_of(row.condition))
    return {"number": n, "row": {"line": {"0": row.line}, "temporary": row.temporary, "enabled": row.enabled, "condition": condition,
                                 "ignore": row.ignore, "hits": row.hits}}


def bdb_line(file, n, row):
    """A row as CPython's bdb formats it, which says `1 time` where the rules say `1 times`."""
    bdb.Breakpoint.clearBreakpoints()
    bdb.Breakpoint.next = n
    b = bdb.Breakpoint(file, row.line, row.temporary, row.condition)
    b.enabled, b.ignore, b.hits = row.enabled, row.ignore, row.hits
    line = b.bpformat() + "\n"
    return line.replace("hit 1 time\n", "hit 1 times\n")


def check_breakpoints(given, count, many):
    hit_in, behind = given.get("pt_bdb", "Effective", "hit_in"), given.get("pt_bdb", "Effective", "rows_behind")
    list_text = given.get("pt_breakpoints_text", "BreakpointList", "list_text")
    verdict = {True: ("True",), False: ("False",), None: ("Broken",)}
    judge = lambda c: verdict[rules.judge(text(c))]
    for _ in range(many):
        breaks = cases.breaks()
        rows = listed(breakpoint(n, row) for n, row in sorted(breaks.rows.items()))
        listing = breaks.listing("b.py")
        count.see(listing, text(list_text(bytes_of("b.py"), rows)), listing)
        by_bdb = "".join(bdb_line("b.py", n, row) for n, row in sorted(breaks.rows.items()))
        count.see("bdb", by_bdb, listing.partition("\n")[2])
        line = random.choice(sorted(breaks.lines))
        hit, new = hit_in(judge, {"0": line}, rows), behind(judge, {"0": line}, rows)
        expected = breaks.effective(line, rules.judge)
        count.see(line, option(hit, lambda h: (h["number"], h["removed"])), expected)
        count.see(listing, items(new), [breakpoint(n, row) for n, row in sorted(breaks.rows.items())])


def stop_data(given):
    """What each command does to the stop data, by the definitions."""
    get = lambda name: given.get("pt_bdb", "Stops", name)
    line = lambda n: {"0": n}
    return {"step": lambda f, c, g, n: get("step_data")(), "next": lambda f, c, g, n: get("next_data")(line(f)),
            "until": lambda f, c, g, n: get("until_data")(line(f), line(n)), "continue": lambda f, c, g, n: get("continue_data")(),
            "return": lambda f, c, g, n: get("return_data")(line(f), ("None",) if c is None else ("Some", line(c)), g)}


def by_rules(stops, word, frame, caller, generator, line):
    {"step": stops.step, "next": lambda: stops.next(frame), "until": lambda: stops.until(frame, line), "continue": stops.cont,
     "return": lambda: stops.ret(frame, caller, generator)}[word]()


def check_stops(given, count, many):
    stops_at, returned, data_of = given.get("pt_bdb", "Stops", "stops_at"), given.get("pt_bdb", "Stops", "returned"), stop_data(given)
    for _ in range(many):
        stops, word = rules.Stops(), random.choice(sorted(data_of))
        event, caller = cases.event()
        line = random.randrange(1, 7)
        by_rules(stops, word, event.frame, caller, event.generator, line)
        data = data_of[word](event.frame, caller, event.generator, line)
        if event.kind == "return":
            stops.returned(event.frame)
            data = returned({"0": event.frame}, data)
        next_one, _ = cases.event()
        what = {"kind": (next_one.kind.title(),), "frame": {"0": next_one.frame}, "block": {"0": next_one.block}, "act": {"0": 0},
                "line": {"0": next_one.line}, "generator": next_one.generator}
        count.see((word, line), stops_at(data, what), stops.here(next_one))


def optional(value, of):
    return ("None",) if value is None else ("Some", of(value))


def line_number(n):
    return {"0": n}


def stop_data_of(stops):
    """What rules.py keeps of the last command, as the definitions have it."""
    frame = {rules.ANY: ("Any",), rules.NEVER: ("Never",)}.get(stops.frame)
    return {"frame": frame or ("One", line_number(stops.frame)), "line": optional(stops.line, line_number), "return_frame": optional(stops.back, line_number)}


def event_of(e):
    return {"kind": (e.kind.title(),), "frame": line_number(e.frame), "block": line_number(e.block), "act": line_number(0),
            "line": line_number(e.line), "generator": e.generator}


class Sessions:
    """A session of the definitions beside one of rules.py."""

    def __init__(self, given, count):
        self.given, self.count = given, count
        self.told = rules.Debugger("b.py", range(1, 5))
        self.judge = lambda c: ({True: "True", False: "False", None: "Broken"}[self.told.judge(text(c))],)
        self.session = self.get("new_session")(bytes_of("b.py"), listed(map(line_number, range(1, 5))))

    def get(self, name):
        return self.given.get("pt_sessions", "Sessions", name)

    def come(self, event, caller):
        told, e = self.told.at(event, caller), event_of(event)
        out = text(self.get("event_text")(self.judge, e, self.session))
        out += "stop\n" if self.get("session_stops")(self.judge, e, self.session) else "-\n"
        self.count.see((event.kind, event.line), out, told)
        self.session = self.get("behind_event")(self.judge, e, self.session)
        self.event = event
        self.frame = {"frame": line_number(event.frame), "caller": optional(caller, line_number), "generator": event.generator, "line": line_number(event.line)}

    def take(self, line):
        told = self.told.do(line)
        outcome = self.get("line_outcome")(self.frame, bytes_of(line), self.session)
        self.count.see(line, text(self.get("line_text")(self.frame, bytes_of(line), self.session)), told)
        kind, *asked = self.told.outcome
        self.count.see(line, (outcome[0], *map(command_of, outcome[1:])), (kind.title(), *([tuple(asked)] if asked else [])))
        self.session = self.get("behind_line")(self.frame, bytes_of(line), event_of(self.event), self.session)

    def compare(self):
        breaks, stops = self.told.breaks, self.told.stops
        self.count.see("rows", items(self.session["breaks"]["rows"]), [breakpoint(n, row) for n, row in sorted(breaks.rows.items())])
        self.count.see("last", self.session["breaks"]["last"], breaks.last)
        self.count.see("stops", self.session["stops"], stop_data_of(stops))


def check_sessions(given, count, many):
    for _ in range(many):
        sessions = Sessions(given, count)
        for item in cases.session():
            if isinstance(item, str):
                sessions.take(item)
            elif isinstance(item, rules.Worth):
                sessions.told.x = item.x
            else:
                sessions.come(*item)
            sessions.compare()


def check_texts(given, count, many):
    get = lambda module, name: given.get("pt_pdb", module, name)
    stop, frames, args = get("Positions", "stop_text"), get("Positions", "frames_text"), get("Arguments", "arguments_text")
    reason, refused, failed = get("Jumps", "jump_reason"), get("Jumps", "refused_reason"), get("Jumps", "jump_failed_text")
    for _ in range(many):
        view = cases.view()
        shown, file = rules.shown_lines(view.source), bytes_of(view.file)
        lines = listed(map(bytes_of, shown))
        given_frames = [{"name": bytes_of(f.name), "line": {"0": f.line}, "params": listed(map(bytes_of, f.params)),
                         "locals": listed({"name": bytes_of(n), "value": ("None",)} for n in f.values)} for f in view.frames]
        count.see(view.source, text(frames(file, lines, view.chosen, 0, listed(given_frames))),
                  "".join(rules.position(view.file, shown, f.line, f.name, i == view.chosen) for i, f in enumerate(view.frames)))
        f, g = view.frames[-1], given_frames[-1]
        for kind, what in (("call", ("Call",)), ("line", ("Line",)), ("return", ("Return",)), ("exception", ("Exception", {"now": bytes_of("E: x")})),
                           ("post", ("PostMortem",))):
            count.see(kind, text(stop(file, lines, what, g)), rules.heading(kind, "E: x") + rules.position(view.file, shown, f.line, f.name))
        answer = lambda name: f"<{name}>"
        count.see(f.params, text(args(lambda n: bytes_of(answer(text(n))), g)), rules.arguments(f.params, f.values, answer))
    for ended in (False, True):
        for at_line in (False, True):
            for bottom in (False, True):
                for word in rules.REASONS:
                    first = reason(ended, at_line, bottom)
                    told = first[1] if first[0] == "Some" else refused((word,), {"0": 7})
                    count.see(word, text(failed(told)), rules.jump_failed(ended, at_line, bottom, word, 7))


def written(name, *words):
    """A command of cases.commands as a line."""
    if name == "break":
        line, temporary, condition = words
        return f"{'tbreak' if temporary else 'break'} {line}{'' if condition is None else f', {condition}'}"
    if name == "enable":
        return f"{'enable' if words[1] else 'disable'} {words[0]}"
    return " ".join([name.removesuffix("_all"), *(str(word) for word in words if word is not None)])


def check_beside_cpython(count, many):
    """CPython's bdb reads the same commands at the same events."""
    for _ in range(many):
        told, beside = rules.Debugger("b.py", range(1, 5)), cpython.Debugger(range(1, 5))
        for _ in range(random.randrange(1, 16)):
            event, caller = cases.event()
            if event.kind == "call" and event.block == 0:
                continue
            told.x, commands = random.choice([True, False, None]), cases.commands(event.line)
            *deleted, last = told.at(event, caller).splitlines()
            by_bdb, went = beside.come(event, caller, told.x, commands)
            count.see((event.kind, event.line), by_bdb, last == "stop")
            count.see("deleted", [f"Deleted breakpoint {n} at b.py:{event.line}" for n in went], deleted)
            for command in commands if by_bdb else []:
                told.do(written(*command))
            rows = {n: (row.line, row.temporary, row.enabled, row.condition, row.ignore, row.hits) for n, row in told.breaks.rows.items()}
            count.see("rows", beside.rows(), rows)


KNOWN = {
    "break 5, x > 1": """-
stop
(Pdb) break 5, x > 1
Breakpoint 1 at b.py:5
(Pdb) ignore 1 1
Will ignore next 1 crossings of breakpoint 1.
(Pdb) continue
-
-
-
-
-
-
-
-
-
-
-
-
stop
(Pdb) p x
(Pdb) break
Num Type         Disp Enb   Where
1   breakpoint   keep yes   at b.py:5
\tstop only if x > 1
\tbreakpoint already hit 4 times
(Pdb) continue
-
-
-
""",
    "tbreak 5, nosuch": """-
stop
(Pdb) tbreak 5, nosuch
Breakpoint 1 at b.py:5
(Pdb) continue
-
-
-
stop
(Pdb) break
Num Type         Disp Enb   Where
1   breakpoint   del  yes   at b.py:5
\tstop only if nosuch
\tbreakpoint already hit 1 times
(Pdb) clear 1
Deleted breakpoint 1 at b.py:5
(Pdb) continue
-
-
-
-
-
-
-
-
-
-
-
-
""",
    "break 3": """-
stop
(Pdb) break 3
Breakpoint 1 at b.py:3
(Pdb) continue
-
-
-
stop
(Pdb) clear 1
Deleted breakpoint 1 at b.py:3
(Pdb) until
-
-
-
-
-
stop
(Pdb) until
stop
(Pdb) continue
-
-
""",
}


def check_known(count):
    """Sessions whose text is written down: a condition with a count, a temporary breakpoint that can't be judged, `until`."""
    for items_of in rows.told_sessions():
        known = KNOWN.get(items_of[2]) if items_of[0][0].kind == "call" else None
        if known:
            count.see(items_of[2], transcript(items_of), known)
            del KNOWN[items_of[2]]
    count.see("known sessions", list(KNOWN), [])


def transcript(items_of):
    told, out = rules.Debugger("b.py", range(1, 7)), ""
    for item in items_of:
        if isinstance(item, str):
            out += told.do(item)
        elif isinstance(item, rules.Worth):
            told.x = item.x
        else:
            out += told.at(*item)
    return out


def check_words(count):
    """CPython's pdb has each word of a command, and each stands for the method that the rules say."""
    for word, verb in rules.WORDS.items():
        count.see(word, getattr(pdb.Pdb, f"do_{word}", None), getattr(pdb.Pdb, f"do_{verb}"))


def main():
    sys.setrecursionlimit(100_000)
    many = int(sys.argv[2]) if sys.argv[1:2] == ["--many"] else 1000
    random.seed(20)
    given, count = Given(), Count("definitions", "rules")
    check_words(count)
    check_known(count)
    check_beside_cpython(count, 4 * many)
    check_commands(given, count, 3 * many)
    check_files(given, count, 2 * many)
    check_breakpoints(given, count, many)
    check_sessions(given, count, many // 5)
    check_stops(given, count, 4 * many)
    check_texts(given, count, many // 5)
    print(f"{count.all} answers of definitions, {count.differ} differ")
    return count.differ != 0


if __name__ == "__main__":
    sys.exit(main())
