#!/usr/bin/env python3
"""Random calls of sys.monitoring and runs under them: the definitions of a run's tools beside CPython 3.12.1.

usage: tests/monitor/check.py [--many N] [--seed N]

A case takes and frees ids, gives sets of events, of all code and of one code object, registers callbacks, restarts, and runs a
function. Its callbacks answer DISABLE at some places. Beside CPython stand what each call answers, and which callbacks are called
in which order, with the event and its place. Places are those of CPython's instructions, and which events come is taken from a run
with all of them. STOP_ITERATION is left out: whether CPython gives it hangs on what else is given.

Where the language differs on purpose, the cases stay clear of it: tools are asked from the least id on, and CPython asks from the
greatest; a set that is refused is told after an id that isn't in use;
C_RETURN and C_RAISE are events of their own, so DISABLE at a CALL leaves them on, and a block's own set can't have them; a place
stays switched off when its event leaves a tool's set and comes back; DISABLE at an event without a place of its own.
"""

import argparse
import random
import sys
from collections import Counter
from pathlib import Path

HERE = Path(__file__).resolve().parent
sys.path.insert(0, str(HERE.parent / "run"))
import definitions
from definitions import integer, items, listed

M = sys.monitoring
NAMES = ["PY_START", "PY_RESUME", "PY_RETURN", "PY_YIELD", "PY_THROW", "PY_UNWIND", "CALL", "C_RETURN", "C_RAISE", "LINE", "JUMP",
         "BRANCH", "RAISE", "RERAISE", "EXCEPTION_HANDLED", "STOP_ITERATION"]
BITS = {name: bit for bit, name in enumerate(NAMES)}
OTHERS = {"PY_THROW", "PY_UNWIND", "C_RETURN", "C_RAISE", "RAISE", "RERAISE", "EXCEPTION_HANDLED"}
OF_C = ("C_RETURN", "C_RAISE")

SCRIPT = """
def double(x):
    y = x; z = len("ab"); return y + x

def loop(n):
    total = 0
    for i in range(n):
        if i % 2: total += double(i); total -= 1
        else: total += 1
    while n: n -= 1; double(n)
    return total

def steps(n):
    for i in range(n):
        yield i; i += 1

def fails(n):
    try:
        for i in steps(n):
            if i == 2: raise ValueError(i)
            double(i)
    except ValueError as e:
        len(str(e))
    try:
        int("x")
    except ValueError:
        pass
    return n

def passes_on(n):
    try:
        return fails(n) + unknown
    finally:
        loop(1)

def main(n):
    loop(n); fails(n)
    try:
        passes_on(n)
    except NameError:
        double(n)
"""


def code_objects():
    """The functions of the script, made anew, with their code objects by name."""
    space = {}
    exec(compile(SCRIPT, "script", "exec"), space)
    functions = {name: it for name, it in space.items() if hasattr(it, "__code__")}
    return functions, {it.__code__: name for name, it in functions.items()}


def cpython_set(names):
    out = 0
    for name in names:
        out |= getattr(M.events, name)
    return out


def own_set(names):
    return sum(1 << BITS[name] for name in names)


def names_of(bits):
    return {name for name in NAMES if bits & getattr(M.events, name) == getattr(M.events, name)}


def place(event, rest):
    """Where a callback is called: the offset that it is told, or for LINE that of its frame."""
    return sys._getframe(2).f_lasti if event == "LINE" else rest[0]


class Definition:
    """The tools by the definitions."""

    def __init__(self, all_, blocks):
        self.get = lambda name: all_.get("Rattle.sem_run.specs.run.Tools", name)
        self.tools = self.get("no_tools")()
        self.blocks = {name: {"hidden": False, "number": n} for n, name in enumerate(blocks)}

    def call(self, *words):
        _, answer, self.tools = self.get("tool_call")(words, self.tools)
        return answer

    def location(self, tool, event, name, act):
        return {"tool": tool, "bit": BITS[event], "block": self.blocks[name], "act": act}

    def due(self, *place):
        return self.get("wants")(self.tools, self.location(*place))

    def switch_off(self, *place):
        self.tools = self.get("switch_off")(self.location(*place), self.tools)


REFUSALS = [("invalid tool", "bad_id"), ("already in use", "in_use"), ("is not in use", "not_in_use"), ("invalid", "bad_set"),
            ("one event", "bad_set"), ("independently", "bad_set")]


def asked(call, *arguments):
    """What CPython answers to a call: a value, or the refusal."""
    try:
        return call(*arguments)
    except ValueError as error:
        return next(word for text, word in REFUSALS if text in str(error))


class Case:
    def __init__(self, all_, rng):
        self.rng = rng
        self.functions, self.codes = code_objects()
        self.by_name = {name: code for code, name in self.codes.items()}
        self.own = Definition(all_, self.by_name)
        self.called, self.disabled, self.count = [], set(), 0
        self.with_c = rng.random() < 0.3
        self.history = []

    def callback(self, tool, event):
        """A callback that notes its calls, and answers DISABLE at places that it was made for."""
        number, self.count = self.count, self.count + 1
        share = self.rng.choice([0, 0, 0.3, 0.7, 1]) if event not in OTHERS and not (self.with_c and event == "CALL") else 0
        salt = self.rng.random()

        def disables(name, act):
            return random.Random(f"{salt} {name} {act}").random() < share

        def function(code, *rest):
            name = self.codes.get(code)
            if name is not None:
                act = place(event, rest)
                self.called.append((tool, number, event, name, act))
                if disables(name, act):
                    return M.DISABLE
        return number, function, disables

    def names(self, others):
        """Some events: C_RETURN and C_RAISE are there where CALL is, and CALL may be there for code of its own where they aren't meant."""
        rng = self.rng
        names = {name for name in NAMES if rng.random() < rng.choice([0.1, 0.4, 0.9])} - set(OF_C)
        if not others:
            names -= OTHERS
            if self.with_c:
                names.discard("CALL")
        elif "CALL" in names:
            names |= set(OF_C)
        return names

    def same(self, own, theirs, what):
        if own != theirs:
            raise AssertionError(f"{what}: {own} by the definitions, CPython {theirs}")

    def refused(self, answer):
        return answer[1][0] if answer[0] == "wrong" else None

    def id(self):
        return self.rng.choice([0, 1, 2, 5, 0, 1, 2, 5, 0, 1, 2, 5, 3, 4, -1, 6])

    def take_id(self):
        n = self.id()
        answer = self.own.call("use_id", integer(n), listed(b"a"))
        self.same(self.refused(answer), asked(M.use_tool_id, n, "a"), f"use_tool_id({n})")

    def free_id(self):
        n = self.id()
        answer = self.own.call("free_id", integer(n))
        self.same(self.refused(answer), asked(M.free_tool_id, n), f"free_tool_id({n})")

    def name_of(self):
        n = self.id()
        answer = self.own.call("name_of", integer(n))
        own = self.refused(answer) or (bytes(items(answer[1][1])).decode() if answer[1][0] == "Some" else None)
        self.same(own, asked(M.get_tool, n), f"get_tool({n})")

    def restart(self):
        self.own.call("restart")
        self.same(None, asked(M.restart_events), "restart_events()")

    def bad(self):
        """A set that is none, for CPython and for the definitions."""
        return self.rng.choice([(-1, -1), (1 << 17, 1 << 16), (-5, -5), (1 << 20, 1 << 20)])

    def give_set(self):
        if items(self.own.tools["off"]):
            self.restart()
        n, names = self.id(), self.names(True)
        theirs, own = (cpython_set(names), own_set(names)) if self.rng.random() < 0.9 else self.bad()
        answer = self.refused(self.own.call("give_set", integer(n), integer(own)))
        told = asked(M.set_events, n, theirs)
        if (answer, told) != ("not_in_use", "bad_set"):
            self.same(answer, told, f"set_events({n}, {own:#x})")

    def give_local_set(self):
        if items(self.own.tools["off"]):
            self.restart()
        n, names, name = self.id(), self.names(False), self.rng.choice(list(self.by_name))
        theirs, own = (cpython_set(names), own_set(names)) if self.rng.random() < 0.9 else self.bad()
        if self.rng.random() < 0.1:
            more = self.rng.choice(sorted(OTHERS - set(OF_C)))
            theirs, own = theirs | getattr(M.events, more), own | 1 << BITS[more]
        answer = self.refused(self.own.call("give_local_set", integer(n), self.own.blocks[name], integer(own)))
        told = asked(M.set_local_events, n, self.by_name[name], theirs)
        if (answer, told) != ("not_in_use", "bad_set"):
            self.same(answer, told, f"set_local_events({n}, {name}, {own:#x})")

    def set_of(self):
        n = self.id()
        answer = self.own.call("set_of", integer(n))
        told = asked(M.get_events, n)
        told = told if isinstance(told, str) else own_set(names_of(told) - set(OF_C))
        own = self.refused(answer)
        self.same(own or answer[1] & ~own_set(OF_C), told, f"get_events({n})")

    def local_set_of(self):
        n, name = self.id(), self.rng.choice(list(self.by_name))
        answer = self.own.call("local_set_of", integer(n), self.own.blocks[name])
        told = asked(M.get_local_events, n, self.by_name[name])
        told = told if isinstance(told, str) else own_set(names_of(told) - set(OF_C))
        self.same(self.refused(answer) or answer[1], told, f"get_local_events({n}, {name})")

    def register(self):
        n, event = self.id(), self.rng.choice([it for it in NAMES if it != "STOP_ITERATION" and (self.with_c or it not in OF_C)])
        theirs, own = getattr(M.events, event), 1 << BITS[event]
        if self.rng.random() < 0.05:
            theirs, own = self.rng.choice([(0, 0), (3, 3), (1 << 17, 1 << 16), (-1, -1)])
        made = None if self.rng.random() < 0.15 else self.callback(n, event)
        answer = self.own.call("register", integer(n), integer(own), ("None",) if made is None else ("Some", made))
        told = asked(M.register_callback, n, theirs, made and made[1])
        if self.refused(answer):
            self.same(self.refused(answer), told, f"register_callback({n}, {own})")
        else:
            before = answer[1][1][1] if answer[1][0] == "Some" else None
            self.same(before, told, f"register_callback({n}, {event})")

    def run(self):
        name, n = self.rng.choice([("main", 3), ("loop", 4), ("fails", 4), ("passes_on", 2), ("double", 1)])
        self.called = []
        try:
            self.functions[name](n)
        except NameError:
            pass
        theirs, self.called = self.called, []
        own = []
        for event, block, act in self.events(name, n):
            for tool in reversed(range(6)):
                f = self.own.due(tool, event, block, act)
                if f[0] == "Some":
                    number, _, disables = f[1]
                    own.append((tool, number, event, block, act))
                    if disables(block, act):
                        self.own.switch_off(tool, event, block, act)
                        self.disabled.add((event, act))
        if own != theirs:
            first = next((i for i, (a, b) in enumerate(zip(own, theirs)) if a != b), min(len(own), len(theirs)))
            raise AssertionError(f"run of {name}({n}), callback {first}: {own[first:first + 4]} by the definitions, CPython {theirs[first:first + 4]}")
        self.called = len(theirs)

    known = {}

    def events(self, name, n):
        return Case.known[name, n]

    def do(self, many):
        calls = [self.take_id, self.free_id, self.name_of, self.restart, self.give_set, self.give_set, self.give_local_set,
                 self.give_local_set, self.set_of, self.local_set_of] + 12 * [self.register] + 6 * [self.run]
        total = 0
        for _ in range(6):
            self.take_id()
        for _ in range(many):
            self.rng.choice(calls)()
            if isinstance(self.called, int):
                total += self.called
                self.called = []
        return total, len(self.disabled)

    def forget(self):
        for tool in range(6):
            if M.get_tool(tool) is None:
                M.use_tool_id(tool, "a")
            M.set_events(tool, 0)
            for event in NAMES:
                M.register_callback(tool, getattr(M.events, event), None)
            M.free_tool_id(tool)
        M.restart_events()


def all_events():
    """The events of each run, with their places, taken from one with all of them."""
    for name, n in [("main", 3), ("loop", 4), ("fails", 4), ("passes_on", 2), ("double", 1)]:
        functions, codes = code_objects()
        seen = []

        def noting(event):
            def function(code, *rest):
                if code in codes:
                    seen.append((event, codes[code], place(event, rest)))
            return function
        M.use_tool_id(3, "all")
        for event in NAMES:
            if event != "STOP_ITERATION":
                M.register_callback(3, getattr(M.events, event), noting(event))
        M.set_events(3, cpython_set(NAMES))
        try:
            functions[name](n)
        except NameError:
            pass
        M.set_events(3, 0)
        for event in NAMES:
            M.register_callback(3, getattr(M.events, event), None)
        M.free_tool_id(3)
        Case.known[name, n] = seen


def main():
    parser = argparse.ArgumentParser()
    parser.add_argument("--many", type=int, default=2000)
    parser.add_argument("--seed", type=int, default=0)
    options = parser.parse_args()
    all_ = definitions.load(str(HERE.parent.parent / "crates"))
    all_events()
    wrong, callbacks, places = 0, 0, 0
    for case in range(options.many):
        it = Case(all_, random.Random(f"{options.seed} {case}"))
        try:
            called, off = it.do(60)
            callbacks, places = callbacks + called, places + off
        except AssertionError as error:
            wrong += 1
            print(f"case {case}: {error}")
        finally:
            it.forget()
    print(f"{options.many} cases, {callbacks} callbacks, {places} places switched off: {wrong} differ")
    return wrong != 0


if __name__ == "__main__":
    sys.exit(main())
