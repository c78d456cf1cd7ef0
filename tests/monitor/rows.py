"""Writes the table of test_tracing, and what is to be answered to its rows, by a plain checker of the rules of sys.settrace and
sys.monitoring.

Run in this folder.
"""

import random
from pathlib import Path

CRATE = Path(__file__).resolve().parent.parent.parent / "crates" / "test_tracing"
CALL, C_RETURN, C_RAISE, LINE = 6, 7, 8, 9
OTHERS = {4, 5, 7, 8, 12, 13, 14}
EVENTS = range(16)


class Refused(Exception):
    pass


def shown(f):
    return "-" if f is None else f


class Tools:
    """Tools with a plain list of the places that are switched off."""

    def __init__(self):
        self.names, self.sets, self.local, self.callbacks, self.off = {}, {}, {}, {}, []

    def id(self, word):
        if not 0 <= int(word) <= 5:
            raise Refused("BadId")
        return int(word)

    def id_in_use(self, word):
        n = self.id(word)
        if n not in self.names:
            raise Refused("NotInUse")
        return n

    def bits(self, word, among=EVENTS):
        if not 0 <= int(word) < 1 << 16 or any(int(word) >> bit & 1 and bit not in among for bit in EVENTS):
            raise Refused("BadSet")
        return int(word)

    def do_use(self, id, name):
        n = self.id(id)
        if n in self.names:
            raise Refused("InUse")
        self.names[n] = name

    def do_free(self, id):
        self.names.pop(self.id(id), None)

    def do_name(self, id):
        return shown(self.names.get(self.id(id)))

    def do_get(self, id):
        return self.sets.get(self.id(id), 0)

    def do_local(self, id, block):
        return self.local.get((self.id(id), int(block)), 0)

    def do_set(self, id, bits):
        n = self.id_in_use(id)
        self.sets[n] = self.bits(bits)

    def do_set_local(self, id, block, bits):
        n = self.id_in_use(id)
        self.local[n, int(block)] = self.bits(bits, set(EVENTS) - OTHERS)

    def do_register(self, id, bits, f):
        n = self.id(id)
        if int(bits) not in [1 << bit for bit in EVENTS]:
            raise Refused("BadSet")
        key = n, int(bits).bit_length() - 1
        before = self.callbacks.pop(key, None)
        if f != "-":
            self.callbacks[key] = int(f)
        return shown(before)

    def do_restart(self):
        self.off = []

    def gives(self, tool, bit, block):
        sets = self.sets.get(tool, 0), self.local.get((tool, block), 0)
        return any(it >> bit & 1 and (bit not in (C_RETURN, C_RAISE) or it >> CALL & 1) for it in sets)

    def do_due(self, tool, bit, block, act):
        place = int(tool), int(bit), int(block), int(act)
        return shown(self.callbacks.get(place[:2]) if self.gives(*place[:3]) and place not in self.off else None)

    def do_disable(self, tool, bit, block, act):
        if int(bit) in OTHERS:
            self.callbacks.pop((int(tool), int(bit)), None)
            raise Refused("NotLocal")
        self.off.append((int(tool), int(bit), int(block), int(act)))

    def do_mask(self, block):
        return sum(1 << bit for bit in EVENTS if any((tool, bit) in self.callbacks and self.gives(tool, bit, int(block)) for tool in range(6)))


class Hooks:
    """Trace functions: the global one and those of frames."""

    def __init__(self):
        self.function, self.locals, self.untraced, self.runs = None, {}, set(), False

    def do_global(self):
        return shown(self.function)

    def do_set_global(self, f):
        self.function = None if f == "-" else int(f)

    def do_quiet(self):
        return "yes" if self.function is None else "no"

    def do_local(self, frame):
        return shown(self.locals.get(frame))

    def do_set_local(self, frame, f):
        self.locals[frame] = None if f == "-" else int(f)

    def do_lines(self, frame):
        return "no" if frame in self.untraced else "yes"

    def do_set_lines(self, frame, on):
        (self.untraced.discard if on == "1" else self.untraced.add)(frame)

    def do_forget(self, frame):
        self.locals.pop(frame, None)
        self.untraced.discard(frame)

    def do_due(self, event, frame):
        if self.function is None or event == "line" and frame in self.untraced:
            return "-"
        return shown(self.function if event == "call" else self.locals.get(frame))

    def do_answered(self, event, frame, f):
        if event == "call" or event != "return" and f != "-":
            self.do_set_local(frame, f)

    def do_failed(self):
        self.function = None

    def do_busy(self):
        return "yes" if self.runs else "no"

    def do_set_busy(self, on):
        self.runs = on == "1"


def answer(kind, row):
    it, out = kind(), ""
    for call in row.split("; "):
        name, *words = call.split(" ")
        try:
            told = getattr(it, f"do_{name}")(*words)
            out += f" {'ok' if told is None else told}"
        except Refused as refusal:
            out += f" {refusal}"
    return out


FIRST = "use 3 a; set 3 512; register 3 512 7"
TOOLS = [
    # each refusal, and what stays as it was
    "use 3 a; use 3 b; name 3", "use 6 a; use -1 a; use 0 a; use 5 b; name 0; name 5; name 6; name -1",
    "free 6; free 2; free -1; use 2 a; free 2; name 2; use 2 b; name 2", "get 6; get -1; get 2; local 6 0; local 2 0",
    "set 2 512; use 2 a; set 2 512; get 2; free 2; set 2 0; get 2", "set_local 2 1 512; use 2 a; set_local 2 1 512; local 2 1; local 2 2; get 2",
    "use 1 a; set 1 65536; get 1; set 1 -1; get 1; set 1 65535; get 1; set 1 170141183460469231731687303715884105727; get 1",
    "use 1 a; set_local 1 0 65536; set_local 1 0 -1; local 1 0; set_local 1 0 16; set_local 1 0 32; set_local 1 0 128; set_local 1 0 256",
    "use 1 a; set_local 1 0 4096; set_local 1 0 8192; set_local 1 0 16384; local 1 0; set_local 1 0 36431; local 1 0; set_local 1 0 36432; local 1 0",
    "register 1 0 7; register 1 3 7; register 1 65536 7; register 1 -1 7; register 1 -512 7; register 1 512 7; register 1 512 8; register 1 512 -; register 1 512 -",
    "register 1 1 7; register 1 32768 8; register 1 1 -; register 1 32768 -; register 6 512 7; register -1 512 7",
    # two refusals: the id before all, then the use, then the set
    "set 6 512; set 6 65536; set 2 65536; set_local 6 0 65536; set_local 6 0 16; set_local 2 0 65536; set_local 2 0 16; use 2 a; set 2 65536; set_local 2 0 16",
    "register 6 3 7; register -1 0 7; register 2 3 7", "use 6 a; use 6 b; use 1 a; use 1 b; use 6 a",
    # events without a place of their own
    "use 3 a; set 3 65535; " + "; ".join(f"register 3 {1 << bit} {bit + 1}" for bit in EVENTS) + "; " + "; ".join(f"disable 3 {bit} 0 4; due 3 {bit} 0 4; due 3 {bit} 0 5" for bit in EVENTS),
    "use 3 a; use 4 b; set 3 4096; set 4 4096; register 3 4096 7; register 4 4096 8; disable 3 12 0 1; due 3 12 0 1; due 4 12 0 1; mask 0; register 3 4096 9; due 3 12 0 1",
    # DISABLE at two places of one line, and a restart of two tools
    f"{FIRST}; due 3 9 0 4; due 3 9 0 6; disable 3 9 0 4; due 3 9 0 4; due 3 9 0 6; disable 3 9 0 6; due 3 9 0 6; due 3 9 1 4; restart; due 3 9 0 4; due 3 9 0 6",
    # the first test of a loop and the test again are two places of one line
    "use 3 a; register 3 512 7; set_local 3 1 512; due 3 9 1 0; disable 3 9 1 0; due 3 9 1 3; disable 3 9 1 3; due 3 9 1 1; disable 3 9 1 1; due 3 9 1 3; due 3 9 1 1; "
    "restart; due 3 9 1 0; due 3 9 1 3; due 3 9 1 1",
    f"{FIRST}; use 4 b; set 4 512; register 4 512 8; disable 3 9 0 4; due 4 9 0 4; disable 4 9 0 4; due 3 9 0 4; due 4 9 0 4; restart; due 3 9 0 4; due 4 9 0 4",
    f"{FIRST}; disable 3 9 0 4; disable 3 9 0 4; due 3 9 0 4; restart; due 3 9 0 4", f"{FIRST}; disable 3 9 0 4; set 3 0; set 3 512; due 3 9 0 4; due 3 9 0 5",
    f"{FIRST}; disable 3 9 0 4; register 3 512 8; due 3 9 0 4; due 3 9 0 5; free 3; due 3 9 0 5; use 3 c; due 3 9 0 4",
    f"{FIRST}; disable 3 1 0 4; due 3 9 0 4; disable 2 9 0 4; due 3 9 0 4; disable 3 9 4 0; due 3 9 0 4",
    # sets of all blocks and of one
    f"{FIRST}; set 3 0; due 3 9 1 4; set_local 3 1 512; due 3 9 1 4; due 3 9 2 4; mask 1; mask 2; set_local 3 1 0; due 3 9 1 4; mask 1",
    f"{FIRST}; set_local 3 1 1; register 3 1 5; due 3 9 1 4; due 3 0 1 0; due 3 0 2 0; mask 1; mask 2; set_local 3 2 1; mask 2; local 3 1; local 3 2; get 3",
    "use 1 a; set_local 1 0 64; set_local 1 1 512; set_local 1 0 512; local 1 0; local 1 1; register 1 512 3; due 1 9 0 0; due 1 6 0 0; mask 0",
    # C_RETURN and C_RAISE, which want CALL in the same set
    "use 1 a; set 1 384; register 1 128 2; register 1 256 3; due 1 7 0 1; due 1 8 0 1; mask 0; set 1 448; due 1 7 0 1; due 1 8 0 1; mask 0; set_local 1 0 64; set 1 384; due 1 7 0 1; mask 0",
    # what nobody wants
    "mask 0; use 1 a; set 1 65535; mask 0; register 1 512 3; mask 0; register 2 1 3; mask 0; use 2 b; set 2 1; mask 0; register 1 512 -; mask 0; free 2; mask 0",
    "due 6 9 0 0; due 255 9 0 0; disable 6 9 0 0; disable 6 12 0 0; due 0 9 0 0",
    "register 0 512 7; due 0 9 0 0; use 0 a; set 0 512; due 0 9 0 0",
]

HOOKS = [
    "global; quiet; busy; set_global 5; global; quiet; failed; global; quiet; failed; global",
    "set_global 5; due call 1; due line 1; due return 1; due exception 1; set_local 1 6; due call 1; due line 1; due return 1; due exception 1; due line 2",
    "set_local 1 6; due line 1; due return 1; set_global 5; due line 1; set_global -; due line 1; due call 1; local 1",
    "set_global 5; answered call 1 6; local 1; answered line 1 -; local 1; answered line 1 7; local 1; answered return 1 8; local 1; answered exception 1 9; local 1; answered call 1 -; local 1",
    "set_global 5; set_local 1 6; lines 1; set_lines 1 0; lines 1; due line 1; due return 1; due exception 1; lines 2; set_lines 1 1; due line 1",
    "set_global 5; set_lines 1 0; set_local 1 6; lines 1; local 1; due line 1; answered call 1 7; lines 1; local 1; forget 1; lines 1; local 1",
    "set_local 1 6; set_local 2 7; forget 1; local 1; local 2; set_local 2 -; local 2; lines 2", "busy; set_busy 1; busy; set_global 5; due call 1; set_busy 0; busy",
    "set_global 5; set_local 1 6; failed; due line 1; local 1; set_global 8; due line 1; due call 2",
]


def random_tools(source):
    id = lambda: source.choice([0, 1, 5, 0, 1, 5, 2, -1, 6])
    bits = lambda: source.choice([512, 513, 64, 448, 4096, 65535, 0, 65536, -1, 36431])
    block, act, bit = lambda: source.randrange(3), lambda: source.randrange(3), lambda: source.choice([9, 9, 0, 6, 7, 12])
    place = lambda: f"{source.choice([0, 1, 5])} {bit()} {block()} {act()}"
    calls = [lambda: f"use {id()} {source.choice('ab')}", lambda: f"free {id()}", lambda: f"name {id()}", lambda: f"get {id()}", lambda: f"local {id()} {block()}",
             lambda: f"set {id()} {bits()}", lambda: f"set_local {id()} {block()} {bits()}", lambda: f"register {id()} {source.choice([512, 1, 64, 128, 4096, 3])} {source.choice([7, 8, '-'])}",
             lambda: f"register {id()} {1 << bit()} {source.choice([7, 8])}", lambda: f"due {place()}", lambda: f"due {place()}", lambda: f"disable {place()}",
             lambda: "restart", lambda: f"mask {block()}", lambda: f"set {id()} {source.choice([512, 448, 65535])}"]
    return "; ".join([f"use {n} a" for n in (0, 1, 5)] + [source.choice(calls)() for _ in range(60)])


def random_hooks(source):
    f, frame, event = lambda: source.choice([5, 6, 7, "-"]), lambda: source.randrange(3), lambda: source.choice(["call", "line", "return", "exception"])
    calls = [lambda: "global", lambda: f"set_global {f()}", lambda: "quiet", lambda: f"local {frame()}", lambda: f"set_local {frame()} {f()}", lambda: f"lines {frame()}",
             lambda: f"set_lines {frame()} {source.randrange(2)}", lambda: f"forget {frame()}", lambda: f"due {event()} {frame()}", lambda: f"due {event()} {frame()}",
             lambda: f"answered {event()} {frame()} {f()}", lambda: f"answered {event()} {frame()} {f()}", lambda: "failed", lambda: "busy", lambda: f"set_busy {source.randrange(2)}"]
    return "; ".join(["set_global 5"] + [source.choice(calls)() for _ in range(50)])


def main():
    source = random.Random(40)
    rows = [("tools", Tools, row) for row in TOOLS + [random_tools(source) for _ in range(250)]]
    rows += [("hooks", Hooks, row) for row in HOOKS + [random_hooks(source) for _ in range(60)]]
    (CRATE / "data" / "rows.txt").write_text("".join(f"{name}: {row}\n" for name, _, row in rows))
    (CRATE / "stdout").write_text("".join(f"{answer(kind, row)}\n" for _, kind, row in rows))
    print(len(rows), "rows")


if __name__ == "__main__":
    main()
