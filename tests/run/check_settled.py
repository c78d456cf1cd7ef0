"""Scripts of which CPython does something else, or tells less, with what the definitions of a run settle: contexts of what is thrown to a
generator, names of closed frames, entries of a traceback where a callback raises.

  check_settled.py [--crates FOLDER]
"""
import argparse
import os
import sys

sys.path.append(os.path.join(os.path.dirname(os.path.abspath(__file__)), ".."))

import deep  # noqa: E402
from definitions import items  # noqa: E402
from host import Raised  # noqa: E402
from run import Runner  # noqa: E402

GENERATORS = """
def catches():
    try: yield
    except BaseException as e: print(repr(e), repr(e.__context__))
    yield
def handles():
    try: 1 // 0
    except ZeroDivisionError: yield from catches()
def begun(g):
    next(g)
    return g
"""
KEYS = """
try: {}['k']
except KeyError:
    """

# what is thrown gets the exception that is active in the newest activation that has one: the generator, who delegates to it, the caller
CONTEXTS = [
    ("begun(catches()).throw(ValueError(1))", "ValueError(1) None"),
    ("begun(handles()).throw(ValueError(2))", "ValueError(2) ZeroDivisionError('integer division or modulo by zero')"),
    (KEYS + "begun(catches()).throw(ValueError(3))", "ValueError(3) KeyError('k')"),
    (KEYS + "begun(handles()).throw(ValueError(4))", "ValueError(4) ZeroDivisionError('integer division or modulo by zero')"),
    # GeneratorExit is made without one
    ("try: begun(handles()).close()\nexcept RuntimeError as e: pass", "GeneratorExit() ZeroDivisionError('integer division or modulo by zero')"),
    # a fresh one and a finished one throw back
    (KEYS + "\n    try: catches().throw(ValueError(5))\n    except ValueError as e: print(repr(e.__context__))", "KeyError('k')"),
    ("x = catches()\nx.close()\ntry: x.throw(ValueError(6))\nexcept ValueError as e: print(repr(e.__context__))", "None"),
]

# a closed frame keeps its names, though a cell of it is bound later
CLOSED = """
h = []
def f():
    x = 1
    def g():
        nonlocal x
        x = 2
    h.append(g)
    1 // 0
try: f()
finally: h[0]()
"""

# an exception arrives on line 8, or a callback at C_RAISE takes its place before it has an entry there
ENTRIES = """
x = ValueError('x')
class I:
    def __init__(self): pass
    def __next__(self): raise x
i = I()
try:
    next(i)
except LookupError: pass
raise x
"""


class Hooks:
    """A callback of a tool for the events of one bit, if there is one."""

    def __init__(self, runner, bit=None, callback=None):
        self.runner, self.bit, self.callback = runner, bit, callback

    def begin(self, state, host, world):
        tools = state["tools"]
        if self.bit is not None:
            call = self.runner.get("sem_run", "run.Tools", "tool_call")
            for c in [("use_id", ("pos", 3), ()), ("give_set", ("pos", 3), ("pos", 1 << self.bit | 1 << 6)),
                      ("register", ("pos", 3), ("pos", 1 << self.bit), ("Some", self.callback))]:
                answer = call(c, tools)
                assert answer[1][0] != "wrong", answer[1]
                tools = answer[2]
        return {**state, "tools": tools}


def ended(runner, text, *hook):
    """What is printed, and the frames of a traceback: block, line, and the numbers that names have."""
    blocks, _, outputs, ending = runner.run(text, Hooks(runner, *hook))
    frames = items(ending[1][2]["frames"]) if ending[1][0] == "raised" else []
    return "".join(o[1] for o in outputs if o[0] == "prints"), [
        (blocks[v["frame"]["block"]["number"]].name, v["line"], {x: n for x, n in v["frame"]["names"].values.items() if isinstance(n, int)})
        for v in frames]


def raises_first():
    """A callback that raises the first time."""
    left = [LookupError("callback")]

    def callback(hook, event, here, store):
        if left:
            raise Raised(left.pop())
        return None
        yield
    return callback


def main():
    p = argparse.ArgumentParser()
    p.add_argument("--crates", default="../../crates")
    runner = Runner(p.parse_args().crates)
    rows = [(GENERATORS + text, (), (said + "\n", [])) for text, said in CONTEXTS] + [
        (CLOSED, (), ("", [("<module>", 10, {}), ("f", 9, {"x": 1})])),
        (ENTRIES, (), ("", [("<module>", 8, {}), ("__next__", 5, {})])),
        (ENTRIES, (8, raises_first()), ("", [("<module>", 10, {}), ("__next__", 5, {})])),
    ]
    bad = 0
    for text, hook, settled in rows:
        found = ended(runner, text, *hook)
        if found != settled:
            bad += 1
            print(text, settled, found, sep="\n")
    print(f"{len(rows)} scripts, {bad} with a difference")
    return bad > 0


if __name__ == "__main__":
    sys.exit(deep.call(main))
