"""Compares what the definitions of a run tell of random scripts with what CPython 3.12.1 tells.

  check.py [--crates FOLDER] [--from N] [--many N] [--plans N] [--show SEED]
"""
import argparse
import ast
import collections
import os
import pickle
import random
import re
import sys
import traceback
import types
import warnings

sys.path.append(os.path.join(os.path.dirname(os.path.abspath(__file__)), ".."))

import deep  # noqa: E402
from host import DISABLE, NONE, Function, Generator, Raised  # noqa: E402
from record import CALLS, KINDS, TOOL, Recorder, callee, describe  # noqa: E402
from run import Runner  # noqa: E402
from scripts import HEAD, script  # noqa: E402

EVENTS = {"starts": "PY_START", "resumes": "PY_RESUME", "returns": "PY_RETURN", "yields": "PY_YIELD", "throws": "PY_THROW", "unwinds": "PY_UNWIND",
          "line": "LINE", "raises": "RAISE", "calls": "CALL", "returns_from": "C_RETURN", "raises_from": "C_RAISE"}
TRACED = {"starts": "call", "resumes": "call", "throws": "call", "line": "line", "returns": "return", "yields": "return", "unwinds": "return",
          "raises": "exception"}
BITS = {"PY_START": 0, "PY_RESUME": 1, "PY_RETURN": 2, "PY_YIELD": 3, "PY_THROW": 4, "PY_UNWIND": 5, "CALL": 6, "C_RETURN": 7, "C_RAISE": 8,
        "LINE": 9, "RAISE": 12}


class HookFault(Exception):
    """What a hook raises."""


class Plan:
    """What hooks do at their n-th event, by name. `by_script` says whether hooks are functions of the script, which run in activations of
    their own."""

    def __init__(self, trace=None, tool=None, streams=("trace", "tool"), by_script=False):
        self.traces, self.tools, self.streams, self.by_script = trace or {}, tool or {}, streams, by_script

    # on CPython's side
    def trace(self, n, recorder, kind, frame, function):
        match self.traces.get(n):
            case "raise":
                recorder.raises("trace")
                raise HookFault(n)
            case "none":
                return None
            case "second":
                return recorder.other
            case "unset":
                sys.settrace(None)
            case "lines_off":
                frame.f_trace_lines = False
            case "resume":
                recorder.done.append(resume(recorder.space))
            case ("jump", line):
                try:
                    frame.f_lineno = line
                    recorder.done.append("jumped")
                    recorder.target = (recorder.frames[frame], line)
                    recorder.last["trace", recorder.frames[frame]] = line
                except ValueError as e:
                    recorder.done.append("refused")
        return function

    def tool(self, n, recorder, kind):
        match self.tools.get(n):
            case "raise":
                recorder.raises("tool")
                raise HookFault(n)
            case "disable":
                return sys.monitoring.DISABLE
            case "restart":
                sys.monitoring.restart_events()
            case "resume":
                recorder.done.append(resume(recorder.space))
        return None


def last_kept(space, name_of):
    """The last generator that was kept, not one of a generator expression, whose first line would not be told later."""
    for x in reversed(space.get("K", [])):
        if name_of(x) not in (None, "<genexpr>"):
            return x
    return None


def resume(space):
    """It goes on."""
    x = last_kept(space, lambda x: x.gi_code.co_name if isinstance(x, types.GeneratorType) else None)
    try:
        return describe(next(x)) if x else "none"
    except BaseException as e:
        return describe(e)


class Hooks:
    """The same hooks on the side of the definitions."""

    def __init__(self, runner, text, plan):
        self.runner, self.plan, self.lines = runner, plan, text.split("\n")
        self.heard = {"trace": [], "tool": []}
        self.done = []
        self.reasons, self.target, self.told_last = [], None, {}
        self.first, self.other = self.hook(self.trace), self.hook(self.second)
        self.callback = self.hook(self.tool)

    def hook(self, act):
        """A function that is asked: of the script, which calls another that acts, or that one itself."""
        if not self.plan.by_script:
            return act

        def asked(hook, event, here, store):
            self.now = lambda: act(hook, event, here, store)
            return self.host.call(self.called_back if hook[0] == "tool" else self.script_hook, [None, None, None], {})
        return asked

    def begin(self, state, host, world):
        self.blocks, self.host = host.blocks, host
        of = {b.name: b for b in self.blocks}
        self.script_hook, self.called_back = Function(of["hook"], {}, {}), Function(of["called_back"], {}, {})
        world.globals["act"] = act = lambda *xs: None
        host.special[act] = lambda xs, ks: self.now()
        call = self.runner.get("sem_run", "run.Tools", "tool_call")
        tools = state["tools"]
        for c in [("use_id", ("pos", TOOL), ()), ("give_set", ("pos", TOOL), ("pos", sum(1 << BITS[k] for k in KINDS)))] + [
                ("register", ("pos", TOOL), ("pos", 1 << BITS[k]), ("Some", self.callback)) for k in KINDS]:
            answer = call(c, tools)
            assert answer[1][0] != "wrong", answer[1]
            tools = answer[2]
        return {**state, "trace": ("Some", self.first) if "trace" in self.plan.streams else NONE,
                "tools": tools if "tool" in self.plan.streams else state["tools"]}

    def told(self, event, names):
        what = event["what"]
        kind = names[what[0]]
        told = describe(what[1]) if what[0] in ("returns", "yields", "throws", "unwinds", "raises") else ""
        if kind in CALLS:
            told = callee(what[1])
        if what[0] == "unwinds" and event["of_generator"] and isinstance(what[1], StopIteration):
            # as it leaves the block; whoever had it go on gets the RuntimeError, which CPython has in the generator already
            told = "<RuntimeError>"
        if names is TRACED and what[0] == "unwinds":
            told = "None"
        if names is TRACED and what[0] == "throws":
            told = ""
        return (kind, self.blocks[event["block"]["number"]].key, event["line"], told)

    def trace(self, hook, event, here, store):
        return self.traced(self.first, False, event, store)

    def second(self, hook, event, here, store):
        return self.traced(self.other, True, event, store)

    def traced(self, function, is_second, event, store):
        told = (*self.told(event, TRACED), is_second, event["frame"])
        if any([rule(self, "trace", told) for rule in (of_ended_iteration, of_jump, of_one_line)]):
            return function
        n = len(self.heard["trace"])
        self.heard["trace"].append(told)
        match self.plan.traces.get(n):
            case "raise":
                raise Raised(HookFault(n))
            case "none":
                return None
            case "second":
                return self.other
            case "unset":
                yield ("gives_trace", NONE)
            case "lines_off":
                yield ("gives_frame_lines", event["frame"], False)
            case "resume":
                yield from self.resume(store)
            case ("jump", line):
                answer = yield ("jumps_to", event["frame"], ("pos", line))
                self.done.append("jumped" if answer == NONE else "refused")
                self.reasons += [] if answer == NONE else [answer[1][0]]
                self.target = (event["frame"], line) if answer == NONE else None
        return function

    def tool(self, hook, event, here, store):
        told = (*self.told(event, EVENTS), False, event["frame"])
        if any([rule(self, "tool", told) for rule in (of_ended_iteration, of_one_line, of_spread_call)]):
            return None
        n = len(self.heard["tool"])
        self.heard["tool"].append(told)
        match self.plan.tools.get(n):
            case "raise":
                raise Raised(HookFault(n))
            case "disable":
                return DISABLE
            case "restart":
                yield ("calls_tools", ("restart",))
            case "resume":
                yield from self.resume(store)
        return None

    def resume(self, store):
        x = last_kept(store["world"].globals, lambda x: x.block.name if isinstance(x, Generator) else None)
        try:
            self.done.append(describe((yield from self.host.resume(x, ("by_next",)))) if x else "none")
        except Raised as r:
            self.done.append(describe(r.exception))


# Differences that docs/DECISIONS.md lists. What only CPython tells: each rule says of an event whether it is one
def of_class_head(recorder, stream, event):
    """A class's body has no act on the line of its head, unless it stands there."""
    if event[0] not in ("LINE", "line") or event[2] != event[1][1] or event[1][0] == "<module>":
        return False
    head = recorder.lines[event[2] - 1].strip()
    return head.startswith("@") or head.startswith("class") and head.endswith(":")


def of_same_line(recorder, stream, event):
    """Behind the first item of a comprehension, at the second exit of a `with`, and where the parts of a decision meet, a line is told
    where it changes."""
    if event[0] not in ("LINE", "line"):
        return False
    again = recorder.last.get((stream, event[-1])) == event[2]
    recorder.last[stream, event[-1]] = event[2]
    return again and bool(re.search(r"[\[({].* for |^\s*with .*, |[^\s] (if|and|or) ", recorder.lines[event[2] - 1]))


def of_hook(recorder, stream, event):
    """A raise of a hook isn't told where the hook was asked."""
    if event[0] in ("RAISE", "exception") and event[3] == "<HookFault>" and event[-1] in recorder.raised[stream]:
        recorder.raised[stream].remove(event[-1])
        return True
    return False


def of_ended_iteration(recorder, stream, event):
    """The StopIteration that ends a loop isn't told where the loop is. This is taken out of both."""
    return event[0] in ("RAISE", "exception") and event[3] == "<StopIteration>" and event[1][0] != "__next__"


def of_jump(recorder, stream, event):
    """The line that a jump goes to is told here, and by CPython not always. This is taken out of both."""
    if stream != "trace" or recorder.target is None or recorder.target[0] != event[-1]:
        return False
    line, recorder.target = recorder.target[1], None
    return event[0] == "line" and event[2] == line


def of_one_line(recorder, stream, event):
    """Where a loop stands on one line, each test again is told here; CPython tells a trace function of each jump back, to a `while` the
    last test is none, and a tool of the first alone. This is taken out of both."""
    if event[0] not in ("LINE", "line"):
        return False
    again = recorder.told_last.get((stream, event[-1])) == event[2]
    recorder.told_last[stream, event[-1]] = event[2]
    loops = r"\s*(for|while) .*: \S" if stream == "tool" else r"\s*while .*: \S"
    return again and bool(re.match(loops, recorder.lines[event[2] - 1]))


def of_spread_call(recorder, stream, event):
    """A call of a function with arguments that are spread is told here alone. This is taken out of both."""
    return event[0] == "CALL" and event[3] == "<function>" and re.search(r"[(,] ?\*", recorder.lines[event[2] - 1]) is not None


RULES = [of_class_head, of_same_line, of_hook, of_ended_iteration, of_jump, of_one_line, of_spread_call]


def alike(events):
    """What is told otherwise: a module that has not begun is on line 0 for CPython, where an exception leaves a frame its line is that
    of the last act here, and so it is where a block comes to its end, of which CPython may have no line."""
    def one(e):
        # the body of a class gives the cell of the class, if it has one, to CPython alone
        if e[0] == "PY_UNWIND" or e[0] in ("return", "PY_RETURN") and e[3] in ("None", "<cell>"):
            return (e[0], e[1], 0, e[3].replace("<cell>", "None"), *e[4:-1])
        return (e[0], e[1], max(e[2], 1), *e[3:-1])
    return [one(e) for e in events]


def first_difference(a, b):
    for i, (x, y) in enumerate(zip(a, b)):
        if x != y:
            return i
    return min(len(a), len(b)) if len(a) != len(b) else None


class Check:
    def __init__(self, crates):
        self.runner = Runner(crates)

    def one(self, text, plan):
        recorder = Recorder(text, plan, RULES).run()
        hooks = Hooks(self.runner, text, plan)
        blocks, world, outputs, ending = self.runner.run(text, hooks)
        end = ending[1] if ending[0] == "ends" else ("stuck",)
        out = "".join(o[1] for o in outputs if o[0] == "prints")
        return recorder, hooks, out, describe(end[1]) if end[0] == "raised" else end[0]

    def compare(self, text, plan):
        """What differs, if anything does."""
        recorder, hooks, out, end = self.one(text, plan)
        if recorder.end != end and not (plan.traces or plan.tools):
            return ["end", recorder.end, end], recorder, hooks
        for stream in ("trace", "tool"):
            a, b = alike(recorder.heard[stream]), alike(hooks.heard[stream])
            i = first_difference(a, b)
            if i is not None:
                return [stream, i, a[max(0, i - 3):i + 3], b[max(0, i - 3):i + 3]], recorder, hooks
        if recorder.out != out:
            return ["out", recorder.out[-200:], out[-200:]], recorder, hooks
        if recorder.done != hooks.done:
            return ["done", recorder.done, hooks.done], recorder, hooks
        if recorder.end != end:
            return ["end", recorder.end, end], recorder, hooks
        return None, recorder, hooks


def starts_of(body):
    """The lines on which statements start, but not those of functions and classes in them."""
    for s in body:
        yield s.lineno
        if not isinstance(s, (ast.FunctionDef, ast.ClassDef)):
            for part in ("body", "orelse", "finalbody"):
                yield from starts_of(getattr(s, part, []))
            for h in getattr(s, "handlers", []):
                yield from starts_of(h.body)


def plan_for(r, text, recorder):
    """Actions at random events of a run, in which no hook did anything. In which order the hooks of one event are asked is the
    program's own, so a trace function and a tool are there together only where neither raises."""
    lines = text.split("\n")
    trace, tool = {}, {}
    tree = ast.parse(text)
    starts, copied = sorted(set(starts_of(tree.body))), finally_lines(tree)
    streams = r.choice([("trace",), ("tool",), ("trace", "tool")])
    by_script = r.random() < 0.6
    for _ in range(r.randint(1, 3)):
        stream = r.choice(streams)
        n = r.randrange(len(recorder.heard[stream]))
        seldom = [i for i, e in enumerate(recorder.heard[stream]) if e[0] in ("PY_YIELD", "PY_RESUME", "PY_THROW", "PY_UNWIND", "RAISE", "exception")
                  or e[0] in ("call", "return") and e[1][0].startswith("g")]
        if seldom and r.random() < 0.3:
            n = r.choice(seldom)
        kind, block, line, *_ = recorder.heard[stream][n]
        # CPython has nothing around what stands for these
        may_raise = len(streams) == 1 and lines[line - 1].strip() not in ("try:", "return", "break", "continue", "pass")
        if stream == "trace":
            near = [k for k in starts if abs(k - line) < 9 and k != line]
            # behind the head, since CPython makes the names of annotations there
            may_jump = near and kind == "line" and block[0] == "<module>" and line > len(HEAD) and len(streams) == 1 and by_script
            # None at the call of a generator that goes on ends its tracing, where CPython leaves it
            goes_on = kind == "call" and (line != block[1] or block[0] == "<genexpr>")
            trace[n] = r.choice(["second" if goes_on else "none", "second", "unset", "lines_off", "resume"] + ["raise"] * 3 * may_raise + ["jump"] * 6 * bool(may_jump))
            if trace[n] == "jump":
                trace[n] = ("jump", r.choice(near))
        else:
            tool[n] = r.choice(["restart", "resume"] + ["disable"] * 3 * may_be_disabled(kind, line, lines, copied) + ["raise"] * 3 * may_raise)
    return Plan(trace, tool, streams, by_script)


def finally_lines(tree):
    """The lines of `finally` parts, of which CPython has several copies."""
    return {k for t in ast.walk(tree) if isinstance(t, ast.Try) for f in t.finalbody for k in range(f.lineno, f.end_lineno + 1)}


def may_be_disabled(kind, line, lines, copied):
    """Whether an act, and an instruction of CPython, stand for the same place: not where CPython has several for one act."""
    loops = re.match(r"\s*(for|while|with|if|elif|except|return)\b", lines[line - 1])
    return kind in ("PY_START", "PY_YIELD", "PY_RESUME", "LINE") and not loops and line not in copied and not re.search(r" (for|if|and|or) ", lines[line - 1])


def tries(check, seed, plans):
    """What comes of a script without actions of hooks, and with some, as often as is said."""
    text = script(seed)
    difference, recorder, hooks = check.compare(text, Plan())
    yield Plan(), difference, recorder, hooks
    r = random.Random(seed)
    for _ in range(plans if not difference else 0):
        plan = plan_for(r, text, recorder)
        yield plan, *check.compare(text, plan)


def of_try(plan, difference, recorder, hooks):
    """What is counted of one, in plain values."""
    jump = [next((d for d in done if d in ("jumped", "refused")), None) for done in (recorder.done, hooks.done)]
    kinds = [k if isinstance(k, str) else k[0] for k in [*plan.traces.values(), *plan.tools.values()]]
    events = len(recorder.heard["tool"]) + len(recorder.heard["trace"])
    return {"plan": vars(plan), "difference": difference, "jump": tuple(jump), "reasons": hooks.reasons, "kinds": kinds, "events": events}


def apart(check, seed, plans):
    """The same in a process of its own, since CPython 3.12.1 itself breaks down at some; then the last is None."""
    reading, writing = os.pipe()
    child = os.fork()
    if child == 0:
        try:
            with os.fdopen(writing, "wb") as f:
                for one in tries(check, seed, plans):
                    pickle.dump(of_try(*one), f)
                    f.flush()
            os._exit(0)
        except BaseException:
            traceback.print_exc()
            os._exit(1)
    os.close(writing)
    out = []
    with os.fdopen(reading, "rb") as f:
        while True:
            try:
                out.append(pickle.load(f))
            except EOFError:
                break
    status = os.waitpid(child, 0)[1]
    if os.WIFSIGNALED(status):
        return out + [None]
    if status:
        raise RuntimeError(f"the check itself failed at {seed}")
    return out


def main():
    p = argparse.ArgumentParser()
    p.add_argument("--crates", default="../../crates")
    p.add_argument("--from", type=int, default=0, dest="first")
    p.add_argument("--many", type=int, default=100)
    p.add_argument("--plans", type=int, default=3)
    p.add_argument("--show", type=int)
    a = p.parse_args()
    check = Check(a.crates)
    list(tries(check, 0, 3))
    seeds = [a.show] if a.show is not None else range(a.first, a.first + a.many)
    bad = events = runs = broken = alone = 0
    kinds, jumps, reasons = collections.Counter(), collections.Counter(), collections.Counter()
    for seed in seeds:
        for one in apart(check, seed, a.plans):
            if one is None:
                broken += 1
                print(f"{seed}: CPython broke down")
                continue
            runs += 1
            events += one["events"]
            kinds.update(one["kinds"])
            if any(one["jump"]):
                jumps[one["jump"]] += 1
            if one["difference"] and one["jump"] == ("jumped", "refused"):
                alone += 1
                reasons.update(one["reasons"])
            elif one["difference"]:
                bad += 1
                print(seed, one["plan"], *one["difference"], sep="\n    ")
        if a.show is not None:
            print("\n".join(f"{i + 1:3} {line}" for i, line in enumerate(script(seed).split("\n"))))
    print(", ".join(f"{k} {n}" for k, n in sorted(kinds.items())))
    print(", ".join(f"CPython {a} and the run {b}: {n}" for (a, b), n in jumps.items()), dict(reasons))
    print(f"{len(seeds)} scripts, {runs} runs, {events} events, {broken} broke down, {alone} jumps that CPython alone permits, {bad} with a difference")
    return bad > 0


if __name__ == "__main__":
    warnings.simplefilter("ignore")
    sys.unraisablehook = lambda u: None
    sys.exit(deep.call(main))
