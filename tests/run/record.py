"""What CPython 3.12.1 tells a trace function and the callbacks of a tool about a script."""
import builtins
import contextlib
import io
import sys
import types

from host import Function, Generator, Method, OfGenerator

FILE = "<script>"
M = sys.monitoring
TOOL = 3
KINDS = ["PY_START", "PY_RESUME", "PY_RETURN", "PY_YIELD", "PY_THROW", "PY_UNWIND", "LINE", "RAISE", "CALL", "C_RETURN", "C_RAISE"]
CALLS = ("CALL", "C_RETURN", "C_RAISE")


def callee(f):
    """What is called, in the same words for both. CPython calls the function of a method."""
    if isinstance(f, (types.MethodType, Method)):
        return "<function>"
    if isinstance(f, (types.MethodDescriptorType, types.WrapperDescriptorType, types.MethodWrapperType)):
        return "<builtin>"
    return describe(f)


def is_own_call(kind, f):
    """What CPython alone calls: to make a class, to begin a generator expression, for an `assert`, to leave a `with`. A class of the script
    is a builtin for CPython."""
    if f is builtins.__build_class__ or f is AssertionError:
        return True
    if isinstance(f, types.FunctionType) and f.__name__ == "<genexpr>" or isinstance(f, types.MethodType) and f.__name__ == "__exit__":
        return True
    return kind != "CALL" and isinstance(f, type) and f.__module__ in ("script", "__main__")


def describe(v, depth=3):
    """A value, in the same words for those of CPython and those of the host."""
    if isinstance(v, (types.FunctionType, Function)):
        return "<function>"
    if isinstance(v, (types.MethodType, Method)):
        return "<method>"
    if isinstance(v, (types.GeneratorType, Generator)):
        return "<generator>"
    if isinstance(v, (types.BuiltinFunctionType, OfGenerator)):
        return "<builtin>"
    if isinstance(v, type):
        return f"<class {v.__name__}>"
    if isinstance(v, (list, tuple, set)):
        return f"{type(v).__name__}({', '.join(sorted(describe(x, depth - 1) for x in v) if isinstance(v, set) else [describe(x, depth - 1) for x in v])})" if depth else "..."
    if isinstance(v, dict):
        return f"dict({', '.join(describe(k) + ': ' + describe(x, depth - 1) for k, x in v.items())})" if depth else "..."
    if v is None or isinstance(v, (int, str)):
        return repr(v)
    # each builtin iterator is of one class here
    return "<iterator>" if type(v).__module__ == "builtins" and type(v).__name__.endswith("iterator") else f"<{type(v).__name__}>"


class Recorder:
    """`plan` says what the trace function ("trace") and the tool's callbacks ("tool") do at their n-th event. Events that `rules` take
    out are told to nobody: each says whether it does, of a recorder, a stream and an event."""

    def __init__(self, text, plan, rules):
        self.text, self.plan, self.rules = text, plan, rules
        self.lines = text.split("\n")
        self.heard = {"trace": [], "tool": []}
        self.done, self.frames = [], {}
        self.raised, self.last, self.told_last, self.target = {"trace": [], "tool": []}, {}, {}, None
        self.code = compile(self.text, FILE, "exec", dont_inherit=True)
        self.space = {"__name__": "script", "__builtins__": builtins}
        self.first, self.other = self.function("hook", self.trace), self.function("hook", self.second)

    def function(self, name, act):
        """A hook: that function of the script which calls another that does what there is to do, or that one itself."""
        if not self.plan.by_script:
            return act
        code = next(c for c in self.code.co_consts if isinstance(c, types.CodeType) and c.co_name == name)
        return types.FunctionType(code, {"act": act, "__builtins__": builtins})

    def run(self):
        M.use_tool_id(TOOL, "check")
        out = io.StringIO()
        self.end, self.error, self.exits = "done", "", False
        for kind in KINDS:
            M.register_callback(TOOL, getattr(M.events, kind), self.function("called_back", self.callback(kind)))
        try:
            with contextlib.redirect_stdout(out):
                if "tool" in self.plan.streams:
                    M.set_events(TOOL, sum(getattr(M.events, k) for k in KINDS))
                if "trace" in self.plan.streams:
                    sys.settrace(self.first)
                try:
                    exec(self.code, self.space)
                except BaseException as e:
                    sys.settrace(None)
                    self.end, self.error, self.exits = describe(e), str(e), isinstance(e, SystemExit)
                finally:
                    sys.settrace(None)
                    M.set_events(TOOL, 0)
        finally:
            for kind in KINDS:
                M.register_callback(TOOL, getattr(M.events, kind), None)
            M.restart_events()
            M.free_tool_id(TOOL)
        self.out = out.getvalue()
        return self

    def hears(self, stream, kind, frame, line, told, is_other=False):
        """The number of an event, or none where a rule takes it out."""
        event = (kind, (frame.f_code.co_name, frame.f_code.co_firstlineno), line, told, is_other, self.frames.setdefault(frame, len(self.frames)))
        if any([rule(self, stream, event) for rule in self.rules]):
            return None
        self.heard[stream].append(event)
        return len(self.heard[stream]) - 1

    def trace(self, frame, kind, argument):
        return self.traced(self.first, frame, kind, argument)

    def second(self, frame, kind, argument):
        return self.traced(self.other, frame, kind, argument)

    def traced(self, function, frame, kind, argument):
        if frame.f_code.co_filename != FILE:
            return None
        told = "" if kind in ("call", "line") else describe(argument[1] if kind == "exception" else argument)
        n = self.hears("trace", kind, frame, frame.f_lineno, told, function is self.other)
        return function if n is None else self.plan.trace(n, self, kind, frame, function)

    def callback(self, kind):
        def called(code, place, *arguments):
            if code.co_filename != FILE:
                return None
            if kind in CALLS and is_own_call(kind, arguments[0]):
                return None
            frame = sys._getframe(2 if self.plan.by_script else 1)
            told = "" if kind in ("PY_START", "PY_RESUME", "LINE") else callee(arguments[0]) if kind in CALLS else describe(arguments[0])
            n = self.hears("tool", kind, frame, place if kind == "LINE" else frame.f_lineno, told)
            return None if n is None else self.plan.tool(n, self, kind)
        return called

    def raises(self, stream):
        """The hook raises at the event that it was told last."""
        kind, frame = self.heard[stream][-1][0], self.heard[stream][-1][-1]
        if kind not in ("RAISE", "exception"):
            for raised in self.raised.values():
                raised.append(frame)
