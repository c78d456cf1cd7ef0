"""A host on Python values for the definitions of `sem_run.run`: what depends on values is done by Python itself, and what runs a block, or
a generator of the script, is asked of the run. A rule of the host is a generator that yields requests."""
import builtins
import operator
import sys
import types

from definitions import items, listed

BINARY = {"Add": operator.add, "Sub": operator.sub, "Mul": operator.mul, "Div": operator.truediv, "FloorDiv": operator.floordiv,
          "Mod": operator.mod, "Pow": operator.pow, "BitAnd": operator.and_, "BitOr": operator.or_, "BitXor": operator.xor,
          "LeftShift": operator.lshift, "RightShift": operator.rshift}
IN_PLACE = {"Add": operator.iadd, "Sub": operator.isub, "Mul": operator.imul, "Div": operator.itruediv, "FloorDiv": operator.ifloordiv,
            "Mod": operator.imod, "Pow": operator.ipow, "BitAnd": operator.iand, "BitOr": operator.ior, "BitXor": operator.ixor,
            "LeftShift": operator.ilshift, "RightShift": operator.irshift}
UNARY = {"Plus": operator.pos, "Minus": operator.neg, "Invert": operator.invert}
COMPARE = {"Less": operator.lt, "LessEqual": operator.le, "Greater": operator.gt, "GreaterEqual": operator.ge, "Equal": operator.eq,
           "NotEqual": operator.ne, "In": lambda a, b: a in b, "NotIn": lambda a, b: a not in b, "Is": operator.is_, "IsNot": operator.is_not}
NONE = ("None",)
TT = ("tt",)
DISABLE = sys.monitoring.DISABLE
MISSING = sys.monitoring.MISSING


class Raised(Exception):
    """A rule ends with this exception of the script, which arises there or arrives."""

    def __init__(self, exception, arises=True):
        self.exception, self.arises = exception, arises


class Cell:
    __slots__ = ("value",)


class Names:
    """Those of an activation."""

    def __init__(self, cells):
        self.values, self.cells = {}, cells

    def left(self):
        """The same as the activation is left: what is bound later in its cells doesn't change them."""
        kept = Names({})
        kept.values = {**self.values, **{x: c.value for x, c in self.cells.items() if hasattr(c, "value")}}
        return kept


class Function:
    def __init__(self, block, defaults, cells):
        self.block, self.defaults, self.cells = block, defaults, cells
        self.binder = block.binder(defaults)

    def __get__(self, instance, owner=None):
        return self if instance is None else Method(self, instance)


class Method:
    def __init__(self, function, instance):
        self.function, self.instance = function, instance


class Generator:
    def __init__(self, number, block):
        self.number, self.block = number, block


class OfGenerator:
    """`send`, `throw`, `close` or `__next__` of a generator."""

    def __init__(self, generator, name):
        self.generator, self.name = generator, name


class World:
    """The names of the module, and the entries of each exception's traceback, the newest last."""

    def __init__(self):
        self.globals, self.entries = {"__name__": "script"}, {}


def native(f, *xs, **ks):
    try:
        return f(*xs, **ks)
    except BaseException as e:
        e.__traceback__ = e.__context__ = None
        raise Raised(e) from None


def with_context(e, active):
    """An exception that arises while another one is active has that as its context, and no exception comes twice in a chain."""
    if active in (NONE, ("Some", e)):
        return e
    x = active[1]
    while x.__context__ not in (None, e):
        x = x.__context__
    x.__context__ = None
    e.__context__ = active[1]
    return e


def row(values):
    out = TT
    for v in reversed(values):
        out = ("×", v, out)
    return out


def answering(rule, here, store):
    """The answer that a rule makes."""
    def resume(value, now):
        try:
            request = rule.send(value)
        except StopIteration as end:
            return ("answer", end.value, now)
        except Raised as r:
            return ("raise", with_context(r.exception, here["active"]) if r.arises else r.exception, now)
        if request[0] == "print":
            return ("print", request[1], resume(None, now))
        return ("request", request, now, lambda response: lambda later: resume(response, later))
    return resume(None, store)


class Host:
    def __init__(self, blocks):
        """`blocks` are those of the script by number: their scopes, binders and so on."""
        self.blocks = blocks
        self.special = {print: self.print, next: self.builtin_next, list: self.builtin_list, iter: self.builtin_iter}

    def record(self):
        return {
            "null": None,
            "first_line": lambda b: self.blocks[b["number"]].first_line,
            "answers": lambda ask: lambda here: lambda store: answering(getattr(self, "ask_" + ask[0])(ask, here, store), here, store),
            "hears": lambda hook: lambda f: lambda event: lambda here: lambda store: answering(f(hook, event, here, store), here, store),
            "unless_null": lambda v: NONE if v is None else ("Some", v),
            "is_disable": lambda v: v is DISABLE,
            "is_stop": lambda v: lambda w: isinstance(v, StopIteration),
            "callee": lambda f: lambda roles: lambda xs: lambda w: self.callee(f, items(roles), items(xs)),
            "makes": lambda failure: lambda here: lambda w: ("made", self.failure(failure, here["active"]), w),
            "arises": lambda v: lambda here: lambda w: (with_context(v, here["active"]), w)[1],
            "enters": lambda v: lambda entry: lambda w: (w.entries.setdefault(id(v), (v, []))[1].append(entry), w)[1],
            "leaving": lambda v: lambda w: ("fails", listed(reversed(w.entries[id(v)][1]))),
            "names_left": lambda names: lambda w: names.left(),
            "log_line": lambda event: lambda w: (),
        }

    @staticmethod
    def failure(failure, active):
        match failure[0]:
            case "too_deep":
                return with_context(RecursionError("maximum recursion depth exceeded"), active)
            case "generator_exit":
                return GeneratorExit()
            case "stop_iteration":
                e = RuntimeError("generator raised StopIteration")
                e.__cause__ = e.__context__ = failure[1]
                return e
        return with_context(ValueError("this event can't be disabled"), active)

    @staticmethod
    def callee(f, roles, xs):
        first = MISSING
        for role, x in zip(roles, xs):
            if role[0] == "positional" or role[0] == "spread" and x:
                first = x if role[0] == "positional" else x[0]
                break
        is_script = isinstance(f, (Function, Method)) or isinstance(f, type) and f.__module__ == "script"
        return {"first": first, "is_builtin": not is_script}

    # names
    def load(self, v, names, world):
        scope, x = v["scope"][0], v["name"]
        if scope in ("cell", "free"):
            cell = names.cells[x]
            if not hasattr(cell, "value"):
                raise Raised((UnboundLocalError if scope == "cell" else NameError)(x))
            return cell.value
        if scope in ("local", "of_class") and x in names.values:
            return names.values[x]
        if scope == "local":
            raise Raised(UnboundLocalError(x))
        if x in world.globals:
            return world.globals[x]
        if hasattr(builtins, x):
            return getattr(builtins, x)
        raise Raised(NameError(x))

    @staticmethod
    def store(v, value, names, world):
        scope, x = v["scope"][0], v["name"]
        if scope in ("cell", "free"):
            names.cells[x].value = value
        else:
            (world.globals if scope == "global" else names.values)[x] = value

    @staticmethod
    def delete(v, names, world):
        scope, x = v["scope"][0], v["name"]
        if scope in ("cell", "free"):
            if not hasattr(names.cells[x], "value"):
                raise Raised((UnboundLocalError if scope == "cell" else NameError)(x))
            del names.cells[x].value
        elif x in (names.values if scope != "global" else world.globals):
            del (names.values if scope != "global" else world.globals)[x]
        else:
            raise Raised((UnboundLocalError if scope == "local" else NameError)(x))

    # calls
    def opening(self, block, cells, iterator=NONE, values=None):
        names = Names({**{x: Cell() for x in block.scope.cells}, **cells})
        for x, v in (values or {}).items():
            x = block.scope.spell(x)
            if x in block.scope.cells:
                names.cells[x].value = v
            else:
                names.values[x] = v
        return {"block": {"hidden": False, "number": block.number}, "iterator": iterator, "names": names}

    def call(self, f, xs, ks):
        if isinstance(f, Method):
            return (yield from self.call(f.function, [f.instance] + xs, ks))
        if isinstance(f, Function):
            opening = self.opening(f.block, f.cells, values=native(f.binder, *xs, **ks))
            if f.block.yields:
                return Generator((yield ("makes", opening)), f.block)
            return self.result((yield ("opens", opening))["end"])
        if isinstance(f, OfGenerator):
            return (yield from self.generator_call(f, xs))
        if isinstance(f, type) and f.__module__ == "script":
            made = native(f.__new__, f, *(xs if issubclass(f, BaseException) else ()))
            init = getattr(f, "__init__")
            if isinstance(init, Function):
                yield from self.call(init, [made] + xs, ks)
            elif xs and not issubclass(f, BaseException):
                raise Raised(TypeError("too many arguments"))
            return made
        try:
            special = self.special.get(f)
        except TypeError:
            special = None
        if special:
            return (yield from special(xs, ks))
        return native(f, *xs, **ks)

    @staticmethod
    def result(end):
        if end[0] == "left_by":
            raise Raised(end[1], arises=False)
        return end[1]

    def print(self, xs, ks):
        yield ("print", " ".join(str(x) for x in xs) + "\n")

    # generators
    def resume(self, g, how):
        """What it gives on, or the StopIteration or other exception by which it ends."""
        r = yield ("resumes", g.number, how)
        match r:
            case ("gives_on", v):
                return v
            case ("ends_by", ("gave", v)):
                raise Raised(StopIteration() if v is None else StopIteration(v))
            case ("ends_by", ("left_by", e)):
                raise Raised(e, arises=False)
            case ("throws_back", e):
                raise Raised(e)
            case ("cannot", ("is_running",)):
                raise Raised(ValueError("generator already executing"))
            case ("cannot", ("is_fresh",)):
                raise Raised(TypeError("can't send non-None value to a just-started generator"))
        raise Raised(StopIteration())

    def generator_call(self, f, xs):
        match f.name:
            case "__next__":
                return (yield from self.resume(f.generator, ("by_next",)))
            case "send":
                return (yield from self.resume(f.generator, ("by_send", xs[0])))
            case "throw":
                e = xs[0]() if isinstance(xs[0], type) else xs[0]
                return (yield from self.resume(f.generator, ("by_throw", e)))
        return (yield from self.close(f.generator))

    def close(self, g):
        r = yield ("resumes", g.number, ("by_close",))
        match r:
            case ("gives_on", _):
                raise Raised(RuntimeError("generator ignored GeneratorExit"))
            case ("ends_by", ("left_by", e)) if not isinstance(e, (GeneratorExit, StopIteration)):
                raise Raised(e, arises=False)
            case ("cannot", ("is_running",)):
                raise Raised(ValueError("generator already executing"))

    def next_item(self, i):
        """The next item of an iterator, or the exception by which it says that there is none."""
        try:
            if isinstance(i, Generator):
                return ("an_item", (yield from self.resume(i, ("by_next",))))
            step = getattr(type(i), "__next__", None)
            if isinstance(step, Function):
                return ("an_item", (yield from self.call(step, [i], {})))
        except Raised as r:
            if isinstance(r.exception, StopIteration):
                return ("no_item", ("Some", r.exception))
            raise
        try:
            return ("an_item", native(next, i))
        except Raised as r:
            if isinstance(r.exception, StopIteration):
                return ("no_item", NONE)
            raise

    def iterator(self, v):
        if isinstance(v, Generator):
            return v
        begin = getattr(type(v), "__iter__", None)
        if isinstance(begin, Function):
            return (yield from self.call(begin, [v], {}))
        if isinstance(getattr(type(v), "__next__", None), Function) and begin is None:
            raise Raised(TypeError("not iterable"))
        return native(iter, v)

    def all_items(self, v):
        i = yield from self.iterator(v)
        out = []
        while (item := (yield from self.next_item(i)))[0] == "an_item":
            out.append(item[1])
        return out

    def builtin_next(self, xs, ks):
        item = yield from self.next_item(xs[0])
        if item[0] == "an_item":
            return item[1]
        if len(xs) > 1:
            return xs[1]
        raise Raised(item[1][1] if item[1] != NONE else StopIteration())

    def builtin_list(self, xs, ks):
        return (yield from self.all_items(xs[0])) if xs else []

    def builtin_iter(self, xs, ks):
        return (yield from self.iterator(xs[0]))

    # asks
    def ask_seek(self, ask, here, store):
        names, world = store["names"], store["world"]
        match ask[1]:
            case ("const", k):
                return k[1] if len(k) > 1 else {"None": None, "Ellipsis": ...}[k[0]]
            case ("load", v):
                return self.load(v, names, world)
            case ("cell_of", v):
                return names.cells[v["name"]]
            case ("operate", op, vs):
                return (yield from self.operate(op, items(vs), here))
        yield

    def operate(self, op, vs, here):
        match op:
            case ("tuple",):
                return tuple(vs)
            case ("list",):
                return vs
            case ("set",):
                return native(set, vs)
            case ("dict",):
                return native(lambda: dict(zip(vs[::2], vs[1::2])))
            case ("get", x):
                if isinstance(vs[0], Generator) and x in ("send", "throw", "close", "__next__"):
                    return OfGenerator(vs[0], x)
                return native(getattr, vs[0], x)
            case ("item",):
                return native(operator.getitem, *vs)
            case ("slice",):
                return slice(*vs)
            case ("unary", o):
                return native(UNARY[o[0]], *vs)
            case ("inverted",):
                return native(operator.not_, *vs)
            case ("binary", o):
                return native(BINARY[o[0]], *vs)
            case ("in_place", o):
                return native(IN_PLACE[o[0]], *vs)
            case ("compare", o):
                return native(COMPARE[o[0]], *vs)
            case ("format", c):
                value = {"Str": str, "Repr": repr}[c[1][0]](vs[0]) if c != NONE else vs[0]
                return native(format, value, vs[1] or "")
            case ("join",):
                return "".join(vs)
            case ("spread_out",):
                return (yield from self.all_items(vs[0]))
            case ("spread_named_out",):
                return native(lambda: dict(**vs[0]))
            case ("call", roles):
                xs, ks = [], {}
                for role, v in zip(items(roles), vs[1:]):
                    match role:
                        case ("positional",):
                            xs.append(v)
                        case ("named", x):
                            ks[x] = v
                        case ("spread",):
                            xs += v
                        case ("spread_named",):
                            ks.update(v)
                return (yield from self.call(vs[0], xs, ks))
            case ("function", b, defaulted):
                block, defaulted = self.blocks[b], items(defaulted)
                return Function(block, dict(zip(defaulted, vs)), block.cells(vs[len(defaulted):]))
            case ("class", b):
                return (yield from self.make_class(self.blocks[b], vs))
            case ("generator", b):
                block = self.blocks[b]
                return Generator((yield ("makes", self.opening(block, block.cells(vs[1:]), ("Some", vs[0])))), block)
            case ("import", x):
                return native(__import__, x)
            case ("import_name", x):
                return native(getattr, vs[0], x)

    def make_class(self, block, vs):
        r = yield ("opens", self.opening(block, block.cells(vs[1:])))
        self.result(r["end"])
        values = {**r["names"].values, "__module__": "script"}
        return native(type, block.name, (vs[0],) if vs[0] is not None else (), values)

    def ask_deed(self, ask, here, store):
        names, world = store["names"], store["world"]
        match ask[1]:
            case ("store", v, value):
                self.store(v, value, names, world)
            case ("set_attribute", x, a, v):
                native(setattr, a, x, v)
            case ("set_item", a, i, v):
                native(operator.setitem, a, i, v)
            case ("delete", v):
                self.delete(v, names, world)
            case ("delete_attribute", x, a):
                native(delattr, a, x)
            case ("delete_item", a, i):
                native(operator.delitem, a, i)
            case ("add_to_list", made, v):
                made.append(v)
            case ("add_to_set", made, v):
                native(made.add, v)
            case ("add_to_dict", made, k, v):
                native(made.__setitem__, k, v)
            case ("fresh", v):
                if v["scope"][0] == "cell":
                    names.cells[v["name"]] = Cell()
                else:
                    names.values.pop(v["name"], None)
        return TT
        yield

    def ask_leave(self, ask, here, store):
        return TT
        yield

    def ask_throw(self, ask, here, store):
        match ask[1]:
            case ("raising", e, cause):
                if isinstance(e, type):
                    e = yield from self.call(e, [], {})
                if not isinstance(e, BaseException):
                    raise Raised(TypeError("exceptions must derive from BaseException"))
                if cause != NONE:
                    e.__cause__ = (yield from self.call(cause[1], [], {})) if isinstance(cause[1], type) else cause[1]
                raise Raised(e)
            case ("raising_again",):
                raise Raised(here["active"][1] if here["active"] != NONE else RuntimeError("No active exception to reraise"))
            case ("failing", m):
                raise Raised(AssertionError(*m[1:]))

    def ask_test(self, ask, here, store):
        match ask[1]:
            case ("branch", v):
                return native(bool, v)
            case ("matches", e, c):
                if c is None:
                    return True
                kinds = c if isinstance(c, tuple) else (c,)
                if not all(isinstance(k, type) and issubclass(k, BaseException) for k in kinds):
                    raise Raised(TypeError("catching classes that do not inherit from BaseException is not allowed"))
                return isinstance(e, c)
            case ("exit_of", f, e):
                xs = [None, None, None] if e == NONE else [type(e[1]), e[1], None]
                return native(bool, (yield from self.call(f, xs, {})))

    def ask_iter_of(self, ask, here, store):
        return (yield from self.iterator(ask[1]))

    def ask_next_of(self, ask, here, store):
        return (yield from self.next_item(ask[1]))

    def ask_enter(self, ask, here, store):
        kind = type(ask[1])
        for x in ("__enter__", "__exit__"):
            if not hasattr(kind, x):
                raise Raised(TypeError("no context manager"))
        value = yield from self.call(kind.__enter__, [ask[1]], {})
        return ("×", Method(kind.__exit__, ask[1]), value)

    def ask_unpack(self, ask, here, store):
        _, v, n, star = ask
        if isinstance(v, Generator) and star == NONE:
            taken = []
            while len(taken) <= n and (item := (yield from self.next_item(v)))[0] == "an_item":
                taken.append(item[1])
        else:
            taken = yield from self.all_items(v)
        if star == NONE and len(taken) != n or star != NONE and len(taken) < n - 1:
            raise Raised(ValueError("wrong number of values to unpack"))
        if star != NONE:
            behind = n - 1 - star[1]
            end = len(taken) - behind
            taken = taken[:star[1]] + [taken[star[1]:end]] + taken[end:]
        return row(taken)

    def ask_delegate(self, ask, here, store):
        _, i, sent = ask
        try:
            if sent[0] == "raised":
                if not isinstance(i, Generator):
                    raise Raised(sent[1])
                if isinstance(sent[1], GeneratorExit):
                    yield from self.close(i)
                    raise Raised(sent[1])
                return ("passes_on", (yield from self.resume(i, ("by_throw", sent[1]))))
            if isinstance(i, Generator):
                return ("passes_on", (yield from self.resume(i, ("by_next",) if sent[1] is None else ("by_send", sent[1]))))
        except Raised as r:
            if isinstance(r.exception, StopIteration) and r.exception is not sent[1]:
                return ("ends_with", r.exception.value)
            raise
        item = yield from self.next_item(i)
        if item[0] == "an_item":
            return ("passes_on", item[1])
        return ("ends_with", item[1][1].value if item[1] != NONE else None)
