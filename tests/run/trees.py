"""The tree of a script as the plain data of `pt_tree/specs/Syntax`, from CPython's ast. Names stand for themselves, as texts."""
import ast

from definitions import listed

BLOCKS = (ast.FunctionDef, ast.ClassDef, ast.Lambda, ast.GeneratorExp)
BINARY = {ast.Add: "Add", ast.Sub: "Sub", ast.Mult: "Mul", ast.Div: "Div", ast.FloorDiv: "FloorDiv", ast.Mod: "Mod", ast.Pow: "Pow",
          ast.BitAnd: "BitAnd", ast.BitOr: "BitOr", ast.BitXor: "BitXor", ast.LShift: "LeftShift", ast.RShift: "RightShift"}
UNARY = {ast.UAdd: "Plus", ast.USub: "Minus", ast.Invert: "Invert"}
COMPARE = {ast.Lt: "Less", ast.LtE: "LessEqual", ast.Gt: "Greater", ast.GtE: "GreaterEqual", ast.Eq: "Equal", ast.NotEq: "NotEqual",
           ast.In: "In", ast.NotIn: "NotIn", ast.Is: "Is", ast.IsNot: "IsNot"}


def operator(table, node):
    return (table[type(node)],)


def option(x):
    return ("None",) if x is None else ("Some", x)


def chain(make, parts, end):
    for part in reversed(parts):
        end = make(part, end)
    return end


class Trees:
    """`numbers` gives the node of each block its number, in the order in which they start."""

    @staticmethod
    def word(text):
        """A name or a text."""
        return text

    @staticmethod
    def integer(value):
        return value

    def __init__(self, text):
        self.lines = text.split("\n")
        self.module = ast.parse(text)
        nodes = [n for n in ast.walk(self.module) if isinstance(n, BLOCKS)]
        nodes.sort(key=lambda n: (n.lineno, n.col_offset))
        self.nodes = [self.module] + nodes
        self.numbers = {n: i for i, n in enumerate(self.nodes)}
        self.tree = self.statements(self.module.body)

    # expressions
    def exps(self, es):
        return chain(lambda e, r: ("more_exps", self.exp(e), r), es, ("no_exps",))

    def opt(self, e):
        return ("given", self.exp(e)) if e is not None else ("absent",)

    def constant(self, value):
        if value is None:
            return ("None",)
        if value is ...:
            return ("Ellipsis",)
        if isinstance(value, str):
            return ("Str", self.word(value))
        return ("Bool", value) if isinstance(value, bool) else ("Int", self.integer(value))

    def pieces(self, values):
        def one(v, rest):
            if isinstance(v, ast.Constant):
                return ("literal", v.lineno, self.word(v.value), rest)
            spec = v.format_spec.values if v.format_spec else []
            spec = [s for s in spec if not (isinstance(s, ast.Constant) and s.value == "")]
            conversion = {-1: None, 115: ("Str",), 114: ("Repr",)}[v.conversion]
            return ("field", v.lineno, self.exp(v.value), option(conversion), self.pieces(spec), rest)
        return chain(one, values, ("no_pieces",))

    def arguments(self, call):
        def one(a, rest):
            if isinstance(a, ast.Starred):
                return ("spread", self.exp(a.value), rest)
            if isinstance(a, ast.keyword):
                return ("named", self.word(a.arg), self.exp(a.value), rest) if a.arg else ("spread_named", self.exp(a.value), rest)
            return ("positional", self.exp(a), rest)
        return chain(one, sorted(call.args + call.keywords, key=lambda v: (v.lineno, v.col_offset)), ("no_args",))

    def clauses(self, first, rest):
        parts = [("if", test) for test in first.ifs]
        for c in rest:
            parts += [("for", c)] + [("if", test) for test in c.ifs]

        def one(part, end):
            kind, x = part
            if kind == "if":
                return ("only_if", self.exp(x), end)
            return ("for_each", x.target.lineno, self.target(x.target), self.exp(x.iter), end)
        return chain(one, parts, ("no_clauses",))

    def comprehended(self, e):
        first, *rest = e.generators
        return first.target.lineno, self.target(first.target), self.exp(first.iter), self.clauses(first, rest)

    def exp(self, e):
        l = e.lineno
        match e:
            case ast.Constant(value):
                return ("constant", l, self.constant(value))
            case ast.Name(x):
                return ("name", l, self.word(x))
            case ast.JoinedStr(values):
                return ("joined", l, self.pieces(values))
            case ast.Tuple(items):
                return ("tuple", l, self.exps(items))
            case ast.List(items):
                return ("list", l, self.exps(items))
            case ast.Set(items):
                return ("set", l, self.exps(items))
            case ast.Dict(keys, values):
                return ("dict", l, chain(lambda kv, r: ("entry", self.exp(kv[0]), self.exp(kv[1]), r), list(zip(keys, values)), ("no_entries",)))
            case ast.Attribute(value, x):
                return ("attribute", l, self.exp(value), self.word(x))
            case ast.Subscript(value, index):
                return ("item", l, self.exp(value), self.exp(index))
            case ast.Slice(a, b, c):
                return ("slice", l, self.opt(a), self.opt(b), self.opt(c))
            case ast.UnaryOp(ast.Not(), a):
                return ("not_of", l, self.exp(a))
            case ast.UnaryOp(o, a):
                return ("unary", l, operator(UNARY, o), self.exp(a))
            case ast.BinOp(a, o, b):
                return ("binary", l, operator(BINARY, o), self.exp(a), self.exp(b))
            case ast.Compare(a, os, bs):
                links = chain(lambda ob, r: ("link", operator(COMPARE, ob[0]), self.exp(ob[1]), r), list(zip(os, bs))[1:], ("no_links",))
                return ("compare", l, self.exp(a), operator(COMPARE, os[0]), self.exp(bs[0]), links)
            case ast.BoolOp(o, values):
                return ("and" if isinstance(o, ast.And) else "or", l, self.exp(values[0]), self.exps(values[1:]))
            case ast.IfExp(c, a, b):
                return ("conditional", l, self.exp(c), self.exp(a), self.exp(b))
            case ast.Call(f):
                return ("call", l, self.exp(f), self.arguments(e))
            case ast.Lambda(arguments, body):
                return ("lambda", l, self.numbers[e], self.parameters(arguments), self.exp(body))
            case ast.ListComp(item) | ast.SetComp(item):
                made = ("a_list" if isinstance(e, ast.ListComp) else "a_set", self.exp(item))
                return ("comprehension", l, made, *self.comprehended(e))
            case ast.DictComp(key, value):
                return ("comprehension", l, ("a_dict", self.exp(key), self.exp(value)), *self.comprehended(e))
            case ast.GeneratorExp(item):
                return ("generator", l, self.numbers[e], self.exp(item), *self.comprehended(e))
            case ast.Yield(value):
                return ("yield", l, self.opt(value))
            case ast.YieldFrom(value):
                return ("yield_from", l, self.exp(value))
        raise ValueError(ast.dump(e))

    # targets and parameters
    def place(self, t):
        match t:
            case ast.Name(x):
                return ("name_at", t.lineno, self.word(x))
            case ast.Attribute(value, x):
                return ("attribute_at", t.lineno, self.exp(value), self.word(x))
            case ast.Subscript(value, index):
                return ("item_at", t.lineno, self.exp(value), self.exp(index))

    def target(self, t):
        match t:
            case ast.Tuple(items):
                return ("several", t.lineno, ("as_tuple",), self.targets(items))
            case ast.List(items):
                return ("several", t.lineno, ("as_list",), self.targets(items))
            case ast.Starred(inner):
                return ("starred", t.lineno, self.target(inner))
        return ("single", self.place(t))

    def targets(self, ts):
        return chain(lambda t, r: ("more_targets", self.target(t), r), ts, ("no_targets",))

    def formals(self, names, defaults):
        def one(nd, rest):
            n, d = nd
            return ("formal", n.lineno, self.word(n.arg), self.opt(n.annotation), self.opt(d), rest)
        return chain(one, list(zip(names, defaults)), ("no_formals",))

    def named_parameter(self, a):
        return option(None if a is None else {"line": {"0": a.lineno}, "name": self.word(a.arg)})

    def parameters(self, a):
        plain = [None] * (len(a.args) - len(a.defaults)) + a.defaults
        return ("parameters", self.formals(a.args, plain), self.named_parameter(a.vararg), self.formals(a.kwonlyargs, a.kw_defaults),
                self.named_parameter(a.kwarg))

    # statements
    def statements(self, body):
        return chain(lambda s, r: ("more", self.statement(s), r), body, ("none",))

    def aliases(self, names):
        return listed({"name": self.word(a.name), "alias": self.named(a.asname)} for a in names)

    def named(self, x):
        return option(x and self.word(x))

    def branches(self, s):
        """The branches of an `if`, and its `else`."""
        found = [(s.lineno, s.test, s.body)]
        while len(s.orelse) == 1 and isinstance(s.orelse[0], ast.If) and self.is_elif(s.orelse[0]):
            s = s.orelse[0]
            found.append((s.lineno, s.test, s.body))
        made = chain(lambda b, r: ("branch", b[0], self.exp(b[1]), self.statements(b[2]), r), found, ("no_branches",))
        return made, self.statements(s.orelse)

    def is_elif(self, s):
        return self.lines[s.lineno - 1][s.col_offset:].startswith("elif")

    def handlers(self, hs):
        return chain(lambda h, r: ("handler", h.lineno, self.opt(h.type), self.named(h.name), self.statements(h.body), r), hs, ("no_handlers",))

    def items(self, items):
        def one(i, rest):
            return ("with_item", i.context_expr.lineno, self.exp(i.context_expr), option(i.optional_vars and self.target(i.optional_vars)), rest)
        return chain(one, items, ("no_items",))

    def decorators(self, ds):
        return chain(lambda d, r: ("decorator", d.lineno, self.exp(d), r), ds, ("no_decorators",))

    def statement(self, s):
        l = s.lineno
        match s:
            case ast.Expr(value):
                return ("expr", l, self.exp(value))
            case ast.Assign(targets, value):
                return ("assign", l, self.targets(targets), self.exp(value))
            case ast.AugAssign(target, o, value):
                return ("augmented", l, self.place(target), operator(BINARY, o), self.exp(value))
            case ast.AnnAssign(target, annotation, value):
                return ("annotated", l, self.place(target), self.exp(annotation), self.opt(value))
            case ast.Assert(test, message):
                return ("assert", l, self.exp(test), self.opt(message))
            case ast.Pass() | ast.Break() | ast.Continue():
                return (type(s).__name__.lower(), l)
            case ast.Delete(targets):
                return ("del", l, self.targets(targets))
            case ast.Return(value):
                return ("return", l, self.opt(value))
            case ast.Raise(None, None):
                return ("raise_again", l)
            case ast.Raise(exception, cause):
                return ("raise", l, self.exp(exception), self.opt(cause))
            case ast.Import(names):
                return ("import", l, self.aliases(names))
            case ast.ImportFrom(origin, names):
                return ("import_from", l, self.word(origin), self.aliases(names))
            case ast.Global(names) | ast.Nonlocal(names):
                return (type(s).__name__.lower(), l, listed(map(self.word, names)))
            case ast.If():
                return ("choice", l, *self.branches(s))
            case ast.While(test, body, otherwise):
                return ("while", l, self.exp(test), self.statements(body), self.statements(otherwise))
            case ast.For(target, iterable, body, otherwise):
                return ("for", l, self.target(target), self.exp(iterable), self.statements(body), self.statements(otherwise))
            case ast.Try(body, hs, otherwise, final):
                return ("try", l, self.statements(body), self.handlers(hs), self.statements(otherwise), self.statements(final))
            case ast.With(items, body):
                return ("with", l, self.items(items), self.statements(body))
            case ast.FunctionDef(x, arguments, body, ds):
                return ("def", self.first(s), self.decorators(ds), l, self.numbers[s], self.word(x), self.parameters(arguments), self.opt(s.returns),
                        self.statements(body))
            case ast.ClassDef(x, bases, _, body, ds):
                return ("class", self.first(s), self.decorators(ds), l, self.numbers[s], self.word(x), self.opt(bases[0] if bases else None),
                        self.statements(body))
        raise ValueError(ast.dump(s))

    @staticmethod
    def first(s):
        return s.decorator_list[0].lineno if s.decorator_list else s.lineno
