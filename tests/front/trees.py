"""What CPython's ast says of a script, printed as lists in parentheses, each statement behind its line."""
import ast

SIGNS = {
    ast.Add: "+", ast.Sub: "-", ast.Mult: "*", ast.Div: "/", ast.FloorDiv: "//", ast.Mod: "%", ast.Pow: "**",
    ast.BitAnd: "&", ast.BitOr: "|", ast.BitXor: "^", ast.LShift: "<<", ast.RShift: ">>",
    ast.UAdd: "+", ast.USub: "-", ast.Invert: "~", ast.Not: "not", ast.And: "and", ast.Or: "or",
    ast.Lt: "<", ast.LtE: "<=", ast.Gt: ">", ast.GtE: ">=", ast.Eq: "==", ast.NotEq: "!=",
    ast.In: "in", ast.NotIn: "not in", ast.Is: "is", ast.IsNot: "is not",
}


def node(name, *parts):
    return " (" + name + "".join(parts) + ")"


def sign(operator):
    return SIGNS[type(operator)]


def all_of(items):
    return "".join(map(expression, items))


def given(item):
    return " -" if item is None else expression(item)


def named(name):
    return " " + (name or "-")


def at(line):
    return " %02d" % (line % 100)


def constant(value):
    if isinstance(value, str):
        return " '" + value + "'"
    if value is ...:
        return " ..."
    if value is None or isinstance(value, bool):
        return " " + str(value)
    return " " + (str(value) if value in (0, 1, 2) else "int")


def pieces(values):
    """The parts of an f-string or of a spec. CPython 3.12 leaves an empty text behind a field that ends a spec."""
    return "".join(piece(v) for v in values if not (isinstance(v, ast.Constant) and v.value == ""))


def piece(value):
    if isinstance(value, ast.Constant):
        return constant(value.value)
    conversion = {-1: "", 115: " !s", 114: " !r"}[value.conversion]
    spec = pieces(value.format_spec.values) if value.format_spec else ""
    return node("field", expression(value.value), conversion, spec)


def clauses(generators):
    return "".join(node("for", expression(g.target), expression(g.iter), all_of(g.ifs)) for g in generators)


def parameter(argument, default):
    return node(argument.arg, given(argument.annotation), given(default))


def parameters(arguments):
    missing = [None] * (len(arguments.args) - len(arguments.defaults))
    plain = "".join(map(parameter, arguments.args, missing + arguments.defaults))
    only = "".join(map(parameter, arguments.kwonlyargs, arguments.kw_defaults))
    star = " *" + arguments.vararg.arg if arguments.vararg else ""
    double = " **" + arguments.kwarg.arg if arguments.kwarg else ""
    return node("parameters", plain, star, node("only", only), double)


def argument(value):
    if isinstance(value, ast.Starred):
        return node("spread", expression(value.value))
    if not isinstance(value, ast.keyword):
        return expression(value)
    if value.arg is None:
        return node("spread named", expression(value.value))
    return node("=", named(value.arg), expression(value.value))


def expression(e):
    match e:
        case ast.Constant(value):
            return constant(value)
        case ast.Name(name):
            return named(name)
        case ast.JoinedStr(values):
            return node("joined", pieces(values))
        case ast.Tuple(items):
            return node("tuple", all_of(items))
        case ast.List(items):
            return node("list", all_of(items))
        case ast.Set(items):
            return node("set", all_of(items))
        case ast.Dict(keys, values):
            return node("dict", "".join(expression(k) + expression(v) for k, v in zip(keys, values)))
        case ast.Attribute(value, name):
            return node(".", expression(value), named(name))
        case ast.Subscript(value, index):
            return node("item", expression(value), expression(index))
        case ast.Slice(lower, upper, step):
            return node("slice", given(lower), given(upper), given(step))
        case ast.UnaryOp(operator, operand):
            return node(sign(operator), expression(operand))
        case ast.BinOp(left, operator, right):
            return node(sign(operator), expression(left), expression(right))
        case ast.Compare(left, operators, values):
            links = "".join(" " + sign(o) + expression(v) for o, v in zip(operators, values))
            return node("compare", expression(left), links)
        case ast.BoolOp(operator, values):
            return node(sign(operator), all_of(values))
        case ast.IfExp(test, body, otherwise):
            return node("if", expression(test), expression(body), expression(otherwise))
        case ast.Call(callee, values, keywords):
            ordered = sorted(values + keywords, key=lambda v: (v.lineno, v.col_offset))
            return node("call", expression(callee), "".join(map(argument, ordered)))
        case ast.Lambda(arguments, body):
            return node("lambda", parameters(arguments), expression(body))
        case ast.ListComp(item, generators):
            return node("list for", expression(item), clauses(generators))
        case ast.SetComp(item, generators):
            return node("set for", expression(item), clauses(generators))
        case ast.DictComp(key, value, generators):
            return node("dict for", expression(key), expression(value), clauses(generators))
        case ast.GeneratorExp(item, generators):
            return node("generator", expression(item), clauses(generators))
        case ast.Yield(value):
            return node("yield", given(value))
        case ast.YieldFrom(value):
            return node("yield from", expression(value))
        case ast.Starred(value):
            return node("starred", expression(value))
    raise ValueError(e)


def block(body, source):
    return node("block", "".join(statement(s, source) for s in body))


def aliases(names):
    return "".join(named(a.name) + named(a.asname) for a in names)


def decorators(items):
    return "".join(node("@", at(d.lineno), expression(d)) for d in items)


def is_elif(body, source):
    return len(body) == 1 and isinstance(body[0], ast.If) and source[body[0].lineno - 1][body[0].col_offset:].startswith("elif")


def choice(s, source):
    branches = ""
    while True:
        branches += node("branch", at(s.lineno), expression(s.test), block(s.body, source))
        if not is_elif(s.orelse, source):
            return node("if", branches, block(s.orelse, source))
        s = s.orelse[0]


def handler(h, source):
    return node("except", at(h.lineno), given(h.type), named(h.name), block(h.body, source))


def item(i):
    return node("item", expression(i.context_expr), expression(i.optional_vars) if i.optional_vars else "")


def definition(s, name, *parts):
    start = s.decorator_list[0].lineno if s.decorator_list else s.lineno
    return at(start) + node(name, decorators(s.decorator_list), at(s.lineno), named(s.name), *parts)


def statement(s, source):
    line = at(s.lineno)
    match s:
        case ast.Expr(value):
            return line + node("expr", expression(value))
        case ast.Assign(targets, value):
            return line + node("assign", all_of(targets), expression(value))
        case ast.AugAssign(target, operator, value):
            return line + node("augmented", expression(target), " " + sign(operator), expression(value))
        case ast.AnnAssign(target, annotation, value):
            return line + node("annotated", expression(target), expression(annotation), given(value))
        case ast.Assert(test, message):
            return line + node("assert", expression(test), given(message))
        case ast.Pass():
            return line + " pass"
        case ast.Break():
            return line + " break"
        case ast.Continue():
            return line + " continue"
        case ast.Delete(targets):
            return line + node("del", all_of(targets))
        case ast.Return(value):
            return line + node("return", given(value))
        case ast.Raise(None):
            return line + " raise"
        case ast.Raise(exception, cause):
            return line + node("raise", expression(exception), given(cause))
        case ast.Import(names):
            return line + node("import", aliases(names))
        case ast.ImportFrom(module, names):
            return line + node("from", named(module), aliases(names))
        case ast.Global(names):
            return line + node("global", "".join(map(named, names)))
        case ast.Nonlocal(names):
            return line + node("nonlocal", "".join(map(named, names)))
        case ast.If():
            return line + choice(s, source)
        case ast.While(test, body, otherwise):
            return line + node("while", expression(test), block(body, source), block(otherwise, source))
        case ast.For(target, iterable, body, otherwise):
            return line + node("for", expression(target), expression(iterable), block(body, source), block(otherwise, source))
        case ast.Try(body, handlers, otherwise, final):
            parts = "".join(handler(h, source) for h in handlers)
            return line + node("try", block(body, source), parts, block(otherwise, source), block(final, source))
        case ast.With(items, body):
            return line + node("with", "".join(map(item, items)), block(body, source))
        case ast.FunctionDef():
            return definition(s, "def", parameters(s.args), given(s.returns), block(s.body, source))
        case ast.ClassDef():
            return definition(s, "class", given(s.bases[0] if s.bases else None), block(s.body, source))
    raise ValueError(s)


def script(text):
    source = text.splitlines()
    return "".join(statement(s, source) for s in ast.parse(text).body)
