"""The acts of a script's blocks, from CPython's ast: what each part does in the order of evaluation (Language Reference 6.16, 7,
8), with its line (PEP 626). The blocks stand in the order in which their nodes start, and annotations run nothing."""
import ast


def act(kind, line):
    return [(kind, line)]


def again(acts):
    """A loop tests again with the first of these."""
    (kind, line), *rest = acts
    return [(kind + "*", line)] + rest


def all_of(parts):
    return [a for part in parts if part for a in expression(part)]


def joined(values, line):
    return [a for v in values for a in piece(v, line)]


def piece(value, line):
    if isinstance(value, ast.Constant):
        return act("Const", value.lineno)
    spec = []
    if value.format_spec:
        values = [v for v in value.format_spec.values if not (isinstance(v, ast.Constant) and v.value == "")]
        spec = joined(values, line) + (act("Join", value.lineno) if len(values) > 1 else [])
    return expression(value.value) + spec + act("Format", value.lineno)


def compared(e, line):
    found = expression(e.left)
    for number, right in enumerate(e.comparators):
        found += (act("Branch", line) if number else []) + expression(right) + act("Compare", line)
    return found


def decided(values, line):
    found = expression(values[0])
    for value in values[1:]:
        found += act("Branch", line) + expression(value)
    return found


def called(e, line):
    found = expression(e.func)
    for part in sorted(e.args + e.keywords, key=lambda v: (v.lineno, v.col_offset)):
        is_spread = isinstance(part, ast.Starred) or isinstance(part, ast.keyword) and part.arg is None
        found += expression(part.value if isinstance(part, (ast.Starred, ast.keyword)) else part)
        found += act("Spread", line) if is_spread else []
    return found + act("Call", line)


def defaults(arguments):
    return all_of(arguments.defaults + arguments.kw_defaults)


def turns(generators, line, inner):
    """The clauses of a comprehension around what each turn does; the line of a clause is that of its target."""
    first, *rest = generators
    found = act("Next", clause_line(first)) + bound(first.target)
    for test in first.ifs:
        found += expression(test) + act("Branch", line)
    for each in rest:
        found += expression(each.iter) + act("Iter", clause_line(each)) + act("Next", clause_line(each)) + bound(each.target)
        for test in each.ifs:
            found += expression(test) + act("Branch", line)
    return found + inner


def clause_line(clause):
    return clause.target.lineno


def comprehension(e, line, items):
    first = e.generators[0]
    inner = all_of(items) + act("Add", line)
    return expression(first.iter) + act("Iter", clause_line(first)) + act("Build", line) + turns(e.generators, line, inner)


def expression(e):
    line = e.lineno
    match e:
        case ast.Constant():
            return act("Const", line)
        case ast.Name():
            return act("Load", line)
        case ast.JoinedStr(values):
            return joined(values, line) + act("Join", line)
        case ast.Tuple(items) | ast.List(items) | ast.Set(items):
            return all_of(items) + act("Build", line)
        case ast.Dict(keys, values):
            return [a for pair in zip(keys, values) for part in pair for a in expression(part)] + act("Build", line)
        case ast.Attribute(value):
            return expression(value) + act("Attr", line)
        case ast.Subscript(value, index):
            return expression(value) + expression(index) + act("Item", line)
        case ast.Slice(lower, upper, step):
            return all_of([lower, upper, step]) + act("Slice", line)
        case ast.UnaryOp(operator, operand):
            return expression(operand) + act("Not" if isinstance(operator, ast.Not) else "Unary", line)
        case ast.BinOp(left, _, right):
            return expression(left) + expression(right) + act("Binary", line)
        case ast.Compare():
            return compared(e, line)
        case ast.BoolOp(_, values):
            return decided(values, line)
        case ast.IfExp(test, body, otherwise):
            return expression(test) + act("Branch", line) + expression(body) + expression(otherwise)
        case ast.Call():
            return called(e, line)
        case ast.Lambda(arguments):
            return defaults(arguments) + act("Function", line)
        case ast.ListComp(item) | ast.SetComp(item):
            return comprehension(e, line, [item])
        case ast.DictComp(key, value):
            return comprehension(e, line, [key, value])
        case ast.GeneratorExp(_, generators):
            first = generators[0]
            return expression(first.iter) + act("Iter", clause_line(first)) + act("Generator", line)
        case ast.Yield(value):
            return all_of([value]) + act("Yield", line)
        case ast.YieldFrom(value):
            return expression(value) + act("Iter", line) + act("Delegate", line)
    raise ValueError(e)


def bound(target):
    """A value is bound to a target."""
    line = target.lineno
    match target:
        case ast.Name():
            return act("Store", line)
        case ast.Attribute(value):
            return expression(value) + act("SetAttr", line)
        case ast.Subscript(value, index):
            return expression(value) + expression(index) + act("SetItem", line)
        case ast.Starred(inner):
            return bound(inner)
        case ast.Tuple(items) | ast.List(items):
            return act("Unpack", line) + [a for item in items for a in bound(item)]
    raise ValueError(target)


def deleted(target):
    line = target.lineno
    match target:
        case ast.Name():
            return act("Delete", line)
        case ast.Attribute(value):
            return expression(value) + act("DelAttr", line)
        case ast.Subscript(value, index):
            return expression(value) + expression(index) + act("DelItem", line)
        case ast.Tuple(items) | ast.List(items):
            return [a for item in items for a in deleted(item)]
    raise ValueError(target)


def augmented(target, value, line):
    """The parts of the target are evaluated once."""
    got, put = {ast.Name: ("Load", "Store"), ast.Attribute: ("Attr", "SetAttr"), ast.Subscript: ("Item", "SetItem")}[type(target)]
    parts = {ast.Name: [], ast.Attribute: ["value"], ast.Subscript: ["value", "slice"]}[type(target)]
    found = all_of([getattr(target, part) for part in parts]) + act(got, target.lineno)
    return found + expression(value) + act("InPlace", line) + act(put, target.lineno)


def entered(items, body):
    if not items:
        return statements(body)
    first, *rest = items
    line = first.context_expr.lineno
    target = bound(first.optional_vars) if first.optional_vars else []
    return expression(first.context_expr) + act("Enter", line) + target + entered(rest, body) + act("Exit", line)


def handler(h):
    named = act("Store", h.lineno) if h.name else []
    return all_of([h.type]) + act("Match", h.lineno) + named + statements(h.body)


def defined(s, kind, parts):
    """The last decorator is called first."""
    calls = [a for d in reversed(s.decorator_list) for a in act("Call", d.lineno)]
    return all_of(s.decorator_list) + parts + act(kind, s.lineno) + calls + act("Store", s.lineno)


def statement(s):
    line = s.lineno
    match s:
        case ast.Expr(value):
            return expression(value) + act("Discard", line)
        case ast.Assign(targets, value):
            return expression(value) + [a for target in targets for a in bound(target)]
        case ast.AugAssign(target, _, value):
            return augmented(target, value, line)
        case ast.AnnAssign(target, _, value):
            return expression(value) + bound(target) if value else act("Pass", line)
        case ast.Assert(test, message):
            return expression(test) + act("Branch", line) + all_of([message]) + act("Raise", line)
        case ast.Pass() | ast.Break() | ast.Continue():
            return act(type(s).__name__, line)
        case ast.Delete(targets):
            return [a for target in targets for a in deleted(target)]
        case ast.Return(value):
            return all_of([value]) + act("Return", line)
        case ast.Raise(exception, cause):
            return all_of([exception, cause]) + act("Raise", line)
        case ast.Import(names):
            return [a for _ in names for a in act("Import", line) + act("Store", line)]
        case ast.ImportFrom(_, names):
            return act("Import", line) + [a for _ in names for a in act("ImportName", line) + act("Store", line)]
        case ast.Global() | ast.Nonlocal():
            return []
        case ast.If(test, body, otherwise):
            return expression(test) + act("Branch", line) + statements(body) + statements(otherwise)
        case ast.While(test, body, otherwise):
            return again(expression(test)) + act("Branch", line) + statements(body) + statements(otherwise)
        case ast.For(target, iterable, body, otherwise):
            begun = expression(iterable) + act("Iter", line) + again(act("Next", line)) + bound(target)
            return begun + statements(body) + statements(otherwise)
        case ast.Try(body, handlers, otherwise, final):
            caught = [a for h in handlers for a in handler(h)]
            return act("Try", line) + statements(body) + caught + statements(otherwise) + statements(final)
        case ast.With(items, body):
            return entered(items, body)
        case ast.FunctionDef(args=arguments):
            return defined(s, "Function", defaults(arguments))
        case ast.ClassDef(bases=bases):
            return defined(s, "Class", all_of(bases))
    raise ValueError(s)


def statements(body):
    return [a for s in body for a in statement(s)]


def is_text(s):
    return isinstance(s, ast.Expr) and isinstance(s.value, ast.Constant) and isinstance(s.value.value, str)


def block(node):
    """What a block runs."""
    match node:
        case ast.Module(body) | ast.ClassDef(body=body):
            return statements(body)
        case ast.FunctionDef(body=body):
            return statements(body[1:] if is_text(body[0]) else body)
        case ast.Lambda(_, body):
            return expression(body) + act("Return", node.lineno)
        case ast.GeneratorExp(item, generators):
            line = node.lineno
            return turns(generators, line, expression(item) + act("Yield", line) + act("Discard", line))


def annotations(tree):
    """The nodes that stand in annotations."""
    found = set()
    for n in ast.walk(tree):
        for name in ("annotation", "returns"):
            if getattr(n, name, None):
                found.update(ast.walk(getattr(n, name)))
    return found


def nodes(tree):
    """The nodes of the blocks but the module: a definition starts with its first decorator, outside which it stands."""
    kinds = (ast.FunctionDef, ast.ClassDef, ast.Lambda, ast.GeneratorExp)
    apart = annotations(tree)
    found = [n for n in ast.walk(tree) if isinstance(n, kinds) and n not in apart]

    def start(n):
        first = (getattr(n, "decorator_list", None) or [n])[0]
        return (first.lineno, first.col_offset - (first is not n))

    return sorted(found, key=start)


def script(text):
    """The blocks that have acts, by their numbers."""
    tree = ast.parse(text)
    blocks = [block(n) for n in [tree] + nodes(tree)]
    return "".join(
        " (%d" % number + "".join(" %s %02d" % (kind, line % 100) for kind, line in acts) + ")"
        for number, acts in enumerate(blocks) if acts
    )
