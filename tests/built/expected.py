"""The line of the first node of a script that isn't supported, from CPython's ast: a list of the nodes in the order of the source, and what
of a node tells whether it is supported."""
import ast

SUPPORTED = (
    ast.Module, ast.Expr, ast.Assign, ast.AugAssign, ast.AnnAssign, ast.Delete, ast.Pass, ast.Break, ast.Continue, ast.If, ast.While, ast.For,
    ast.Return, ast.Global, ast.Nonlocal, ast.FunctionDef, ast.Constant, ast.Name, ast.UnaryOp, ast.BinOp, ast.BoolOp, ast.Compare, ast.IfExp, ast.Call,
    ast.keyword, ast.Lambda, ast.arg, ast.Tuple, ast.List, ast.Set, ast.Dict, ast.Attribute, ast.Subscript, ast.Slice, ast.Starred, ast.JoinedStr,
    ast.FormattedValue, ast.ListComp, ast.SetComp, ast.DictComp, ast.Assert, ast.Raise, ast.Try, ast.ExceptHandler,
    ast.Import, ast.ImportFrom, ast.alias, ast.ClassDef, ast.With)

# builtins that are to give generators, and aren't there yet; and the keyword, which other letters make a name
UNAVAILABLE = frozenset("map filter zip enumerate reversed class".split())


def place(node):
    return node.lineno, node.col_offset


def parts(node):
    """The parts of a node in the order of the source; annotations are none, and the parameters of a function and
    those of clauses and of the items of a `with` are."""
    found = []
    for field, value in ast.iter_fields(node):
        if field not in ("annotation", "returns"):
            found += [x for x in (value if isinstance(value, list) else [value]) if isinstance(x, ast.AST)]
    found += [x for a in found if isinstance(a, (ast.arguments, ast.comprehension, ast.withitem)) for x in ast.iter_child_nodes(a)]
    return sorted((x for x in found if hasattr(x, "lineno")), key=place)


def nodes(node):
    yield node
    for part in parts(node):
        yield from nodes(part)


def names(node):
    """The names that a node reads, binds, deletes or declares."""
    match node:
        case ast.Name(x) | ast.FunctionDef(x) | ast.ClassDef(x) | ast.arg(x):
            return [x]
        case ast.Global(xs) | ast.Nonlocal(xs):
            return xs
        case ast.ExceptHandler(_, str(x)):
            return [x]
        case ast.Import(xs) | ast.ImportFrom(_, xs):
            return [a.asname or a.name for a in xs]
    return []


def is_supported(node):
    return isinstance(node, SUPPORTED) and UNAVAILABLE.isdisjoint(names(node))


def line_of(node):
    return node.decorator_list[0].lineno if getattr(node, "decorator_list", None) else node.lineno


def first_unsupported(tree):
    """None where there is none."""
    return next((line_of(n) for n in nodes(tree) if not is_supported(n)), None)
