"""Which forms of the language a script has on lines that it comes to."""
import ast

STATEMENTS = (ast.FunctionDef, ast.ClassDef, ast.Return, ast.Delete, ast.Assign, ast.AugAssign, ast.AnnAssign, ast.For, ast.While, ast.If, ast.Raise, ast.Try, ast.Assert,
              ast.Import, ast.ImportFrom, ast.Global, ast.Nonlocal, ast.Pass, ast.Break, ast.Continue)
EXPRESSIONS = (ast.BoolOp, ast.Lambda, ast.IfExp, ast.Dict, ast.Set, ast.ListComp, ast.SetComp, ast.DictComp, ast.Call, ast.JoinedStr, ast.List, ast.Tuple, ast.Slice)
OPERATORS = (ast.operator, ast.unaryop, ast.cmpop)


def names_of(node):
    """The names of the forms that a node is of."""
    match node:
        case ast.Call(func=ast.Name(id=name)) if name in BUILTINS:
            yield f"{name}()"
        case ast.Call(func=ast.Attribute(attr=name)):
            yield f".{name}()" if name in METHODS else "method of a class()"
        case ast.Attribute(ctx=context) if not isinstance(context, ast.Load):
            yield {"Store": "attribute target", "Del": "attribute deleted"}[type(context).__name__]
        case ast.ClassDef(bases=[_, *_]):
            yield "base of a class"
        case ast.FunctionDef(name="__init__"):
            yield "__init__"
        case ast.Starred(ctx=ast.Load()):
            yield "*argument"
        case ast.Starred():
            yield "*target"
        case ast.keyword(arg=None):
            yield "**argument"
        case ast.keyword():
            yield "name=argument"
        case ast.arguments():
            yield from ["*parameter"] * bool(node.vararg) + ["**parameter"] * bool(node.kwarg) + ["parameter by name alone"] * bool(node.kwonlyargs)
        case ast.FunctionDef(decorator_list=[_, *_]):
            yield "@decorator"
        case ast.Subscript(slice=ast.Slice()):
            yield "slice"
        case ast.Subscript(ctx=context):
            yield {"Load": "item", "Store": "item target", "Del": "item deleted"}[type(context).__name__]
        case ast.Try(finalbody=[_, *_]):
            yield "finally"
    if isinstance(node, STATEMENTS + EXPRESSIONS + OPERATORS):
        yield type(node).__name__


BUILTINS = ["print", "len", "range", "str", "int", "bool", "repr", "type", "isinstance", "issubclass", "iter", "next", "abs", "divmod", "ord", "chr", "hasattr",
            "getattr", "setattr", "super", "object", "callable", "list", "tuple", "set", "dict", "sum", "any", "all", "min", "max", "sorted"]

METHODS = {name for kind in (str, list, dict, set) for name in dir(kind) if not name.startswith("_")} | {"exit"}


def forms_of(text, lines):
    """The names of the forms on these lines."""
    found = set()

    def visit(node, line):
        line = getattr(node, "lineno", line)
        if line in lines:
            found.update(names_of(node))
        for child in ast.iter_child_nodes(node):
            visit(child, line)

    visit(ast.parse(text), 0)
    return found


def table(counts):
    """Rows of the forms with how many scripts came to each, the least first."""
    rows = [f"{name} {count}" for name, count in sorted(counts.items(), key=lambda it: (it[1], it[0]))]
    return "\n".join("  " + ", ".join(rows[at:at + 8]) for at in range(0, len(rows), 8))
