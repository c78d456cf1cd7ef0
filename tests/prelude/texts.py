"""The texts of the prelude as they stand in pt_prelude, and what is said of their functions."""
import ast
import re
from pathlib import Path

SOURCE = Path(__file__).resolve().parent.parent.parent / "crates" / "pt_prelude" / "src" / "source.rt"
PART = re.compile(r'(now|later) r#"(.*?)"#', re.S)


def parts():
    """The parts of the text, each with whether it comes later."""
    found = [(word == "later", text) for word, text in PART.findall(SOURCE.read_text(encoding="utf-8"))]
    assert len(found) == 5, len(found)
    return found


def whole():
    return "".join(text for _, text in parts())


def first():
    return "".join(text for is_later, text in parts() if not is_later)


def functions(text):
    """The functions of a text with their blocks, as blocks are numbered in it: a function, a lambda or a generator expression is one."""
    blocks = [n for n in ast.walk(ast.parse(text)) if isinstance(n, (ast.FunctionDef, ast.Lambda, ast.GeneratorExp, ast.ClassDef))]
    blocks.sort(key=lambda n: (n.lineno, n.col_offset))
    return {n.name: i + 1 for i, n in enumerate(blocks) if isinstance(n, ast.FunctionDef)}


def presets(text):
    """The defaults of each function: of its plain and then of its keyword-only parameters."""
    return {f.name: [ast.literal_eval(d) for d in [*f.args.defaults, *f.args.kw_defaults] if d] for f in ast.parse(text).body}


def called(text):
    """The functions that hold `try` or `yield`, and those that call them."""
    tree = {f.name: list(ast.walk(f)) for f in ast.parse(text).body}
    found = {name for name, nodes in tree.items() if any(isinstance(n, (ast.Try, ast.Yield, ast.YieldFrom)) for n in nodes)}
    while True:
        more = {name for name, nodes in tree.items() if any(isinstance(n, ast.Call) and isinstance(n.func, ast.Name) and n.func.id in found for n in nodes)}
        if more <= found:
            return found
        found |= more
