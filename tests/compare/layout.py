"""Scripts with line ends within parentheses, and which of their lines are told otherwise by CPython, as docs/DECISIONS.md lists it."""
import ast
import io
import random
import re
import tokenize


def places_in_texts(text):
    """The places of a script that lie in texts between quotes, or in the fields of an f-string."""
    starts, begins, found = [0], [], set()
    for line in io.StringIO(text):
        starts.append(starts[-1] + len(line))
    for token in tokenize.generate_tokens(io.StringIO(text).readline):
        first, last = (starts[line - 1] + column for line, column in (token.start, token.end))
        if token.type == tokenize.STRING:
            found.update(range(first, last))
        elif token.type == tokenize.FSTRING_START:
            begins.append(first)
        elif token.type == tokenize.FSTRING_END:
            found.update(range(begins.pop(), last))
    return found


def broken(text, seed, often=0.2):
    """The same script with some of its blanks between parentheses as line ends, but for those in texts."""
    r, depth, out, kept = random.Random(seed), 0, [], places_in_texts(text)
    for place, c in enumerate(text):
        if place in kept:
            out.append(c)
            continue
        depth += (c == "(") - (c == ")")
        out.append("\n" + " " * r.randrange(9) if c == " " and depth and r.random() < often else c)
    return "".join(out)


def has_code(s):
    """Whether CPython has code for a statement of a function."""
    is_text = isinstance(s, ast.Expr) and isinstance(s.value, ast.Constant) and isinstance(s.value.value, str)
    return not (is_text or isinstance(s, (ast.Global, ast.Nonlocal)) or isinstance(s, ast.AnnAssign) and s.value is None)


def own_lines(tree):
    """The lines of statements that are acts here and for which CPython has no code, and those of the functions of which no statement has
    code, which CPython tells as a line of the function."""
    functions = [n for n in ast.walk(tree) if isinstance(n, ast.FunctionDef)]
    annotated = {s.lineno for f in functions for s in ast.walk(f) if isinstance(s, ast.AnnAssign) and s.value is None}
    return annotated | {f.lineno for f in functions if not any(map(has_code, f.body))}


def is_on_lines_of_their_own(tree):
    """Whether each expression and each list of parameters stands on one line."""
    return all(n.lineno == n.end_lineno for n in ast.walk(tree) if isinstance(n, (ast.expr, ast.arg))) and not any(
        d.lineno != f.lineno for f in ast.walk(tree) if isinstance(f, (ast.FunctionDef, ast.Lambda)) for d in f.args.defaults + f.args.kw_defaults if d)


def compared_traceback(traceback, text):
    """What is compared of a traceback: where an expression stands on several lines, neither these nor their numbers."""
    if is_on_lines_of_their_own(ast.parse(text)):
        return traceback
    return "\n".join(re.sub(r", line \d+,", ",", line) for line in traceback.splitlines() if not line.startswith("    "))


def compared(events, text):
    """The events of a script that are compared: where an expression stands on several lines, those without lines."""
    tree = ast.parse(text)
    if not is_on_lines_of_their_own(tree):
        return [(kind, block, None, error) for kind, block, _, error in events if kind != "line"]
    own = own_lines(tree)
    return [e for e in events if not (e[0] == "line" and e[2] in own and e[1][0] != "<module>")]
