"""Scripts that nest each production of the grammar as deep as the limits allow, and once deeper.

CPython's ast and tokenize tell of a few repetitions how many nodes, brackets and levels of indentation stand inside one
another there. That grows by as much with each repetition, so the limits of docs/LANGUAGE.md tell how many are taken."""
import ast
import io
import sys
import tokenize
import warnings

warnings.simplefilter("ignore")
sys.setrecursionlimit(10_000)

# nested expressions, open brackets, levels of indentation
LIMITS = (500, 100, 100)

# the number of a refusal beyond each limit
BEYOND = (13, 9, 9)

# expressions: a name, and what is repeated before and behind a middle
EXPRESSIONS = [
    ("minus", "-", "x", ""),
    ("tilde", "~", "x", ""),
    ("not", "not ", "x", ""),
    ("power", "x ** ", "x", ""),
    ("power of minus", "x ** -", "x", ""),
    ("or else", "x if y else ", "z", ""),
    ("lambda", "lambda: ", "x", ""),
    ("default of a lambda", "lambda a=", "x", ": 1"),
    ("default behind a star", "lambda *, a=", "x", ": 1"),
    ("default behind another", "lambda a=1, b=", "x", ", **c: 1"),
    ("body and default", "lambda a=lambda b: ", "x", ": 1"),
    ("sum", "", "x", " + x"),
    ("product", "", "x", " * x"),
    ("shift", "", "x", " << x"),
    ("ampersand", "", "x", " & x"),
    ("caret", "", "x", " ^ x"),
    ("bar", "", "x", " | x"),
    ("attribute", "", "x", ".a"),
    ("item", "", "x", "[0]"),
    ("slice", "", "x", "[:]"),
    ("call", "", "x", "()"),
    ("call with arguments", "", "x", "(y, *a, b=z, **c)"),
    ("ladder", "", "x", " * x + x << x & x ^ x | x"),
    ("climb", "x or x and not x < x | x ^ x & x << x + x * -x ** (", "x", ")"),
    ("parentheses", "(", "x", ")"),
    ("tuple", "(", "x", ",)"),
    ("second of a tuple", "(x, ", "x", ")"),
    ("list", "[", "x", "]"),
    ("second of a list", "[x, ", "x", "]"),
    ("set", "{", "x", "}"),
    ("second of a set", "{x, ", "x", "}"),
    ("key", "{", "x", ": 1}"),
    ("value", "{1: ", "x", "}"),
    ("second value", "{1: 1, 2: ", "x", "}"),
    ("argument", "f(", "x", ")"),
    ("second argument", "f(x, ", "x", ")"),
    ("argument by its name", "f(a=", "x", ")"),
    ("starred argument", "f(*", "x", ")"),
    ("argument behind two stars", "f(**", "x", ")"),
    ("index", "x[", "x", "]"),
    ("start of a slice", "x[", "x", ":]"),
    ("end of a slice", "x[:", "x", "]"),
    ("step of a slice", "x[::", "x", "]"),
    ("tuple as an index", "x[x, ", "x", "]"),
    ("item of a generator", "(", "x", " for a in y)"),
    ("first iterable", "(a for a in ", "x", ")"),
    ("condition of a generator", "(a for a in y if ", "x", ")"),
    ("second iterable", "(a for b in y for a in ", "x", ")"),
    ("target of a generator", "(a for x[", "x", "] in y)"),
    ("item of a list comprehension", "[", "x", " for a in y]"),
    ("iterable of a list comprehension", "[a for a in ", "x", "]"),
    ("item of a set comprehension", "{", "x", " for a in y}"),
    ("key of a comprehension", "{", "x", ": 1 for a in y}"),
    ("value of a comprehension", "{1: ", "x", " for a in y}"),
    ("generator as an argument", "f(", "x", " for a in y)"),
    ("field", "f'{", "x", "}'"),
    ("field behind text", "f'a{", "x", "!r:>{y}}b'"),
    ("spec", "f'{y:{", "x", "}}'"),
    ("field on a line of its own", 'f"""\n{', "x", '}"""'),
    ("test", "x if (", "x", ") else y"),
    ("left of an or", "(", "x", " or y)"),
    ("right of an or", "(x or ", "x", ")"),
    ("right of an and", "(x and ", "x", ")"),
    ("left of a comparison", "(", "x", " < y)"),
    ("right of a comparison", "(x not in ", "x", ")"),
    ("right of a sum", "(x + ", "x", ")"),
    ("defaults in parentheses", "(lambda a=lambda a=lambda a=lambda a=lambda a=", "x", ": 1" * 5 + ")"),
    ("defaults in arguments", "f(b=lambda a=lambda a=lambda a=lambda a=", "x", ": 1" * 4 + ")"),
    ("defaults in dictionaries", "{1: lambda a=lambda a=lambda a=lambda a=", "x", ": 1" * 4 + "}"),
    ("defaults in slices", "x[::lambda a=lambda a=lambda a=", "x", ": 1" * 3 + "]"),
    ("defaults in fields", "f'{(lambda a=lambda a=", "x", ": 1" * 2 + ")}'"),
    ("conditions in calls", "f(*x if y else not x ** -", "x", ")"),
    ("all in one", "(x or x and not x < x | f(a=lambda a=[x if y else {1: x ** -", "x", "}]: 1))"),
]

# the same where a form is left out of the language
FORMS = [
    ("matrix product", "", "x", " @ x"),
    ("starred tuple", "(*", "x", ",)"),
    ("starred list", "[*", "x", "]"),
    ("starred set", "{*", "x", "}"),
    ("dictionary behind two stars", "{**", "x", "}"),
    ("default before a slash", "lambda a=", "x", ", /: 1"),
]

# the same in a function
YIELDS = [("yield", "(yield ", "x", ")"), ("yield from", "(yield from ", "x", ")")]

TARGETS = [
    ("target in parentheses", "(", "x", ")"),
    ("tuple of targets", "(", "x", ",)"),
    ("list of targets", "[", "x", "]"),
    ("last of a tuple of targets", "(a, ", "x", ")"),
    ("starred target", "[*", "x", "]"),
    ("item of an item", "", "x", "[0]"),
    ("index of a target", "x[", "x", "]"),
]

# the places of expressions and of targets in statements
PLACES = {
    "statement": "{}",
    "value": "a = {}",
    "second target": "a = b[{}] = c",
    "augmented": "a += {}",
    "annotated": "a: {} = b",
    "annotated value": "a: b = {}",
    "assert": "assert {}",
    "message": "assert a, {}",
    "del": "del a[{}]",
    "raise": "raise {}",
    "cause": "raise a from {}",
    "if": "if {}: pass",
    "elif": "if a: pass\nelif {}: pass",
    "while": "while {}: pass",
    "for": "for a in {}: pass",
    "except": "try: pass\nexcept {}: pass",
    "with": "with {}: pass",
    "second item of a with": "with a as b, {} as c: pass",
    "item of a with in parentheses": "with ({} as b, c): pass",
    "default": "def f(a={}): pass",
    "annotation of a parameter": "def f(a: {}): pass",
    "annotation of a result": "def f() -> {}: pass",
    "return": "def f(): return {}",
    "decorator": "@{}\ndef f(): pass",
    "base": "class C({}): pass",
    "decorator of a class": "@{}\nclass C: pass",
}

TARGET_PLACES = {
    "assigned": "{} = a",
    "assigned second": "a = {} = b",
    "for": "for {} in a: pass",
    "comprehension": "[a for {} in b]",
    "del": "del {}",
    "as": "with a as {}: pass",
}

# the expression that stands in each place
DEEPEST = ("default of a lambda", "all in one")

# blocks: the lines before what stands further in, and those behind it
BLOCKS = [
    ("if", ["if x:"], []),
    ("elif", ["if x: pass", "elif y:"], []),
    ("else", ["if x: pass", "else:"], []),
    ("while", ["while x:"], []),
    ("else of a while", ["while x: pass", "else:"], []),
    ("for", ["for a in x:"], []),
    ("else of a for", ["for a in x: pass", "else:"], []),
    ("try", ["try:"], ["finally: pass"]),
    ("except", ["try: pass", "except x as y:"], []),
    ("except of all", ["try: pass", "except:"], []),
    ("else of a try", ["try: pass", "except: pass", "else:"], []),
    ("finally", ["try: pass", "finally:"], []),
    ("with", ["with x as y:"], []),
    ("with in parentheses", ["with (x as y, z):"], []),
    ("def", ["def f(a, b=1, *c, d, **e) -> x:"], []),
    ("class", ["class C(x):"], []),
    ("decorated def", ["@x", "def f():"], []),
    ("decorated class", ["@x", "@y", "class C:"], []),
]


def nested(place, left, middle, right):
    """The pieces of a script with so many repetitions in one another at a place of a statement."""
    before, behind = (place + "\n").split("{}")
    return lambda count: [(1, "*", before), (count, "*", left), (1, "*", middle), (count, "*", right), (1, "*", behind)]


def blocks(before, behind, inside):
    """The pieces of a script with so many blocks in one another: lines before and behind what stands further in."""
    return lambda count: [
        (count, ">", "\n".join(before)),
        (count, "*", " "),
        *inside,
        *((count, "<", "\n".join(lines)) for lines in [behind] if lines),
    ]


def written(pieces):
    """The script that pieces are."""
    script = ""
    for count, kind, text in pieces:
        levels = range(count) if kind == ">" else reversed(range(count))
        lines = (" " * level + line + "\n" for level in levels for line in text.split("\n"))
        script += text * count if kind == "*" else "".join(lines)
    return script


def depth(node):
    """How many expressions stand inside one another. The spec of a field is none, and its parts are those of the string."""
    children, is_one = ast.iter_child_nodes(node), isinstance(node, ast.expr) and not isinstance(node, ast.Starred)
    if isinstance(node, ast.FormattedValue):
        children, is_one = [node.value, *(node.format_spec.values if node.format_spec else [])], False
    inner = 0
    for child in children:
        inner = max(inner, depth(child))
    return inner + is_one


def nesting(script):
    """How many expressions, brackets and levels of indentation stand inside one another."""
    brackets, levels, most_brackets, most_levels = 0, 0, 0, 0
    for token in tokenize.generate_tokens(io.StringIO(script).readline):
        is_operator = token.type == tokenize.OP
        brackets += (is_operator and token.string in "([{") - (is_operator and token.string in ")]}")
        levels += (token.type == tokenize.INDENT) - (token.type == tokenize.DEDENT)
        most_brackets, most_levels = max(most_brackets, brackets), max(most_levels, levels)
    return depth(ast.parse(script)), most_brackets, most_levels


def most(shape):
    """How many repetitions the limits allow, and the number of the refusal of one more."""
    two, three, four = (nesting(written(shape(count))) for count in (2, 3, 4))
    assert [b - a for a, b in zip(two, three)] == [c - b for b, c in zip(three, four)], written(shape(3))
    bounds = [
        (2 + (limit - first) // (second - first), number)
        for limit, number, first, second in zip(LIMITS, BEYOND, two, three)
        if second > first
    ]
    return min(bounds)


def line_beyond(script):
    """The line that stands too far in, or else the longest."""
    lines = script.splitlines()
    far = [at for at, line in enumerate(lines, 1) if len(line) - len(line.lstrip(" ")) > LIMITS[2]]
    return far[0] if far else 1 + max(range(len(lines)), key=lambda at: len(lines[at]))


def shapes():
    """Names and shapes, and the answer at the limits."""
    for name, *parts in EXPRESSIONS:
        yield name, nested("{}", *parts), "taken"
    for name, *parts in FORMS:
        yield name, nested("{}", *parts), "12 1"
    for name, *parts in YIELDS:
        yield name, nested("def f(): {}", *parts), "taken"
    for name, *parts in TARGETS:
        yield name, nested("{} = a", *parts), "taken"
    for name, place in PLACES.items():
        for deep, *parts in EXPRESSIONS:
            if deep in DEEPEST:
                yield f"{deep}, {name}", nested(place, *parts), "taken"
    for name, place in TARGET_PLACES.items():
        yield f"last of a tuple of targets, {name}", nested(place, *TARGETS[3][1:]), "taken"
    deepest = nested("{}", *next(parts for name, *parts in EXPRESSIONS if name == DEEPEST[0]))
    for name, before, behind in BLOCKS:
        yield name, blocks(before, behind, [(1, "*", "x\n")]), "taken"
        yield f"{DEEPEST[0]} in blocks, {name}", blocks(before, behind, deepest(most(deepest)[0])), "taken"


def rows():
    """Name, pieces and answer of each shape at the limits, and once beyond them: taken, or a refusal's number and line."""
    for name, shape, answer in shapes():
        count, number = most(shape)
        yield name, shape(count), answer
        yield f"{name}, too deep", shape(count + 1), f"{number} {line_beyond(written(shape(count + 1)))}"
