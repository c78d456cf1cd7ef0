"""Scripts, and the scopes of their names as CPython's symtable gives them, block by block in source order."""
import ast
import symtable

SCOPES = {1: "Local", 2: "Global", 3: "Global", 4: "Free", 5: "Cell"}

BY_HAND = r'''
x = 1
def f():
    return x
---
def f(a, b=1, *c, d, **e):
    g = a
    return b
---
def f():
    x = 1
    def g():
        return x
    return g
---
def f():
    x = 1
    def g():
        nonlocal x
        x = 2
    return g
---
def f():
    global x
    x = 1
    def g():
        return x
---
x = 0
class C:
    x = 1
    def m(self):
        return x
---
def f():
    x = 1
    class C:
        y = x
        def m(self):
            return x
---
def f():
    x = 1
    class C:
        x = 2
        def m(self):
            return x
---
def f():
    x = 1
    class C:
        x = x
---
class C:
    global x
    x = 1
---
def f():
    x = 1
    class C:
        nonlocal x
        x = 2
---
def f(x):
    return lambda: x
---
def f(x):
    return lambda x: x
---
def f(x):
    return lambda y=x: y
---
f = lambda a: lambda b: a + b
---
def f(x):
    return [y for y in x]
---
def f(x):
    return [x for y in z]
---
def f(x):
    return [lambda: y for y in x]
---
def f(x):
    return (x for y in z)
---
def f(x):
    return (y for y in x)
---
def f():
    for i in range(3):
        def g():
            return i
---
def f():
    try:
        pass
    except E as e:
        print(e)
---
def f():
    with a as b:
        return b
---
def f():
    import sys
    from os import path as p
    def g():
        return sys
---
def f():
    del x
---
def f():
    x: int
    return x
---
def f():
    x += 1
---
def f():
    def g():
        def h():
            return x
        return h
    x = 1
    return g
---
def f():
    def g():
        x = 2
        def h():
            return x
        return h
    x = 1
    return g
---
def f():
    def g():
        global x
        def h():
            return x
    x = 1
---
def f():
    x = 1
    def g():
        global x
        x = 2
    def h():
        return x
---
@d
def f():
    d = 1
---
def f(a=b):
    b = 1
---
def f():
    x = 1
    def g(y=x):
        return y
---
class C:
    def __m(self):
        self.__x = 1
        __y = 2
        return __y
---
class _C:
    __a = 1
    def m(self, __b):
        return __b
---
class C:
    __a__ = 1
    x = __a__
---
class C:
    def f(self):
        return C
---
def f():
    class C:
        def g(self):
            return C
---
def f():
    return [[y for y in x] for x in z]
---
def f():
    a, (b, *c) = 1, (2, 3)
    for d, e in a: pass
    return lambda: (b, e)
---
def f():
    x = 1
    return {x: y for y in x}
---
def f():
    yield x
    x = 1
---
class A:
    x = 1
    class B:
        y = x
        def m(self):
            return y
---
def outer():
    x = 1
    class A:
        class B:
            def m(self):
                return x
---
def f():
    def f():
        return f
---
def f(f):
    return f
---
def f():
    global g
    def g():
        pass
---
def f():
    global C
    class C:
        pass
---
x = [a for a in b]
---
x = (a for a in b)
---
x = [lambda: a for a in b]
---
class C:
    x = [a for a in y]
---
class C:
    y = 1
    x = [a for a in y]
---
class C:
    x = (a for a in y)
---
def f():
    x.y = 1
    x[0] = 2
---
def f(a):
    a.b = c
    c = 1
---
def f(*, k=1):
    return k
---
def f():
    if x:
        y = 1
    else:
        y = 2
    while y:
        z = y
    return lambda: z
---
def f(x):
    def g():
        x = 1
        return x
    return x
---
def f():
    def g():
        f
        g
        print
'''

AROUND = ["def f():\n", "class C:\n"]
BINDINGS = ["x = 1", "global x\nx = 1", "x", "for x in y: pass"]
INNER = [
    "def g():\n    return x",
    "def g(x):\n    return x",
    "class D:\n    z = x",
    "class D:\n    x = 2\n    def m(self): return x",
    "z = lambda: x",
    "z = [x for w in y]",
    "z = (x for w in y)",
    "z = (lambda: w for w in x)",
    "def g():\n    def h():\n        return x\n    x = 2",
]


def indented(text):
    return "".join("    " + line + "\n" for line in text.splitlines())


def scripts():
    rows = [row.strip("\n") + "\n" for row in BY_HAND.split("\n---\n")]
    return rows + [a + indented(b) + indented(i) for a in AROUND for b in BINDINGS for i in INNER]


def tables(table):
    """The tables of the blocks; a comprehension is none."""
    found = [table]
    for child in table.get_children():
        inner = tables(child)
        found += inner[1:] if child.get_name() in ("listcomp", "setcomp", "dictcomp") else inner
    return found


def nodes(script):
    """The nodes of the blocks but the module, in the order in which they start."""
    kinds = (ast.FunctionDef, ast.ClassDef, ast.Lambda, ast.GeneratorExp)
    found = [n for n in ast.walk(ast.parse(script)) if isinstance(n, kinds)]
    return sorted(found, key=lambda n: (n.lineno, n.col_offset))


def name_of(node):
    if isinstance(node, (ast.FunctionDef, ast.ClassDef)):
        return node.name
    return "lambda" if isinstance(node, ast.Lambda) else "genexpr"


def is_comprehension(node):
    return isinstance(node, (ast.ListComp, ast.SetComp, ast.DictComp))


def named_in(node, apart):
    """The names that stand in a part of a block, without those of inner blocks and without these, which are targets of a
    comprehension around it."""
    if isinstance(node, ast.Name):
        return {node.id} - apart
    if isinstance(node, (ast.FunctionDef, ast.ClassDef)):
        outside = node.decorator_list + (node.bases if isinstance(node, ast.ClassDef) else node.args.defaults + node.args.kw_defaults)
        return {node.name}.union(*(named_in(part, apart) for part in outside if part))
    if isinstance(node, ast.Lambda):
        return set().union(*(named_in(part, apart) for part in node.args.defaults))
    if isinstance(node, ast.GeneratorExp):
        return named_in(node.generators[0].iter, apart)
    if is_comprehension(node):
        first = node.generators[0]
        inner = apart.union(*({n.id for n in ast.walk(g.target) if isinstance(n, ast.Name)} for g in node.generators))
        rest = [part for part in ast.iter_child_nodes(node) if part is not first] + [first.target, *first.ifs]
        return named_in(first.iter, apart).union(*(named_in(part, inner) for part in rest))
    found = set(getattr(node, "names", [])) if isinstance(node, (ast.Global, ast.Nonlocal)) else set()
    if isinstance(node, ast.ExceptHandler) and node.name:
        found.add(node.name)
    if isinstance(node, ast.alias):
        found.add((node.asname or node.name).split(".")[0])
    return found.union(*(named_in(part, apart) for part in ast.iter_child_nodes(node)))


def targets_alone(node):
    """The targets of comprehensions of a block that are no names of the block as well."""
    if isinstance(node, (ast.FunctionDef, ast.Lambda)):
        body = node.body if isinstance(node.body, list) else [node.body]
        given = node.args
        names = {a.arg for a in given.posonlyargs + given.args + given.kwonlyargs + [given.vararg, given.kwarg] if a}
    elif isinstance(node, ast.GeneratorExp):
        body, names = [node.elt, *node.generators], set()
    else:
        body, names = node.body, set()
    own = names.union(*(named_in(part, set()) for part in body))
    clauses = [clause for part in body for n in ast.walk(part) if is_comprehension(n) for clause in n.generators]
    return {n.id for clause in clauses for n in ast.walk(clause.target) if isinstance(n, ast.Name)} - own


def scopes(script):
    """Block, name and scope. The targets of a comprehension, which CPython adds to the names of the block around it, are left
    out."""
    module, *rest = tables(symtable.symtable(script, "a.py", "exec"))
    ordered = [(module, targets_alone(ast.parse(script)))]
    for node in nodes(script):
        table = next(t for t in rest if (t.get_name(), t.get_lineno()) == (name_of(node), node.lineno))
        rest.remove(table)
        ordered.append((table, targets_alone(node)))
    found = []
    for block, (table, apart) in enumerate(ordered):
        for symbol in sorted(table.get_symbols(), key=lambda s: s.get_name()):
            if symbol.get_name().startswith(".") or symbol.get_name() in apart:
                continue
            scope = SCOPES[symbol._Symbol__scope]
            if block == 0:
                scope = "Global"
            elif table.get_type() == "class" and scope == "Local":
                scope = "Class"
            found.append((block, symbol.get_name(), scope))
    return found
