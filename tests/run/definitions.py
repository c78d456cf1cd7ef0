"""Runs definitions of `crates/*/specs/*.antt`, at the level of values.

A definition becomes a Python function, its clauses in order. Values: numbers and truths are Python's, a list is () or (first, rest),
a constructor a tuple that begins with its name, a record a dict by its fields, a pair ("×", a, b), a function takes one argument
after the other. Types and proofs are never looked at. What an argument named in BY_NAME is worth is found where it is used."""
import itertools
import os
import re

BY_NAME = {"after", "none_left", "destination", "all", "otherwise"}
WORD = re.compile(
    r'\s*(?:("(?:[^"\\]|\\.)*")|(◌[^\s◌]+◌|[^\W\d][\w\']*(?:\.[\w][\w\']*)*)|(\d+)|(\+\+|[+\-*]ℤ|==|&&|\|\||[∷▸≡→×λ⊎≤<(){}\[\],;=.:+\-*/%^⨾])|(\S))')
LEVELS = [("⨾",), ("||",), ("&&",), ("==", "≡", "<", "≤", "⊎", "×"), ("∷", "++", "▸"), ("+", "-", "+ℤ", "-ℤ"), ("*", "/", "%", "*ℤ"), ("^",)]
# those that go on to the right
RIGHT = {"⨾", "||", "&&", "∷", "++", "▸"}


def words(text):
    out, at = [], 0
    while at < len(text):
        m = WORD.match(text, at)
        if not m or m.end() == at:
            break
        at = m.end()
        for kind, word in zip(("text", "name", "number", "sign", "sign"), m.groups()):
            if word is not None:
                out.append((kind, word))
    return out


class Reader:
    """An expression or a pattern from words."""

    def __init__(self, ws):
        self.ws, self.at = ws, 0

    def sees(self, word):
        return self.at < len(self.ws) and self.ws[self.at][1] == word and self.ws[self.at][0] != "text"

    def take(self, word):
        if not self.sees(word):
            raise SyntaxError(f"{word} wanted in {self.ws[max(0, self.at - 6):self.at + 6]}")
        self.at += 1

    def next(self):
        self.at += 1
        return self.ws[self.at - 1]

    def expression(self):
        if self.sees("λ"):
            self.at += 1
            names = []
            while not self.sees("."):
                if self.sees("("):
                    self.at += 1
                    while not self.sees(":"):
                        names.append(self.next()[1])
                    self.skip_to(")")
                else:
                    names.append(self.next()[1])
            self.take(".")
            return ("lambda", names, self.expression())
        if self.sees("if"):
            self.at += 1
            test = self.expression()
            self.take("then")
            yes = self.expression()
            self.take("else")
            return ("if", test, yes, self.expression())
        if self.sees("let"):
            self.at += 1
            name = self.next()[1]
            if self.sees(":"):
                while not self.sees("="):
                    self.at += 1
            self.take("=")
            value = self.expression()
            self.take("in")
            return ("let", name, value, self.expression())
        return self.binary(0)

    def skip_to(self, closing):
        """To behind the sign that closes what is open."""
        depth = 1
        while depth:
            word = self.next()[1]
            depth += word in ("(", "{")
            depth -= word in (")", "}")

    def binary(self, level):
        if level == len(LEVELS):
            return self.application()
        left = self.binary(level + 1)
        while self.at < len(self.ws) and self.ws[self.at][0] == "sign" and self.ws[self.at][1] in LEVELS[level]:
            sign = self.next()[1]
            if self.sees("if") or self.sees("λ") or self.sees("let"):
                right = self.expression()
            else:
                right = self.binary(level if sign in RIGHT else level + 1)
            left = ("sign", sign, left, right)
        return left

    def begins(self):
        if self.at >= len(self.ws):
            return False
        kind, word = self.ws[self.at]
        if kind == "name":
            return word not in ("then", "else", "in")
        return kind in ("number", "text") or word in ("(", "[", "{")

    def application(self):
        f, arguments = self.atom(), []
        while self.begins():
            if self.sees("{"):
                self.at += 1
                self.skip_to("}")
                continue
            arguments.append(self.atom())
        return ("apply", f, arguments) if arguments else f

    def atom(self):
        kind, word = self.next()
        if kind == "number":
            return ("number", int(word))
        if kind == "text":
            return ("text", re.sub(r"\\(.)", lambda m: {"n": "\n", "r": "\r", "t": "\t"}.get(m[1], m[1]), word[1:-1]))
        if word == "record":
            base = None if self.sees("{") else self.atom()
            self.take("{")
            fields = []
            while not self.sees("}"):
                name = self.next()[1]
                self.take("=")
                fields.append((name, self.expression()))
                if self.sees(";"):
                    self.at += 1
            self.take("}")
            return ("record", base, fields)
        if kind == "name":
            return self.fields(("name", word.split(".")))
        if word == "[":
            self.take("]")
            return ("nil",)
        if word == "(":
            items = [self.expression()]
            while self.sees(","):
                self.at += 1
                items.append(self.expression())
            self.take(")")
            e = items[-1]
            for item in reversed(items[:-1]):
                e = ("pair", item, e)
            return self.fields(e)
        raise SyntaxError(f"{word} begins nothing in {self.ws[max(0, self.at - 6):self.at + 6]}")

    def fields(self, e):
        while self.sees(".") and self.at + 1 < len(self.ws) and self.ws[self.at + 1][0] in ("name", "number"):
            self.at += 1
            for part in self.next()[1].split("."):
                e = ("field", e, part)
        return e


def arguments_of(ws):
    """The explicit arguments of a type, each with its name if it has one."""
    out, part, depth, parts = [], [], 0, []
    for kind, word in ws:
        depth += word in ("(", "{")
        depth -= word in (")", "}")
        if word == "→" and depth == 0:
            parts.append(part)
            part = []
        else:
            part.append(word)
    for part in parts:
        groups, depth, group = [], 0, []
        for word in part:
            if depth == 0 and word in ("(", "{"):
                group = []
                groups.append((word, group))
            elif depth == 0:
                groups = [("", part)]
                break
            else:
                group.append(word)
            depth += word in ("(", "{")
            depth -= word in (")", "}")
        for opening, group in groups:
            group = group[:-1] if opening else group
            level, names = 0, None
            for i, word in enumerate(group):
                level += word in ("(", "{")
                level -= word in (")", "}")
                if word == ":" and level == 0 and opening:
                    names = group[:i]
                    break
            if opening == "{":
                continue
            out += names if names else [None]
    return out


class Definition:
    def __init__(self, module, name, around, signature):
        self.module, self.name, self.around = module, name, around
        self.clauses, self.arguments, self.code = [], arguments_of(signature), None


class Bare(tuple):
    """A constructor of a type of the code that stands alone, of which it isn't known whether it takes arguments."""

    def __call__(self, *arguments):
        return (*self, *arguments)


class Module:
    def __init__(self, path):
        self.path, self.definitions, self.constructors, self.names, self.aliases = path, {}, {}, {}, {}


PREFIX = re.compile(r"((pub|abbrev|unfoldable)\s+)+")
# a text keeps its hyphens
COMMENT = re.compile(r'("(?:[^"\\]|\\.)*")|--.*')


class Definitions:
    """Those of a folder of crates."""

    def __init__(self, crates, primitives):
        self.crates, self.modules, self.primitives, self.constants, self.handed_on = crates, {}, primitives, {}, {}
        self.space = {"Bare": Bare, "field": field, "wrong": wrong, "once": once, "quotient": quotient}
        self.count = 0

    def direct(self, path):
        """The path of what a crate hands on of one below it, in that crate."""
        parts = path.split(".")
        if parts[0] != "Rattle" or len(parts) < 5 or parts[2] != "specs":
            return path
        crate = parts[1]
        if crate not in self.handed_on:
            name = os.path.join(self.crates, crate, "specs", "Lib.antt")
            self.handed_on[crate] = {}
            if os.path.exists(name):
                with open(name, encoding="utf-8") as lib:
                    found = re.findall(r"pub use (Rattle\.\w+\.specs(?:\.\w+)*) as (\w+)", lib.read())
                self.handed_on[crate] = {own: below for below, own in found}
        below = self.handed_on[crate].get(parts[3])
        return self.direct(".".join([below, *parts[4:]])) if below else path

    def file_of(self, path):
        parts = self.direct(path).split(".")
        if parts[0] != "Rattle" or parts[1] == "std" or "specs" not in parts or "declared" in parts:
            return None
        name = os.path.join(self.crates, parts[1], "specs", *parts[3:]) + ".antt"
        return name if os.path.exists(name) else None

    def module(self, path):
        path = self.direct(path)
        if path not in self.modules:
            self.modules[path] = Module(path)
            self.read(self.modules[path], self.file_of(path))
        return self.modules[path]

    def read(self, module, name):
        items = []
        depth = 0
        with open(name, encoding="utf-8") as f:
            for line in f:
                line = COMMENT.sub(r"\1", line).rstrip()
                if not line.strip():
                    continue
                indent = len(line) - len(line.lstrip())
                text = line.strip()
                if items and (depth > 0 or (indent > items[-1][0] and not items[-1][2])):
                    items[-1][1] += " " + text
                else:
                    bare = PREFIX.sub("", text)
                    items.append([indent, text, bare == "mutual" or bool(re.match(r"(data|record|module)\b.*where$", bare))])
                    depth = 0
                signs = re.sub(r'"(?:[^"\\]|\\.)*"', "", text)
                depth += sum(signs.count(c) for c in "({[") - sum(signs.count(c) for c in ")}]")
        blocks = []
        for indent, text, opens in items:
            while blocks and indent <= blocks[-1][0]:
                blocks.pop()
            bare = PREFIX.sub("", text)
            if bare.startswith("use "):
                self.use(module, bare[4:])
            elif text.startswith("infixr "):
                pass
            elif opens:
                kind = bare.split()[0]
                self.count += 1
                blocks.append((indent, kind, [(self.count, p) for p in self.parameters(bare)] if kind == "module" else []))
            elif blocks and blocks[-1][1] in ("data", "record"):
                if blocks[-1][1] == "data":
                    for constructor in bare.split(" : ")[0].split():
                        module.constructors[constructor] = len(arguments_of(words(bare.split(" : ", 1)[1])))
            else:
                self.item(module, bare, [p for b in blocks for p in b[2]])

    @staticmethod
    def parameters(header):
        """The explicit parameters of a `module _ (..) where`."""
        return arguments_of([w for w in words(header)[2:-1]] + [("sign", "→")])

    def use(self, module, text):
        m = re.match(r"(.*)\.\{(.*)\}$", text)
        if m:
            for name in m.group(2).split(","):
                name = name.strip()
                if name:
                    origin, _, alias = name.partition(" as ")
                    module.names[alias.strip() or origin.strip()] = (m.group(1), origin.strip())
        else:
            path, alias = text.split(" as ")
            module.aliases[alias.strip()] = path.strip()

    def item(self, module, bare, around):
        if bare.startswith("infix"):
            return
        ws = words(bare)
        depth = 0
        for i, (kind, word) in enumerate(ws):
            depth += word in ("(", "{")
            depth -= word in (")", "}")
            if depth == 0 and word in (":", "=") and kind == "sign":
                break
        else:
            raise SyntaxError(bare)
        if word == ":":
            module.definitions[ws[0][1]] = Definition(module, ws[0][1], around, ws[i + 1:])
        elif ws[0][1] in module.definitions:
            module.definitions[ws[0][1]].clauses.append((ws[1:i], ws[i + 1:]))

    # names
    def find(self, module, parts):
        """What a name means: ("definition", d), ("constructor", name, arity), ("primitive", p), or None; and the fields behind."""
        if len(parts) > 1 and parts[0] in module.aliases:
            return self.meaning(module.aliases[parts[0]], parts[1]), parts[2:]
        if parts[0] in module.definitions:
            return ("definition", module.definitions[parts[0]]), parts[1:]
        if parts[0] in module.constructors:
            return ("constructor", parts[0], module.constructors[parts[0]]), parts[1:]
        if parts[0] in module.names:
            return self.meaning(*module.names[parts[0]]), parts[1:]
        return None, parts

    def meaning(self, path, name):
        path = self.direct(path)
        if self.file_of(path):
            m = self.module(path)
            if name in m.constructors:
                return ("constructor", name, m.constructors[name])
            if name in m.definitions:
                return ("definition", m.definitions[name])
            # one that it has from elsewhere
            return self.meaning(*m.names[name]) if name in m.names else None
        if path.startswith(("Rattle.std.", "Rattle.indexmap.")):
            return ("primitive", name) if name in self.primitives else None
        if path.endswith(".TheConstants"):
            return ("constant", self.constant(re.search(r"(\w+)(?:\.specs)?\.declared\.", path)[1], name))
        return ("constructor", name, None)

    def constant(self, crate, name):
        """The name under which the value of a constant of a crate's code is known."""
        code = f"constant_{crate}_{name}"
        if crate not in self.constants:
            self.constants[crate] = constants(os.path.join(self.crates, crate, "src"))
        self.space[code] = self.constants[crate][name]
        return code

    # definitions as Python functions
    def function(self, d):
        if d.code is None:
            self.count += 1
            d.code = f"{re.sub(r'[^a-zA-Z0-9_]', '_', d.name)}_{self.count}"
            self.space[d.code] = lambda *xs: self.compiled(d)(*xs)
        return d.code

    def compiled(self, d):
        source = Compiler(self, d).source()
        exec(compile(source, f"{d.module.path}.{d.name}", "exec"), self.space)
        return self.space[d.code]

    def get(self, path, name):
        d = self.module(path).definitions[name]
        self.function(d)
        return lambda *xs: self.space[d.code](*xs)

    def remember(self, path, name):
        """What a definition gives is kept by its arguments, of which the first is known by where it is kept."""
        d = self.module(path).definitions[name]
        self.function(d)
        find, known = self.compiled(d), {}

        def found(first, *xs):
            key = (id(first), *xs)
            if key not in known:
                known[key] = (first, find(first, *xs))
            return known[key][1]
        self.space[d.code] = found
        return known


CONSTANT = re.compile(r"pub const (\w+): [^=]* = ([^;]*);")
# a text of several parts, of which a macro takes some
TEXT_PART = re.compile(r'(now|later) r#"(.*?)"#', re.S)
CODE_WORD = re.compile(r'\s*("[^"]*"|[\w:]+|[\[\](),])')


def constants(folder):
    """The constants of a crate's code, as the definitions see them: a name alone is a constructor, and so is one with arguments, but for
    a struct's, whose fields are numbered; a text is a reference to its bytes."""
    out = {}
    for at, _, files in sorted(os.walk(folder)):
        for file in sorted(files):
            with open(os.path.join(at, file), encoding="utf-8") as f:
                text = f.read()
                for name, value in CONSTANT.findall(text):
                    if value.startswith("prelude!"):
                        parts = [t for when, t in TEXT_PART.findall(text) if when == "now" or "whole" in value]
                        out[name] = {"now": listed("".join(parts).encode())}
                    else:
                        out[name] = code_value(CODE_WORD.findall(value))
    return out


def code_value(ws):
    word = ws.pop(0)
    if word in ("[", "("):
        values = code_values(ws)
        return listed(values) if word == "[" else ("×", *values)
    if word[0] == '"':
        return {"now": listed(word[1:-1].encode())}
    if word.isdigit():
        return int(word)
    path = word.split("::")
    values = []
    if ws and ws[0] == "(":
        ws.pop(0)
        values = code_values(ws)
    if values and len(path) == 1 and path[0] != "Some":
        return {str(i): v for i, v in enumerate(values)}
    return (path[-1], *values)


def code_values(ws):
    values = []
    while ws[0] not in ("]", ")"):
        values.append(code_value(ws))
        if ws[0] == ",":
            ws.pop(0)
    ws.pop(0)
    return values


def field(value, name):
    return value[int(name) + 1] if isinstance(value, tuple) else value[name]


def wrong(name, *values):
    raise ValueError(f"no clause of {name} for {[v[0] if isinstance(v, tuple) and v else v for v in values]}")


def once(f):
    value = f()
    return lambda: value


def quotient(a, b):
    return a // b if b else 0


# how signs are written in Python, where it isn't as here; natural numbers have no difference below 0
SIGNS = {
    "∷": "({a}, {b})",
    "▸": "('seq', {a}, {b})",
    "++": "joined({a}, {b})",
    "&&": "({a} and {b})",
    "||": "({a} or {b})",
    "-": "max({a} - {b}, 0)",
    "/": "quotient({a}, {b})",
    "^": "({a} ** {b})",
    "+ℤ": "integer(number({a}) + number({b}))",
    "-ℤ": "integer(number({a}) - number({b}))",
    "*ℤ": "integer(number({a}) * number({b}))",
}


class Compiler:
    def __init__(self, all_, d):
        self.all, self.d, self.module = all_, d, d.module
        self.fresh = 0

    def source(self):
        d = self.d
        clauses = [(self.patterns(ws), Reader(body)) for ws, body in d.clauses]
        self.arity = len(clauses[0][0])
        names = [f"p_{p}" for _, p in d.around] + [f"a{i}" for i in range(self.arity)]
        lines = [f"def {d.code}({', '.join(names)}):"]
        for patterns, body in clauses:
            self.variables = {p: f"p_{p}" for _, p in d.around}
            tests = []
            for i, p in enumerate(patterns):
                self.match(p, f"a{i}", tests, self.by_name(d, i))
            lines.append("  while True:")
            lines += ["    " + t for t in tests]
            lines.append("    return " + self.expression(body.expression()))
        lines.append(f"  wrong({d.name!r}, {', '.join(n for n in names)})")
        return "\n".join(lines)

    @staticmethod
    def by_name(d, i):
        return i < len(d.arguments) and d.arguments[i] in BY_NAME

    def patterns(self, ws):
        reader = Reader(ws)
        out = []
        while reader.begins():
            if reader.sees("{"):
                reader.at += 1
                reader.skip_to("}")
            else:
                out.append(reader.atom())
        return out

    def match(self, p, place, tests, by_name=False):
        kind = p[0]
        if kind == "nil":
            tests.append(f"if {place} != (): break")
        elif kind == "number":
            tests.append(f"if {place} != {p[1]}: break")
        elif kind == "pair":
            self.match(p[1], f"{place}[1]", tests)
            self.match(p[2], f"{place}[2]", tests)
        elif kind == "sign":
            tests.append(f"if {place} == (): break")
            self.match(p[2], f"{place}[0]", tests)
            self.match(p[3], f"{place}[1]", tests)
        elif kind == "name":
            self.match_name(p[1], [], place, tests, by_name)
        else:
            self.match_name(p[1][1], p[2], place, tests, False)

    def match_name(self, parts, inner, place, tests, by_name):
        what, _ = self.all.find(self.module, parts)
        if what == ("primitive", "true") or what == ("primitive", "false"):
            tests.append(f"if {place} is not {what[1] == 'true'}: break")
        elif what == ("primitive", "zero"):
            tests.append(f"if {place} != 0: break")
        elif what == ("primitive", "suc"):
            tests.append(f"if {place} == 0: break")
            self.match(inner[0], f"({place} - 1)", tests)
        elif what and (what[0] == "constructor" or self.all.primitives.get(what[1]) == "constructor"):
            tests.append(f"if {place}[0] != {what[1]!r}: break")
            for i, q in enumerate(inner):
                self.match(q, f"{place}[{i + 1}]", tests)
        else:
            name = f"v_{parts[0]}".replace("'", "_q")
            self.variables[parts[0]] = name + "()" if by_name else name
            tests.append(f"{name} = {place}")

    # expressions
    def expression(self, e):
        kind = e[0]
        if kind == "number":
            return str(e[1])
        if kind == "text":
            return repr(e[1])
        if kind == "nil":
            return "()"
        if kind == "pair":
            return f"('×', {self.expression(e[1])}, {self.expression(e[2])})"
        if kind == "if":
            return f"({self.expression(e[2])} if {self.expression(e[1])} else {self.expression(e[3])})"
        if kind == "lambda":
            return self.function(e[1], e[2])
        if kind == "let":
            return f"{self.function([e[1]], e[3])}({self.expression(e[2])})"
        if kind == "record":
            fields = ", ".join(f"{n!r}: {self.expression(v)}" for n, v in e[2])
            return f"{{**{self.expression(e[1])}, {fields}}}" if e[1] else f"{{{fields}}}"
        if kind == "field":
            return self.projection(self.expression(e[1]), [e[2]])
        if kind == "sign":
            what, _ = self.all.find(self.module, [f"◌{e[1]}◌"])
            # one that is defined between its arguments is among the signs
            if what and what[0] == "definition" and what[1].clauses:
                return self.call(what, [e[2], e[3]])
            return self.sign(e[1], self.expression(e[2]), self.expression(e[3]))
        if kind == "name":
            return self.name(e[1], [])
        if e[1][0] == "name":
            return self.name(e[1][1], e[2])
        return self.applied(self.expression(e[1]), e[2])

    def function(self, names, body):
        before = dict(self.variables)
        made = []
        for name in names:
            self.fresh += 1
            made.append(f"l{self.fresh}")
            self.variables[name] = made[-1]
        text = self.expression(body)
        self.variables = before
        for name in reversed(made):
            text = f"(lambda {name}: {text})"
        return text

    @staticmethod
    def projection(text, fields):
        for f in fields:
            text = f"field({text}, {f!r})" if f.isdigit() else f"{text}[{f!r}]"
        return text

    def applied(self, text, arguments):
        for a in arguments:
            text = f"{text}({self.expression(a)})"
        return text

    @staticmethod
    def sign(sign, a, b):
        return SIGNS.get(sign, f"({{a}} {sign} {{b}})").format(a=a, b=b)

    def name(self, parts, arguments):
        if parts[0] in self.variables and (len(parts) == 1 or parts[0] not in self.module.aliases):
            return self.applied(self.projection(self.variables[parts[0]], parts[1:]), arguments)
        what, fields = self.all.find(self.module, parts)
        if parts == ["tt"]:
            return "('tt',)"
        if parts[0] in ("elim", "absurd"):
            return "wrong('what has no value')"
        if what is None:
            raise NameError(f"{'.'.join(parts)} in {self.module.path}.{self.d.name}")
        if fields:
            return self.applied(self.projection(self.call(what, []), fields), arguments)
        return self.call(what, arguments)

    def call(self, what, arguments):
        if what[0] == "constructor":
            if what[2] is None and not arguments:
                return f"Bare(({what[1]!r},))"
            arity = len(arguments) if what[2] is None else what[2]
            return self.saturated(lambda xs: "(" + ", ".join([repr(what[1])] + xs) + ("," if not xs else "") + ")", arity, arguments)
        if what[0] == "primitive":
            return self.primitive(what[1], arguments)
        if what[0] == "constant":
            return self.applied(what[1], arguments)
        d = what[1]
        code = self.all.function(d)
        around = []
        if d.module is self.module and d.around and d.around == self.d.around[:len(d.around)]:
            around = [f"p_{p}" for _, p in d.around]
        arity = len(d.around) - len(around) + len(self.patterns(d.clauses[0][0]))
        if arity == 0 and not around:
            self.all.space.setdefault("value_" + code, None)
            text = f"{code}()"
            return self.applied(text, arguments)
        shift = len(d.around) - len(around)
        lazy = [i >= shift and self.by_name(d, i - shift) for i in range(arity)]
        return self.saturated(lambda xs: f"{code}({', '.join(around + xs)})", arity, arguments, lazy)

    def saturated(self, make, arity, arguments, lazy=()):
        given = []
        for i, a in enumerate(arguments[:arity]):
            if i < len(lazy) and lazy[i]:
                text = self.expression(a)
                given.append(text[:-2] if re.fullmatch(r"v_\w+\(\)", text) else f"(lambda: {text})")
            else:
                given.append(self.expression(a))
        missing = []
        for i in range(len(arguments), arity):
            self.fresh += 1
            missing.append(f"m{self.fresh}")
            given.append(f"(lambda: m{self.fresh})" if i < len(lazy) and lazy[i] else missing[-1])
        text = make(given)
        for m in reversed(missing):
            text = f"(lambda {m}: {text})"
        return self.applied(text, arguments[arity:])

    def primitive(self, name, arguments):
        p = self.all.primitives[name]
        if p == "constructor":
            arity = {"Some": 1, "pos": 1, "negsuc": 1, "Ok": 1, "Err": 1, "inl": 1, "inr": 1}.get(name, 0)
            return self.saturated(lambda xs: "(" + ", ".join([repr(name)] + xs) + ("," if not xs else "") + ")", arity, arguments)
        if not callable(p):
            return p
        name = name.replace("ℤ", "Z")
        self.all.space["std_" + name] = p
        arity = p.__code__.co_argcount
        return self.saturated(lambda xs: f"std_{name}({', '.join(xs)})", arity, arguments)


# words of std

def listed(items):
    out = ()
    for item in reversed(list(items)):
        out = (item, out)
    return out


def items(xs):
    out = []
    while xs != ():
        out.append(xs[0])
        xs = xs[1]
    return out


def joined(xs, ys):
    for x in reversed(items(xs)):
        ys = (x, ys)
    return ys


def filter_map(f, xs):
    return listed(y[1] for y in map(f, items(xs)) if y[0] == "Some")


def slice_get(xs, n):
    xs = items(xs)
    return ("Some", xs[n]) if n < len(xs) else ("None",)


def slice_set(xs, n, x):
    xs = items(xs)
    return listed(xs[:n] + [x] + xs[n + 1:]) if n < len(xs) else listed(xs)


def lookup(f, entries):
    return next((("Some", e[2]) for e in items(entries) if f(e[1])), ("None",))


def position(f, xs):
    return next((("Some", i) for i, x in enumerate(items(xs)) if f(x)), ("None",))


def insert_entry(same, entries, key, value):
    entries = items(entries)
    for i, e in enumerate(entries):
        if same(key)(e[1]):
            entries[i] = ("×", e[1], value)
            return listed(entries)
    return listed(entries + [("×", key, value)])


def insert_key(same, keys, key):
    return keys if any(map(same(key), items(keys))) else listed(items(keys) + [key])


def integer(n):
    """An integer as `pos n` or `negsuc n`, which is -(n + 1)."""
    return ("pos", n) if n >= 0 else ("negsuc", -n - 1)


def number(z):
    return z[1] if z[0] == "pos" else -z[1] - 1


def value_of(thing, put):
    """A value of a run for a thing of CPython: itself, or an object, for which put gives its place in the heap."""
    if thing is None or thing is ... or thing is NotImplemented:
        return ({None: "None", ...: "Ellipsis", NotImplemented: "NotImplemented"}[thing],)
    if isinstance(thing, bool):
        return ("Bool", thing)
    if isinstance(thing, int):
        return ("Int", integer(thing))
    return ("Obj", {"0": put(thing)})


STD = {
    "true": "True", "false": "False", "zero": "0", "suc": lambda n: n + 1,
    "Some": "constructor", "None": "constructor", "pos": "constructor", "negsuc": "constructor", "inl": "constructor", "inr": "constructor",
    "Ok": "constructor", "Err": "constructor",
    "map": lambda f, xs: listed(map(f, items(xs))),
    "reverse": lambda xs: listed(reversed(items(xs))),
    "length": lambda xs: len(items(xs)),
    "drop": lambda n, xs: listed(items(xs)[n:]),
    "take": lambda n, xs: listed(items(xs)[:n]),
    "list_all": lambda f, xs: all(map(f, items(xs))),
    "list_any": lambda f, xs: any(map(f, items(xs))),
    "filter": lambda f, xs: listed(filter(f, items(xs))),
    "flat_map": lambda f, xs: listed(y for x in items(xs) for y in items(f(x))),
    "slice_index_or": lambda xs, n, x: dict(enumerate(items(xs))).get(n, x),
    "decimal": lambda n: listed(str(n).encode()),
    "bytes_eq": lambda a, b: a == b,
    "filter_map": filter_map,
    "slice_get": slice_get,
    "option_map": lambda f, o: ("Some", f(o[1])) if o[0] == "Some" else o,
    "unwrap_or": lambda o, x: o[1] if o[0] == "Some" else x,
    "is_some": lambda o: o[0] == "Some",
    "nat_le": lambda a, b: a <= b,
    "nat_lt": lambda a, b: a < b,
    "not": lambda b: not b,
    "cond": lambda b, x, y: x if b else y,
    "codes": lambda t: listed(t.encode()),
    "filter": lambda f, xs: listed(filter(f, items(xs))),
    "lookup": lookup, "position": position, "insert_entry": insert_entry, "slice_set": slice_set,
    "option_flatten": lambda o: o[1] if o[0] == "Some" else o,
    "option_or": lambda o, p: o if o[0] == "Some" else p,
    "nat_eq": lambda a, b: a == b,
    "find": lambda f, xs: next((("Some", x) for x in items(xs) if f(x)), ("None",)),
    "before_first": lambda f, xs: listed(itertools.takewhile(lambda x: not f(x), items(xs))),
    "lines": lambda a: listed(listed(line) for line in bytes(items(a)).split(b"\n")),
    "int_lt": lambda a, b: number(a) < number(b),
    "int_le": lambda a, b: number(a) <= number(b),
    "unsigned_abs": lambda a: abs(number(a)),
    "min": lambda a, b: min(a, b),
    "option_to_list": lambda o: (o[1], ()) if o[0] == "Some" else (),
    "encode_utf8": lambda c: listed(chr(c).encode()),
    "neg_ℤ": lambda a: integer(-number(a)),
    "bit_and": lambda a, b: a & b,
    "bit_or": lambda a, b: a | b,
    "bit_xor": lambda a, b: a ^ b,
    "bytes_eq": lambda a, b: a == b,
    "chars": lambda a: listed(map(ord, bytes(items(a)).decode())),
    "encode_utf8_all": lambda a: listed("".join(map(chr, items(a))).encode()),
    "is_in_range": lambda a, b, c: a <= c <= b,
    "is_whitespace": lambda c: chr(c).isspace() and not 28 <= c <= 31,
    "starts_with": lambda same, xs, ys: items(xs)[:len(items(ys))] == items(ys),
    "ends_with": lambda same, xs, ys: items(xs)[max(0, len(items(xs)) - len(items(ys))):] == items(ys),
    "insert": lambda xs, i, x: listed([*items(xs)[:i], x, *items(xs)[i:]]),
    "remove": lambda xs, i: listed([*items(xs)[:i], *items(xs)[i + 1:]]),
    "replicate": lambda n, x: listed([x] * n),
    "insert_key": insert_key,
    "signed_decimal": lambda a: listed(str(number(a)).encode()),
}


def load(crates, words=STD):
    all_ = Definitions(crates, words)
    all_.space.update(joined=joined, integer=integer, number=number)
    return all_
