# expressions: their tokens, a parser by classes, and what they are worth
class Wrong(Exception):
    pass


class Scanner:
    DIGITS = "0123456789"
    SIGNS = "+-*/()"
    LETTERS = "abcdefghijklmnopqrstuvwxyz"

    def __init__(self, text):
        self.text, self.at = text, 0
        self.tokens = []
        while self.at < len(text):
            c = text[self.at]
            if c == " ":
                self.at += 1
            elif c in self.DIGITS:
                self.tokens.append(("number", int(self.while_in(self.DIGITS))))
            elif c in self.LETTERS:
                self.tokens.append(("name", self.while_in(self.LETTERS)))
            elif c in Scanner.SIGNS:
                self.tokens.append((c, None))
                self.at += 1
            else:
                raise Wrong("sign", c, self.at)
        self.tokens.append(("end", None))

    def while_in(self, letters):
        start = self.at
        while self.at < len(self.text) and self.text[self.at] in letters:
            self.at += 1
        return self.text[start:self.at]


class Number:
    def __init__(self, value):
        self.value = value

    def worth(self, names):
        return self.value

    def shown(self):
        return str(self.value)


class Name:
    def __init__(self, name):
        self.name = name

    def worth(self, names):
        try:
            return names[self.name]
        except KeyError as missing:
            raise Wrong("name", self.name) from missing

    def shown(self):
        return self.name


class Pair:
    ways = {"+": lambda a, b: a + b, "-": lambda a, b: a - b, "*": lambda a, b: a * b, "/": lambda a, b: a // b}

    def __init__(self, sign, left, right):
        self.sign, self.left, self.right = sign, left, right

    def worth(self, names):
        return Pair.ways[self.sign](self.left.worth(names), self.right.worth(names))

    def shown(self):
        return f"({self.left.shown()} {self.sign} {self.right.shown()})"


class Turned:
    def __init__(self, inner):
        self.inner = inner

    def worth(self, names):
        return -self.inner.worth(names)

    def shown(self):
        return "-" + self.inner.shown()


class Parser:
    def __init__(self, text):
        self.tokens = Scanner(text).tokens
        self.at = 0

    def kind(self):
        return self.tokens[self.at][0]

    def take(self, kind):
        if self.kind() != kind:
            raise Wrong("token", self.kind(), "for", kind)
        self.at += 1
        return self.tokens[self.at - 1][1]

    def whole(self):
        found = self.chain(["+", "-"], lambda: self.chain(["*", "/"], self.atom))
        self.take("end")
        return found

    def chain(self, signs, part):
        found = part()
        while self.kind() in signs:
            sign = self.kind()
            self.take(sign)
            found = Pair(sign, found, part())
        return found

    def atom(self):
        kind = self.kind()
        if kind == "number":
            return Number(self.take(kind))
        if kind == "name":
            return Name(self.take(kind))
        if kind == "-":
            self.take(kind)
            return Turned(self.atom())
        self.take("(")
        found = self.chain(["+", "-"], lambda: self.chain(["*", "/"], self.atom))
        self.take(")")
        return found


names = {"x": 7, "y": -2}
for text in ["1 + 2 * 3", "(1 + 2) * 3", "x * x - y", "-(x - 10) / 2", "8 / 2 / 2", "2 +", "z + 1", "4 $ 4", "1 / (y + 2)", "(1", "1 2"]:
    try:
        tree = Parser(text).whole()
        print(text, "=", tree.shown(), "=", tree.worth(names))
    except Wrong as error:
        print(text, "is wrong:", error.args, error.__cause__ is None)
    except ZeroDivisionError:
        print(text, "divides by zero")
