"""The cover grammar as docs/LANGUAGE.md has it, and the first token with which no script goes on.

An Earley recogniser: it has nothing in common with the readers of the project, so that the places
of refusals in the tables beside it are told by the grammar alone. Tokens are CPython's.
"""
import io
import keyword
import re
import token
import tokenize
from pathlib import Path

PAGE = Path(__file__).resolve().parents[2] / "docs" / "LANGUAGE.md"

# The productions of lists of parameters.
PARAMETERS = ("params", "slashed", "defaults", "ending", "stars", "keywords")

rules = {}


def add(name, alternatives):
    rules.setdefault(name, []).extend(alternatives)


def fresh(name, count=iter(range(10**6))):
    return f"{name}~{next(count)}"


def alternatives(words, at, end, name):
    """The alternatives up to the closing word; what is in brackets becomes a rule of its own."""
    found, current = [], []
    while at < len(words) and words[at] != end:
        word = words[at]
        if word == "|":
            found.append(tuple(current))
            current = []
            at += 1
        elif word in ("{", "[", "("):
            inner, at = alternatives(words, at + 1, {"{": "}", "[": "]", "(": ")"}[word], name)
            at += 1
            rule = fresh(name)
            more = {"(": [], "[": [()], "{": [()]}[word]
            add(rule, more + ([a + (rule,) for a in inner] if word == "{" else inner))
            current.append(rule)
        else:
            current.append(word)
            at += 1
    found.append(tuple(current))
    return found, at


def read_productions():
    """The grammar of the page. What begins with `plain` is a list of parameters without annotations, as of a lambda."""
    page = re.search(r"```ebnf\n(.*?)```", PAGE.read_text(), flags=re.S)[1]
    parts = re.split(r"^([a-z]+)\s*=", page, flags=re.M)[1:]
    for name, body in zip(parts[::2], parts[1::2]):
        words = re.findall(r'"[^"]*"|[A-Za-z_]+|[{}\[\]()|]', body)
        add(name, alternatives(words, 0, None, name)[0])
        if name == "param":
            add("plain" + name, [("NAME",)])
        elif name in PARAMETERS:
            plain = ["plain" + word if word in ("param", *PARAMETERS) else word for word in words]
            add("plain" + name, alternatives(plain, 0, None, name)[0])


read_productions()

empty = set()
while True:
    more = {n for n, alts in rules.items() if n not in empty and any(all(x in empty for x in a) for a in alts)}
    if not more:
        break
    empty |= more


def closure(items, sets, place):
    seen, work = set(items), list(items)

    def put(item):
        if item not in seen:
            seen.add(item)
            work.append(item)

    while work:
        name, body, dot, start = work.pop()
        if dot < len(body):
            following = body[dot]
            if following in rules:
                for alternative in rules[following]:
                    put((following, alternative, 0, place))
                if following in empty:
                    put((name, body, dot + 1, start))
        else:
            for outer, around, at, begun in list(seen if start == place else sets[start]):
                if at < len(around) and around[at] == name:
                    put((outer, around, at + 1, begun))
    return seen


def is_next(symbol, kind):
    if symbol.startswith('"'):
        return kind == ("SIGN", symbol[1:-1])
    if symbol == "CONVERSION":
        return kind in (("NAME", "r"), ("NAME", "s"))
    return kind[0] == symbol


def recognise(kinds, goal="script"):
    """The number of the first token with which nothing goes on, or of all tokens; and whether those before it are the goal."""
    sets = [closure({(goal, a, 0, 0) for a in rules[goal]}, [], 0)]
    for place, kind in enumerate(kinds):
        moved = {
            (name, body, dot + 1, start)
            for name, body, dot, start in sets[place]
            if dot < len(body) and body[dot] not in rules and is_next(body[dot], kind)
        }
        if not moved:
            break
        sets.append(closure(moved, sets, place + 1))
    return len(sets) - 1, any(n == goal and dot == len(b) and start == 0 for n, b, dot, start in sets[-1])


def tokens(text):
    """Kind and byte place of each token."""
    starts = [0]
    lines = text.splitlines(keepends=True)
    for line in lines:
        starts.append(starts[-1] + len(line.encode()))

    def place(row, column):
        return starts[row - 1] + len(lines[row - 1][:column].encode()) if row <= len(lines) else starts[-1]

    found = []
    for each in tokenize.generate_tokens(io.StringIO(text).readline):
        name = token.tok_name[each.type]
        if name in ("COMMENT", "NL", "ENCODING") or name == "FSTRING_MIDDLE" and not each.string:
            continue
        if name == "NAME":
            kind = ("SIGN" if each.string in keyword.kwlist else "NAME", each.string)
        elif name == "OP":
            kind = ("SIGN", each.string)
        else:
            names = {"NUMBER": "INT", "ENDMARKER": "END", "FSTRING_START": "FSTART", "FSTRING_MIDDLE": "FTEXT", "FSTRING_END": "FEND"}
            kind = (names.get(name, name), each.string)
        found.append((kind, place(*(each.end if name == "INDENT" else each.start))))
    return found


def refusal(text):
    """None for a script of the wide grammar; else the byte place at which it is refused."""
    found = tokens(text)
    count, whole = recognise([kind for kind, _ in found])
    if whole:
        return None
    return found[min(count, len(found) - 1)][1]


def first(text, goal):
    """How many tokens the longest goal at the front of a text has, and the text of these; or the byte place with which none
    goes on."""
    found = tokens(text)
    count, whole = recognise([kind for kind, _ in found], goal)
    if whole:
        return count, text.encode()[: found[count][1]].decode()
    return found[min(count, len(found) - 1)][1], None
