"""Writes the table of test_frames, and what is to be answered to its rows.

What `bind` is to answer is asked of CPython 3.12, one cause after the other in the order in which they are told: more
arguments than parameters, a name given twice, a name that no parameter has, a parameter without a value. Run with CPython 3.12
in this folder.
"""

import random
import re
from pathlib import Path

CRATE = Path(__file__).resolve().parent.parent.parent / "crates" / "test_frames"


class Signature:
    """A row's parameters: `a` `b=1`, `*`, then keyword-only `.c` `.d=2`, then `**`."""

    def __init__(self, words):
        self.plain = [word for word in words if word[0] not in ".*"]
        self.only = [word[1:] for word in words if word[0] == "."]
        self.star = "*" in words
        self.stars = "**" in words

    def function(self, stars=None):
        """The function; with `stars` it takes any name."""
        parts = list(self.plain)
        if self.star:
            parts.append("*star")
        elif self.only:
            parts.append("*")
        parts += self.only
        if self.stars or stars:
            parts.append("**stars")
        names = [part.split("=")[0] for part in self.plain + self.only]
        values = ", ".join(names) + ("," if names else "")
        code = f"def f({', '.join(parts)}):\n    return ({values}), {'star' if self.star else '()'}, "
        space = {}
        exec(code + ("stars" if self.stars or stars else "{}"), space)
        return space["f"]


def called(function, places, names):
    """What CPython answers to a call: values, or a refusal."""
    spread = ", ".join(f"**{{{name!r}: {value}}}" for name, value in names)
    try:
        values, star, stars = eval(f"f(*{places!r}, {spread})", {"f": function})
    except TypeError as error:
        return refusal(str(error))
    line = "ok" + "".join(f" {value}" for value in values)
    return line + " |" + "".join(f" {value}" for value in star) + " |" + "".join(f" {name}:{value}" for name, value in stars.items())


def refusal(text):
    if found := re.search(r"takes .* but (\d+) .*given$", text):
        return f"TooMany {found[1]}"
    if found := re.search(r"multiple values for (?:keyword )?argument '(\w+)'", text):
        return f"Double {found[1]}"
    if found := re.search(r"unexpected keyword argument '(\w+)'", text):
        return f"Unexpected {found[1]}"
    found = re.search(r"missing \d+ required .*?: '(\w+)'", text)
    return f"Missing {found[1]}"


def bind_answer(row):
    left, right = row.split("|")
    signature = Signature(left.split())
    words = right.split()
    places = [int(word) for word in words if ":" not in word]
    names = [word.split(":") for word in words if ":" in word]
    answer = called(signature.function(), places, [])
    if answer.startswith("TooMany"):
        return answer
    for kind, stars in ("Double", True), ("Unexpected", None):
        for count in range(1, len(names) + 1):
            answer = called(signature.function(stars), places, names[:count])
            if answer.startswith(kind):
                return answer
    return called(signature.function(), places, names)


def random_row(source):
    names = list("abcdefg")
    source.shuffle(names)
    plain = names[:source.randrange(4)]
    only = names[4:4 + source.randrange(3)]
    first_default = source.randrange(len(plain) + 1)
    words = [name if place < first_default else f"{name}={source.randrange(10, 20)}" for place, name in enumerate(plain)]
    if source.randrange(3) == 0:
        words.append("*")
    words += [f".{name}" + source.choice(["", f"={source.randrange(20, 30)}"]) for name in only]
    if source.randrange(3) == 0:
        words.append("**")
    places = [str(source.randrange(10)) for _ in range(source.randrange(5))]
    given = [f"{source.choice(names)}:{source.randrange(10)}" for _ in range(source.randrange(4))]
    return " ".join(words) + " | " + " ".join(places + given)


BIND = [
    "|", "| 1", "| x:1", "a |", "a | 1", "a | 1 2", "a | a:1", "a | 1 a:2", "a | a:1 a:2", "a | b:1",
    "a b | 1 2", "a b | 1 b:2", "a b | b:2 a:1", "a b | 1", "a b |", "a b | b:1", "a b=5 | 1", "a b=5 | 1 2",
    "a b=5 | 1 2 3", "a=4 b=5 |", "a=4 b=5 | b:1", "* | 1 2 3", "a * | 1 2 3", "a * |", "a * | a:1", "a * | 1 2 a:3",
    "** | x:1 y:2", "** | x:1 x:2", "** | 1", "a ** | x:1 a:2 y:3", "a ** | 1 a:2", "a ** | x:1",
    ".a |", ".a | a:1", ".a | 1", ".a | 1 a:2", ".a=3 |", ".a=3 | a:1", ".a .b=2 | a:1", ".a .b | b:1", ".a .b | a:1",
    "a .b | 1 b:2", "a .b | 1", "a .b | 1 2 b:3", "a .b | 1 2", "a * .b | 1 2 b:3", "a * .b | 1 2",
    "a b=2 * .c .d=4 ** | 1 2 3 4 c:5 e:6 f:7", "a b=2 * .c .d=4 ** | 1 c:5", "a b=2 * .c .d=4 ** | c:5",
    "a b=2 * .c .d=4 ** | 1 2 c:5 b:6", "a b=2 * .c .d=4 ** | 1 2 c:5 c:6", "a b=2 * .c .d=4 ** | 1 e:5 e:6 c:1",
    # several causes at once
    "a | 1 2 a:3", "a | 1 2 b:3", "a | 1 a:2 b:3", "a | 1 b:3 a:2", "a b | 1 a:2", "a b | c:1", "a .b | 1 2 c:3",
    "a .b | 1 c:3", "a .b | 1 a:2", "| x:1 x:2", "| x:1 y:2 y:3", "a | 1 x:1 x:2", "a b c |", ".a .b .c |", "a .b |",
    "a b c | c:1", "a b=1 .c | b:2", "a | b:1 a:2 a:3",
]

# each row of the words that a generator is asked, and what it answers
GENERATORS = [
    ("+ ?0 n0 ?0 y0 ?0 n0 ?0 f0 ?0 n0 ?0", "0 Fresh 10 Running . Suspended 10 Running . Finished Done Finished"),
    ("+ n0 n0 s0:1 s0:None t0 c0 ?0", "0 10 Running Running Running Running Running Running"),
    ("+ s0:1 ?0 s0:None ?0", "0 SendEarly Fresh 10 Running"),
    ("+ s0:1 s0:2 n0", "0 SendEarly SendEarly 10"),
    ("+ t0 ?0 f0 ?0 t0 c0 s0:1 s0:None n0", "0 10 Running . Finished Done Done Done Done Done"),
    ("+ c0 f0 ?0", "0 10 . Finished"),
    ("+ n0 y0 s0:1 ?0", "0 10 . 10 Running"),
    ("+ n0 y0 s0:None y0 t0 y0 c0 f0 ?0", "0 10 . 10 . 10 . 10 . Finished"),
    ("+ + + n1 y1 n2 f2 ?0 ?1 ?2 n0 n1 n2", "0 1 2 11 . 12 . Fresh Suspended Finished 10 11 Done"),
]

# how many activations are opened and closed
OPENS = [
    ("o1000 o1", "1000 0 TooDeep"),
    ("o999 o1 o1", "999 1 0 TooDeep"),
    ("o1001", "1000 TooDeep"),
    ("o1000 c1 o2 c1001 o3", "1000 1 1 TooDeep 1000 3"),
]

# what is done to activations, cells and names, and what is answered
ACTIVATIONS = [
    ("o", "0"), ("o o f", "0 1 2"), ("o z o", "0 . 1"),
    ("o p5 p6 s0 s1 s2 q q", "0 . . 6 5 - 6 5"),
    ("o p1 p2 p3 k1 s0 s1", "0 . . . . 1 -"), ("o k5 p1 k1 s0 k0 s0", "0 . . . 1 . -"),
    ("e o e p5 x6 e q e", "- 0 - . . 6 x6 -"), ("o x1 o e r2 e q e", "0 . 1 1 . 2 r2 1"), ("o x1 p2 r3 p4 e", "0 . . . . 3"),
    ("o l0 l1 l2 l0=7 l0 l1= l1 l2=3 l2", "0 - 1 - . 7 . - . -"),
    ("o c0 c0=4 c0 c1=2 c1 o c0", "0 - . 4 . - 1 -"),
    ("o n:a n:b=1 n:a=2 n:b n:a N n:b= n:b N n:b=5 N", "0 - . . 1 2 {b:1;a:2;} . - {a:2;} . {b:5;a:2;}"),
    ("o n:a=1 o n:a n:a=2 z n:a", "0 . 1 - . . 1"),
    ("g:a g:b=1 g:a=2 G g:b= G g:b=3 G", "- . . {b:1;a:2;} . {a:2;} . {b:3;a:2;}"),
    ("@:a @0 g:a @:b g:a=5 @0 @0=6 g:a @:a @1 @1=7 G @2 @2=1 G", "0 - - 1 . 5 . 6 0 - . {a:6;b:7;} - . {a:6;b:7;}"),
    ("g:x=1 @:y @:x G @1= @1 @0= G", ". 1 0 {x:1;} . - . {}"),
    ("o p5 l0=2 v s0 l0 o v z s0", "0 . . . 5 2 1 . . 5"), ("f p1 x2 v e k0 e", "0 . . . 2 . -"),
    ("o p1 n:a=1 g:b=2 c0=3 d p2 s0 s1 n:a g:b c0 @0 e", "0 . . . . . . 2 1 1 2 3 2 -"),
    ("o g:a=1 z G o", "0 . . {a:1;} 1"),
]

# handler rows, a place and a completion, and where that goes on
TRY = "2-5:9:0"
FINALLY = "!1-8:20:1"
LANDINGS = [
    ("| 3 raise", "Out"), ("| 3 return", "Out"), ("| 3 7", "Jump 7"), ("| 3 normal", "Jump 3"),
    (f"{TRY} | 3 raise", "Enter 9 0 false"), (f"{TRY} | 1 raise", "Out"), (f"{TRY} | 2 raise", "Enter 9 0 false"),
    (f"{TRY} | 5 raise", "Out"), (f"{TRY} | 3 return", "Out"), (f"{TRY} | 3 7", "Jump 7"), (f"{TRY} | 3 normal", "Jump 3"),
    (f"{FINALLY} | 3 raise", "Enter 20 1 true"), (f"{FINALLY} | 3 return", "Enter 20 1 true"),
    (f"{FINALLY} | 3 8", "Enter 20 1 true"), (f"{FINALLY} | 3 0", "Enter 20 1 true"), (f"{FINALLY} | 3 7", "Jump 7"),
    (f"{FINALLY} | 3 normal", "Jump 3"), (f"{FINALLY} | 8 return", "Out"),
    (f"{TRY} {FINALLY} | 3 raise", "Enter 9 0 false"), (f"{TRY} {FINALLY} | 6 raise", "Enter 20 1 true"),
    (f"{TRY} {FINALLY} | 3 return", "Enter 20 1 true"), (f"{TRY} {FINALLY} | 3 30", "Enter 20 1 true"),
    (f"{TRY} {FINALLY} | 3 6", "Jump 6"), (f"{FINALLY} !0-40:50:0 | 3 30", "Enter 20 1 true"),
    (f"{FINALLY} !0-40:50:0 | 3 7", "Jump 7"), (f"{FINALLY} !0-40:50:0 | 10 return", "Enter 50 0 true"),
    ("!3-6:20:2 !1-9:30:1 | 4 7", "Enter 20 2 true"), ("!3-6:20:2 !1-9:30:1 | 4 5", "Jump 5"),
    ("!3-3:20:2 | 3 raise", "Out"), ("!6-3:20:2 | 4 raise", "Out"),
]


def main():
    source = random.Random(12)
    rows = [(f"bind {row}", bind_answer(row)) for row in BIND + [random_row(source) for _ in range(120)]]
    for kind, table in ("gen", GENERATORS), ("open", OPENS), ("act", ACTIVATIONS), ("land", LANDINGS):
        rows += [(f"{kind} {row}", answer) for row, answer in table]
    (CRATE / "data" / "rows.txt").write_text("".join(f"{row}\n" for row, _ in rows))
    (CRATE / "stdout").write_text("".join(f"{answer}\n" for _, answer in rows))
    print(len(rows), "rows")


if __name__ == "__main__":
    main()
