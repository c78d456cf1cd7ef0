"""Random lists of pieces of a log: runs, and what no run writes."""
import random

NAMES = [b"<module>", b"f", b"g", b"f2", b"<lambda>", b"caf\xc3\xa9", b"a b", b""]
ODD = [b"", b"call", b"line", b"return", b"line 3", b"line 3\n", b"line x f\n", b"line 4294967295 f\n", b"line 4294967296 f\n", b"line +3 f\n",
       b"line 007 f\n", b"line  3 f\n", b" line 3 f\n", b"call 1 f g\n", b"lines 3 f\n", b"calls 1 f\n", b"act 3 f\n", b"acts", b"Line 3 f\n",
       b"line 3 f\nline 4 g\n", b"call 1\tf\n", b"exception 3 f ValueError\n", b"exception 3 f\n", b"line 18446744073709551616 f\n", b"line 3 f",
       b"line \xff f\n", b"line 3 \xff\n", b"returned 1 f\n", b"call 1 f\r\n"]
TOTALS = [b"acts 26\ninstructions 30\ndepth 3\n", b"acts 0\n", b"acts ", b"acts x"]


def run(depth=0):
    """The events of a run, nested as calls are."""
    name = random.choice(NAMES[:6])
    out = [b"call %d %s\n" % (random.randrange(1, 9), name)]
    for _ in range(random.randrange(4)):
        out.append(b"line %d %s\n" % (random.randrange(1, 9), name))
        if depth < 5 and random.random() < 0.4:
            out += run(depth + 1)
        if random.random() < 0.1:
            out.append(b"exception 3 %s ValueError\n" % name)
    return out + ([b"return %d %s\n" % (random.randrange(1, 9), name)] if random.random() < 0.9 else [])


def pieces():
    out = run()
    for _ in range(random.choice([0, 0, 1, 2, 5])):
        out.insert(random.randrange(len(out) + 1), random.choice(ODD))
    for _ in range(random.choice([0, 0, 1, 3])):
        out.insert(random.randrange(len(out) + 1), b"return 1 %s\n" % random.choice(NAMES))
    if random.random() < 0.2:
        random.shuffle(out)
    if random.random() < 0.8:
        out.append(random.choice(TOTALS))
        out += [random.choice([*ODD, *TOTALS, b"pt: spent after 26 acts\n"]) for _ in range(random.choice([0, 0, 1, 2]))]
    return out


def given(kind):
    if kind == "lines":
        return [random.randrange(0, 10) for _ in range(random.randrange(8))]
    return [random.choice(NAMES) for _ in range(random.randrange(8))]


def deep(count):
    """More calls than have a span, some returns, and lines between them."""
    out = [b"call 1 f\n"] + [b"call 1 g\n"] * (count - 2) + [b"call 1 h\n", b"line 3 h\n"]
    return out + [b"return 1 g\n"] * random.randrange(4) + [b"line 4 g\n"] + [b"return 1 g\n"] * (count - 2) + [b"line 5 f\n", b"return 1 f\n"] * 2
