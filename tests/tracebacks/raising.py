"""Scripts that an exception leaves, what CPython knows of the exceptions, and the traceback that it prints of them.

Run with CPython 3.12. CPython's marks under parts of a line are taken off, and it shows each frame that repeats.
"""

import __future__
import io
import itertools
import linecache
import re
import sys
import traceback

traceback._RECURSIVE_CUTOFF = 10 ** 9
MARKS = re.compile(r" {4} *[~^]*\^[~^]*\n")

# a name of the file, and its text
SCRIPTS = [
    ("a.py", 'print("one" + 1)\n'),
    ("a.py", "x = 1 // 0"),
    ("a.py", "x = 1 // 0   # a zero \t\f"),
    ("dir/b c.py", "def f(x):\n\treturn x // 0\nf(1)\n"),
    ("a.py", "def f():\r\n    return g()  \r\ndef g():\r\n    return h()\r\nlambda: 0\r\nh = lambda: nosuch\r\nf()\r\n"),
    ("a.py", "x = 0\ry = -1\n\n\nif x < 1: z = 1 << y\n"),
    ("a.py", "x = 1 //\\\n  0\n"),
    ("a.py", "# \u00e9\u20ac\nx = '\u20ac\u00e9' + 1 # \u00fc\n"),
    ("a.py", "def f(n):\n    if n == 0:\n        return None - 1\n    f(n - 1)\n\nf(7)\n"),
    ("a.py", "try:\n    1 // 0\nexcept ZeroDivisionError:\n    nosuch\n"),
    ("c.py", 'def f():\n    try:\n        1 // 0\n    except ZeroDivisionError as e:\n        raise ValueError("bad") from e\nf()\n'),
    ("a.py", "try:\n    1 // 0\nexcept ZeroDivisionError:\n    raise ValueError from None\n"),
    ("a.py", "raise ValueError('two\\nlines') from TypeError\n"),
    ("a.py", "raise ValueError('') from TypeError(3)\n"),
    ("a.py", "raise ValueError(None) from TypeError(True)\n"),
    ("a.py", "a = ValueError('a')\nb = TypeError('b')\na.__cause__ = b\nb.__cause__ = a\nraise a\n"),
    ("a.py", "a = ValueError('a')\na.__cause__ = a\nraise a\n"),
    ("a.py", "a = ValueError('a')\nb = TypeError('b')\nc = NameError('c')\na.__cause__ = b\nb.__context__ = c\nc.__context__ = b\nraise a\n"),
    ("a.py", "x = ValueError('x')\ntry:\n    raise x\nexcept ValueError:\n    pass\nraise x\n"),
    ("a.py", "def f():\n    try:\n        raise ValueError('v')\n    except ValueError:\n        g()\ndef g():\n    try:\n"
             "        nosuch\n    except NameError:\n        raise\n    finally:\n        1 // 0\nf()\n"),
    ("a.py", "try:\n    try:\n        1 // 0\n    except ZeroDivisionError as e:\n        raise TypeError('t') from e\n"
             "except TypeError:\n    raise ValueError('v')\n"),
    ("a.py", "class E(Exception):\n    def f(self):\n        raise self\nE('e').f()\n"),
    ("a.py", "class E(Exception): pass\nclass F(E):\n    raise E\n"),
    ("a.py", "x = '''\n''' + 1\n"),
    ("a.py", "x = [\n    i // 0\n    for i in range(2)\n]\n"),
    ("a.py", "def f(n):\n    f(n + 1)\nf(0)\n"),
]


def generated():
    """Functions that call one another and raise, over a few shapes of what they do with an exception of another one."""
    shapes = ["g()", "try:\n        g()\n    except ValueError:\n        raise TypeError('t')",
              "try:\n        g()\n    except ValueError as e:\n        raise TypeError from e",
              "try:\n        g()\n    except ValueError as e:\n        raise e", "try:\n        g()\n    except ValueError:\n        raise",
              "try:\n        g()\n    finally:\n        nosuch", "try:\n        g()\n    except ValueError:\n        raise TypeError('u') from None"]
    for a, b in itertools.product(shapes, shapes):
        yield "g.py", f"def h():\n    {a}\ndef k():\n    {b.replace('g()', 'h()')}\ndef g():\n    raise ValueError('v')\nk()\n"


def source_of(text):
    return io.StringIO(text, newline=None).read()


def exception_of(name, text):
    """The exception that leaves the script, without the frame that runs it here."""
    source = source_of(text)
    linecache.cache[name] = (len(source), None, source.splitlines(keepends=True), name)
    limit = sys.getrecursionlimit()
    sys.setrecursionlimit(150)
    try:
        # annotations aren't evaluated
        exec(compile(source, name, "exec", __future__.annotations.compiler_flag), {"__name__": "__main__"})
    except BaseException as e:
        return e.with_traceback(e.__traceback__.tb_next)
    finally:
        sys.setrecursionlimit(limit)
    raise ValueError(text)


def printed(exception):
    return "".join(line for part in traceback.format_exception(exception) for line in part.splitlines(keepends=True) if not MARKS.fullmatch(line))


def exceptions_of(first):
    """What can be reached from an exception: of each its class, its text if it has an argument, the places of its cause and context, whether
    that is hidden, and the lines and blocks of its frames, the newest call first."""
    found = [first]
    for x in found:
        for y in (x.__cause__, x.__context__):
            if y is not None and not any(y is z for z in found):
                found.append(y)
    place = {id(x): i for i, x in enumerate(found)}
    rows = []
    for x in found:
        frames = [(line, frame.f_code.co_name) for frame, line in traceback.walk_tb(x.__traceback__)]
        rows.append((type(x).__name__, str(x.args[0]) if x.args else None, place.get(id(x.__cause__)), place.get(id(x.__context__)),
                     x.__suppress_context__, frames[::-1]))
    return rows


def cases():
    """A script's name and text, its exceptions from the one that left it on, and the traceback."""
    for name, text in [*SCRIPTS, *generated()]:
        x = exception_of(name, text)
        yield name, text, exceptions_of(x), printed(x)
