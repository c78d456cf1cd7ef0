"""The primitives of the prelude as plain Python functions, by what its operations say of them, over CPython's own objects.

A class of a script is one that is made here by a test; a name is bound in a script where such a class on the chain of the object's class
binds it.
"""


class Bad(Exception):
    """A value that an operation doesn't take: the operation's name and the operands."""


def is_of_script(x):
    return type(x).__module__ == "script"


def chain(x):
    return [c for c in type(x).__mro__ if c.__module__ == "script"]


def _has(x, name):
    return is_of_script(x) and any(name in vars(c) for c in chain(x))


def _get(x, name):
    return next(vars(c)[name] for c in chain(x) if name in vars(c)).__get__(x, type(x))


def _bad(sign, a, b):
    raise Bad(sign, a, b)


def _tuple(xs):
    return tuple(xs)


def _set():
    return set()


def _join(s, xs):
    return s.join(xs)


def _refill(l, xs):
    l[:] = xs


def _sort(l, keys, is_reversed):
    order = sorted(range(len(l)), key=lambda i: keys[i], reverse=is_reversed)
    return [l[i] for i in order]


def _is(x, name):
    return type(x).__name__ == name and not is_of_script(x)


def _error(x):
    return isinstance(x, BaseException)


VIEWS = (type({}.keys()), type({}.values()), type({}.items()))


def _holds(x):
    """Whether an instance of a script's class can be reached from a container, view or exception."""
    return type(x) in (list, tuple, set, dict, *VIEWS) or _error(x)


def _repr(x):
    return repr(x)


def _dots(x):
    return {list: "[...]", tuple: "(...)", set: "{...}", dict: "{...}"}.get(type(x), "...")


def _parts(x):
    if type(x) is dict:
        return [y for pair in x.items() for y in pair]
    return list(x.args) if _error(x) else list(x)


def _wrap(x, texts):
    inner = ", ".join(texts)
    if type(x) is list:
        return f"[{inner}]"
    if type(x) is tuple:
        return f"({inner},)" if len(texts) == 1 else f"({inner})"
    if type(x) is set:
        return f"{{{inner}}}" if texts else "set()"
    if type(x) is dict:
        return "{" + ", ".join(f"{k}: {v}" for k, v in zip(texts[::2], texts[1::2])) + "}"
    name = type(x).__name__
    return f"{name}({inner})" if _error(x) else f"{name}([{inner}])"


def _str(t):
    if type(t) is not str:
        raise TypeError("bad argument")
    return t


def _bool(t):
    if type(t) is not bool:
        raise TypeError("bad argument")
    return t


def _len(n):
    if type(n) is not int:
        raise TypeError("bad argument")
    if n < 0:
        raise ValueError("bad argument")
    return n


printed = []


def _write(t):
    printed.append(t)


PRIMITIVES = {name: f for name, f in globals().items() if name.startswith("_") and not name.startswith("__")}
