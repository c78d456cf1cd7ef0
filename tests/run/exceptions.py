"""Scripts of exceptions: `raise`, `try`, `assert`, and exceptions as values."""

EXCEPTIONS = [
    "try:\n    raise ValueError('a', 1)\nexcept ValueError as e:\n    print(e, repr(e), [e], str(e))\n", 'raise ValueError\n', "raise ValueError('x')\n",
    "raise KeyError('x')\n", 'raise KeyError\n', "raise ValueError(1, 'b')\n", 'raise 5\n', 'raise ValueError from 5\n', 'raise\n', 'raise int\n',
    'raise ValueError from KeyError\n', "raise ValueError('a') from KeyError('k')\n", "raise ValueError('a') from None\n",
    "try:\n    1 // 0\nexcept ZeroDivisionError:\n    raise ValueError('a') from None\n",
    "try:\n    1 // 0\nexcept ZeroDivisionError as e:\n    raise ValueError('a') from e\n",
    "try:\n    1 // 0\nexcept ZeroDivisionError as e:\n    raise ValueError('a')\n", 'try:\n    1 // 0\nexcept 5:\n    pass\n',
    'try:\n    1 // 0\nexcept (5, ZeroDivisionError):\n    pass\n', 'try:\n    1 // 0\nexcept ((ZeroDivisionError,),):\n    pass\n',
    'try:\n    1 // 0\nexcept ():\n    pass\n', 'try:\n    1 // 0\nexcept int:\n    pass\n',
    "try:\n    pass\nexcept 5:\n    pass\nelse:\n    print('else')\nfinally:\n    print('fin')\n", 'assert 1\nassert 0\n', "assert 0, 'm'\n",
    'assert 0, (1, 2)\n', 'assert [], 5\n', "try:\n    assert 0, 'x'\nexcept AssertionError as e:\n    print(e)\nprint(e)\n",
    "try:\n    raise ValueError('a')\nexcept ValueError as a:\n    x = a\n    try:\n        raise KeyError('b')\n"
    '    except KeyError as b:\n        y = b\n        try:\n            raise x\n        except ValueError:\n            pass\nraise y\n',
    "try:\n    raise ValueError('a')\nexcept ValueError as a:\n    x = a\n    try:\n        raise KeyError('b')\n"
    '    except KeyError as b:\n        y = b\n        try:\n            raise x\n        except ValueError:\n            raise y\n',
    "try:\n    raise ValueError('a')\nexcept ValueError as a:\n    raise a\n",
    "try:\n    raise ValueError('a')\nexcept ValueError as a:\n    y = a\nraise y\n",
    "try:\n    raise ValueError('a')\nexcept ValueError as a:\n    raise a from a\n",
    "e = ValueError('a')\nf = KeyError(e)\n"
    'print(e, f, repr(f), str(f))\nprint(ValueError(f), ValueError(e, f), ValueError(ValueError(ValueError())))\n'
    'print(e == e, e != f, e is e, not e, e in [e], bool(e))\n',
    'x = [1]\ne = ValueError(x)\nprint(e, repr(e))\n', 'e = ValueError(*[1])\n', 'e = ValueError(a=1)\n',
    "def f():\n    try:\n        return 1\n    finally:\n        raise KeyError\ntry:\n    f()\nexcept KeyError:\n    print('k')\nf()\n",
    'def f(n):\n    if n: f(n - 1)\n    raise ValueError(n)\ntry:\n    f(2)\n'
    "except ValueError as e:\n    print(e)\n    try:\n        f(1)\n    finally:\n        print('x')\n",
    "try:\n    raise SystemExit(3)\nexcept Exception:\n    print('no')\n", "raise SystemExit('bye')\n",
    'try:\n    raise GeneratorExit\nexcept BaseException as e:\n    print(repr(e))\n',
    'def f():\n    raise\ntry:\n    1 // 0\nexcept ZeroDivisionError:\n    f()\n',
    'try:\n    f()\nexcept NameError as e:\n    print(e)\n    raise TypeError(e)\n', 'len(5)\n', 'for i in 5: pass\n',
    'try:\n    raise StopIteration(1)\nexcept Exception as e:\n    print(e)\n', "try:\n    {}[(1, 'a')]\nexcept KeyError as e:\n    print(e, repr(e))\n",
    "{}[(1, 'a')]\n", "{}['a']\n", "raise ValueError('')\n", 'raise ValueError(None)\n', "raise ValueError([1, 'a'])\n", "raise KeyError('a', 1)\n",
    'e = ValueError(1)\nraise e from e\n',
    'try:\n    try:\n        raise KeyError(1)\n    finally:\n        raise ValueError(2)\nexcept ValueError:\n    raise IndexError(3)\n',
    'for i in (1, 2, 3):\n    try:\n        if i == 1: continue\n        if i == 2: raise KeyError(i)\n        break\n    except KeyError as e:\n'
    "        print('caught', e)\n    else:\n        print('else')\n    finally:\n        print('fin', i)\nelse:\n    print('never')\n",
    'd = {ValueError(1): 2}\nprint(len(d))\n', 'e = ValueError(1)\nprint({e: 2}[e], e in {e}, e + 1)\n', 'for x in ValueError(1): pass\n',
    'ValueError(1)[0]\n', 'len(ValueError())\n', 'x = -ValueError()\n', 'print(ValueError() < ValueError())\n',
    "x = ValueError\ntry:\n    raise x('a')\nexcept (x, x):\n    print('x')\n",
    'print(callable(ValueError), callable(ValueError()), type(ValueError()) is ValueError, type(ValueError))\n',
    'def f():\n    try:\n        raise ValueError(1)\n    except ValueError as e:\n        def g(): return e\n        print(g())\n    g()\nf()\n',
    'try:\n    1 // 0\nexcept missing:\n    pass\n', "try:\n    1 // 0\nexcept ZeroDivisionError as e:\n    del e\nprint('x')\ne\n",
    'try:\n    1 // 0\nexcept ZeroDivisionError as e:\n    try:\n'
    "        raise KeyError\n    except KeyError as e:\n        pass\n    print('in')\nprint('out')\n",
    'def f():\n    try:\n        1 // 0\n    except ZeroDivisionError as e:\n        return type(e)\nprint(f(), f())\n',
    "try:\n    pass\nexcept ValueError:\n    print('no')\nelse:\n    raise ValueError(1)\nfinally:\n    print('fin')\n",
    'def f():\n    for i in (1, 2):\n        try:\n            1 // 0\n        finally:\n            continue\n    raise ValueError\nf()\n',
    'def f():\n    try:\n        1 // 0\n    finally:\n        return 5\nprint(f())\nraise ValueError\n',
    'def f():\n    while True:\n        try:\n            raise KeyError(1)\n        finally:\n            break\n    raise ValueError(2)\nf()\n',
    "def f(): 1 // 0\ntry:\n    raise KeyError('a')\nexcept KeyError:\n    f()\n",
    'def f():\n    try:\n        1 // 0\n    except ZeroDivisionError:\n        pass\n'
    "try:\n    raise KeyError('a')\nexcept KeyError:\n    f()\n    raise NameError('b')\n",
    "e = ValueError('x')\nfor i in (1, 2):\n    try:\n        raise e\n    except ValueError:\n        print(i)\nraise e\n",
    "a = ValueError('a')\nb = KeyError('b')\ntry:\n    raise a from b\nexcept ValueError:\n    pass\nraise b from a\n",
    "a = ValueError('a')\nb = KeyError('b')\ntry:\n    raise a\nexcept ValueError:\n    try:\n"
    '        raise b\n    except KeyError:\n        try:\n            raise a\n        except ValueError:\n            raise b\n',
    "a = ValueError('a')\nb = KeyError('b')\nc = NameError('c')\ntry:\n    raise a\nexcept ValueError:\n    try:\n        raise b\n"
    '    except KeyError:\n        try:\n            raise c\n        except NameError:\n            try:\n'
    '                raise a\n            except ValueError:\n                pass\nraise c\n',
    "a = ValueError('a')\ntry:\n    raise a\nexcept ValueError:\n    raise a from KeyError('k')\n",
    "a = ValueError('a')\ntry:\n    raise a from KeyError('k')\nexcept ValueError:\n    raise a from None\n",
    "try:\n    try:\n        raise KeyError('k')\n"
    "    except KeyError:\n        raise NameError('n') from None\nexcept NameError as e:\n    raise AttributeError('a')\n",
    'def f():\n    global e\n    try:\n        1 // 0\n    except ZeroDivisionError as e:\n        g()\n    g()\ndef g(): print(type(e))\nf()\n',
    "def f():\n    e = 1\n    def g():\n        nonlocal e\n        try:\n            raise KeyError('k')\n"
    '        except KeyError as e:\n            print(h())\n    def h(): return e\n    g()\n    h()\nf()\n',
    "try:\n    try:\n        raise KeyError('k')\n    finally:\n        print('f')\n        raise\nexcept KeyError as e:\n    print(repr(e))\n",
    "try:\n    raise KeyError('k')\nexcept KeyError:\n    pass\nraise\n",
    "def f():\n    try:\n        raise KeyError('k')\n    except KeyError:\n        g()\ndef g():\n"
    '    try:\n        raise\n    except KeyError as e:\n        print(repr(e))\n        raise\nf()\n',
    'try:\n    raise KeyError((1, 2))\nexcept KeyError as e:\n    print(e, repr(e), str(e))\n',
    "print(ImportError(None), ImportError('a'), ImportError(1, 2), SystemExit(3), StopIteration(), repr(StopIteration()), GeneratorExit('a'))\n",
    "x = []\ne = ValueError(x)\nx += [e]\nprint('ok')\n", "e = ValueError(1)\nf = ValueError(e)\nprint(f'{f!r} {f} {f!s:>5}')\n",
    'def f(n):\n    if n == 0: raise KeyError(n)\n    try:\n        f(n - 1)\n    except KeyError as e:\n        raise KeyError(n) from e\nf(3)\n',
    'def f(n):\n    if n == 0: raise KeyError(n)\n    try:\n        f(n - 1)\n    except KeyError:\n        raise\nf(3)\n',
    'def f(n):\n    if n == 0: raise KeyError(n)\n    try:\n        f(n - 1)\n    finally:\n        print(n)\nf(3)\n',
    "def f(n):\n    try:\n        if n == 0: raise KeyError(n)\n        f(n - 1)\n    except ValueError:\n        print('never')\nf(2)\n",
    'assert True, 1 // 0\nassert False, 1 // 0\n',
    't = (KeyError, ValueError)\nfor c in t:\n    try:\n        raise c\n    except t as e:\n        print(repr(e), type(e) is c)\n',
    "try:\n    try:\n        1 // 0\n    except KeyError:\n        print('no')\n    except ArithmeticError:\n"
    "        print('yes')\n        raise ValueError\n    except ValueError:\n        print('never')\nexcept ValueError:\n    print('outer')\n",
    'try:\n    raise ValueError from None\nexcept ValueError as e:\n    print(repr(e))\n', 'raise None\n', 'raise ValueError from ValueError\n',
    'raise (ValueError)\n', 'raise (ValueError,)\n', 'raise print\n', "raise ValueError(ValueError('a'))\n", "raise KeyError(ValueError('a'))\n",
    "raise ValueError(('a', 1))\n", "raise ValueError('a\\nb')\n", "raise KeyError('')\n", 'raise KeyError(None)\n', "raise ValueError('\\u00e9')\n",
    'raise LookupError(1, [2], (3,))\n',
    'def f(a): pass\ntry:\n    f()\nexcept TypeError as e:\n    print(type(e))\ntry:\n'
    '    a, b = 1, 2, 3\nexcept ValueError as e:\n    print(type(e))\ntry:\n    [][0]\nexcept LookupError as e:\n    print(type(e))\n',
    "try:\n    raise BaseException\nexcept Exception:\n    print('no')\nexcept BaseException:\n    print('yes')\n",
    'i = 0\nwhile i < 3:\n    i += 1\n    try:\n        if i == 2: raise KeyError\n        print(i)\n'
    "    except KeyError:\n        continue\n    else:\n        print('else')\n    finally:\n        print('f')\n",
    "try:\n    for i in 5: pass\nexcept TypeError: print('t')\n", 'try:\n    raise\nexcept RuntimeError as e:\n    print(type(e))\n',
    'try: raise KeyError\nexcept KeyError: pass\nelse: pass\nfinally: pass\n', 'try: pass\nfinally: raise KeyError\n',
    'def f():\n    try: return 1\n    except: return 2\n    else: return 3\n    finally: print(4)\nprint(f())\n',
    'def f():\n    try: pass\n    except: return 2\n    else: return 3\n    finally: print(4)\nprint(f())\n',
    "def f():\n    try:\n        return g()\n    finally:\n        print('x')\ndef g(): raise KeyError\ntry: f()\nexcept KeyError: print('k')\n",
    'x = lambda: 1 // 0\ntry: x()\nexcept Exception as e: y = e\nprint(type(y))\nraise y\n',
]
