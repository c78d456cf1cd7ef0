"""Scripts of classes, their instances and attributes: what a run doesn't have yet of them leaves the profile, and where it does something else
than CPython by its own rule, as at an attribute of a builtin class, stands elsewhere."""

CLASSES = [
    "class A: pass\nprint(A, type(A), callable(A), A.__name__)\na = A()\nprint(type(a) is A, isinstance(a, A), isinstance(a, object), a is A())\n",
    "class A:\n    x = 1\n    y = x + 1\n    print(x, y)\nprint(A.x, A.y)\na = A()\nprint(a.x)\na.x = 5\nprint(a.x, A.x)\ndel a.x\nprint(a.x)\ndel A.x\nprint(A.x)\n",
    "class A:\n    def __init__(self, n, *, m=2):\n        self.n = n\n        self.m = m\n        return\n    def sum(self, k=0): return self.n + self.m + k\n"
    "a = A(1)\nprint(a.sum(), a.sum(5), a.sum(k=7), A.sum(a), A(3, m=4).sum())\nf = a.sum\nprint(f(), f(1))\ng = A.sum\nprint(g(a, 1))\ng()\n",
    "class A:\n    def f(self): return 'A.f'\n    def g(self): return self.f()\nclass B(A):\n    def f(self): return 'B.f ' + super().f()\nclass C(B): pass\n"
    "print(A().g(), B().g(), C().g(), issubclass(C, A), issubclass(A, C), isinstance(C(), A))\n",
    "class A:\n    def __init__(self): self.made = ['A']\nclass B(A):\n    def __init__(self, x):\n        super().__init__()\n        self.made.append(x)\nprint(B('b').made)\nB()\n",
    "class A:\n    pass\nA(1)\n", "class A:\n    pass\nA(x=1)\n", "class A: pass\nA().x\n", "class A: pass\nA.x\n", "class A: pass\ndel A().x\n", "class A: pass\nA.f = 1\nprint(A().f)\ndel A.f\ndel A.f\n",
    "class E(Exception): pass\ntry: raise E('a', 1)\nexcept E as e: print(e.args, type(e), isinstance(e, Exception))\ntry: raise E\nexcept Exception as e: print(e.args)\nraise E(3)\n",
    "class E(ValueError):\n    def __init__(self, a, b=2):\n        self.a = a\n        self.b = b\ntry: raise E(1)\nexcept ValueError as e: print(e.a, e.b, e.args)\ntry: raise E(1, b=3)\nexcept E as e: print(e.args, e.b)\nraise E\n",
    "class E(Exception):\n    def __init__(self): self.x = 1\nclass F(E): pass\ntry: raise F from E\nexcept E as e: print(e.x, type(e.__cause__), e.__cause__.x)\nraise F from 5\n",
    "class E(KeyError): pass\ntry: raise E\nexcept LookupError: print('taken')\ntry: raise KeyError\nexcept E: print('never')\nexcept KeyError: print('taken')\n",
    "def f(x):\n    class A:\n        y = x\n        def g(self): return x\n    return A\na, b = f(1), f(2)\nprint(a is b, a.y, b.y, a().g(), b().g(), a.__name__)\n",
    "x = 'module'\ndef f():\n    x = 'f'\n    class A:\n        print(x)\n        x = 'A'\n        print(x)\n        del x\n        print(x)\n        def g(self): return x\n    return A().g()\nprint(f())\n",
    "x = 1\nclass A:\n    x = x + 1\n    y = [x, x]\n    def f(self): return x\nprint(A.x, A.y, A().f())\n", "class A:\n    print(y)\n", "class A:\n    y = 1\n    del y\n    del y\n",
    "class A:\n    __p = 1\n    def __q(self): return self.__p\n    def r(self): return self.__q()\nprint(A().r(), A._A__p)\nA.__p\n",
    "class A:\n    class B:\n        def f(self): return super().__init__\n        def g(self): return 'B'\n    def g(self): return 'A' + self.B().g()\nclass C(A):\n    class B(A.B):\n        def g(self): return 'C.B ' + super().g()\n"
    "    def g(self): return 'C ' + super().g()\nprint(C().g(), A().g())\n",
    "def f():\n    class A:\n        def g(self):\n            class B(A):\n                def g(self): return 'B ' + super().h()\n                def h(self): return 'no'\n            return B().g() + str(super().__class is None)\n        def h(self): return 'h'\n    return A().g()\nf()\n",
    "class A:\n    def f(self): return super()\nA.f(5)\n", "def f(x): super()\nf(1)\n", "class A:\n    def f(): super()\nA.f()\n", "class A:\n    def f(self):\n        del self\n        super()\nA().f()\n",
    "class A:\n    def f(self): return lambda: super()\nA().f()()\n", "class A:\n    def f(self): return (lambda self: super().g())(self)\nclass B(A):\n    pass\nA.g = lambda self: 1\nB().f()\n",
    "class A:\n    def f(self): return 1\nclass B(A):\n    def f(self): return [super().f() for i in range(2)], (lambda: self.f)\nb = B()\nprint(b.f()[0], b.f()[1]().f if False else 0)\n",
    "class A(5): print('body')\n", "class A(len): pass\n", "class A(int): pass\n", "class A(missing): pass\n", "class A:\n    print('a')\n    1 // 0\nprint('never')\n",
    "class A:\n    'text'\n    def __foo__(self): pass\n", "class A:\n    __slots__ = ()\n", "class A:\n    def __repr__(self): return 'A'\nprint(1)\nprint(A())\n",
    "a = object()\nb = object()\nprint(a is b, a is a, type(a))\na.x = 1\n", "object(1)\n", "(5).x = 1\n", "[].x = 1\n", "def f(): pass\ndel f.x\n", "print(len.x)\n", 
    "class A: pass\na = A()\nsetattr(a, 'x', 1)\nprint(a.x, getattr(a, 'x'), getattr(a, 'y', 2), hasattr(a, 'x'), hasattr(a, 'y'), setattr(A, 'y', 3), a.y)\nsetattr(a, 1, 2)\n", "setattr(5, 'x', 1)\n", "setattr(1)\n",
    "class A:\n    def f(self): pass\na = A()\nprint(a.f, A.f, a.f is a.f, getattr(a, 'f'), callable(a.f), type(a.f))\nprint(getattr(A, '__name__'), A.f.__name__)\na.g = A.f\na.g()\n",
    "def f(): pass\nprint(f.__name__, (lambda: 1).__name__)\nf.__nam__\n", "class A:\n    def f(self, *xs, **ks): return xs, ks\nprint(A().f(1, *[2, 3], a=1, **{'b': 2}))\n",
    "class A:\n    f = lambda self, x: x\n    g = len\n    h = print\nprint(A().f(2), A().g([1]), A.g([]))\nA().h('h')\n", "class A:\n    def f(self): return self.x\nA().f()\n",
    "def d(c):\n    c.d = 1\n    return c\ndef e(n): return lambda c: (c, n)\n@d\nclass A: pass\nprint(A.d)\n@e(2)\n@d\nclass B(A):\n    d = 0\nprint(B)\n", "class A: pass\nx = y = A()\nx.a, y.b = 1, 2\nprint(x.a + x.b)\nfor x.c in range(3): pass\nprint(y.c)\nx.c += 5\nx.c -= y.a\nprint(x.c)\n",
    "class A:\n    def f(n): return n\n    x = f(3)\nprint(A.x)\nclass A:\n    y = 1\nprint(A.y)\nA.x\n", "class A:\n    for i in range(3):\n        if i == 1: continue\n        print(i)\n    else: j = 'end'\nprint(A.i, A.j)\n", "for i in range(2):\n    class A:\n        n = i\n    print(A.n, A)\n",
    "class A:\n    try:\n        x = missing\n    except NameError: x = 1\n    finally: y = 2\nprint(A.x, A.y)\n", "class A:\n    global g\n    g = 1\n    def h(self):\n        global g\n        g += 1\nA().h()\nprint(g)\nA.g\n", "def f():\n    n = 1\n    class A:\n        nonlocal n\n        n = 2\n    print(n)\n    A.n\nf()\n",
    "class A:\n    def __init__(self): self.__x = 1\nclass B(A):\n    def f(self): return self._A__x\nprint(B().f())\n", "class A: pass\nclass A(A):\n    x = 1\nprint(A.x, A.__name__)\n", "class E(StopIteration): pass\nfor x in iter([1]): print(x)\ntry: raise E(1)\nexcept StopIteration as e: print(e.args)\n",
    "class E(SystemExit): pass\nraise E(3)\n", "class E(Exception):\n    args = 5\nprint(E(1).args)\n", "class E(Exception): pass\ne = E(1)\ne.x = 2\nprint(e.x, e.args, e.__cause__, e.__context__)\n", "class A:\n    def __init__(self): raise KeyError(1)\ntry: A()\nexcept KeyError: print('raised')\nA()\n",
    "class A:\n    def __call__(self): pass\nA()()\n", "class A: pass\nprint(A() is None, not A)\nA() + 1\n", "class A:\n    __init__ = 5\nA()\n", "class A:\n    def __init__(self): pass\n    def f(self):\n        self.__init__()\n        return A.__init__\nA().f()()\n", "class A:\n    def f(self): return self\na = A()\nprint(a.f().f() is a)\na.f.x = 1\n",
    "class A:\n    def f(self, n): return n if n == 0 else self.f(n - 1)\nprint(A().f(9))\n", "class A:\n    def f(x, self): return super().__x\nA().f(1)\n",
    "class A:\n    def f(self): return 'f'\nclass B(A):\n    def f(self): return super().f\nprint(B().f()(), B.f(B)(B()))\n", "class A:\n    x = 1\nclass B(A):\n    def f(self): return super().x\nA.x = 2\nprint(B().f())\ndel A.x\nB().f()\n",
]

# what a run does with classes by its own rule, or leaves the profile at: what is printed, and the ending
OWN = [
    ("int.x = 1\n", "", ("raised", "<AttributeError>", "'type' object has no attribute 'x'")),
    ("def f(): pass\nf.x = 1\n", "", ("raised", "<AttributeError>", "'function' object has no attribute 'x'")),
    ("ValueError().x = 1\n", "", ("raised", "<AttributeError>", "'ValueError' object has no attribute 'x'")),
    ("print(list.append)\n", "", ("raised", "<AttributeError>", "'type' object has no attribute 'append'")),
    ("class A(None): pass\nprint(A)\n", "<class 'A'>\n", ("done",)),
    ("class A:\n    def f(self): super().__init__\nA().f()\n", "", ("raised", "<AttributeError>", "'super' object has no attribute '__init__'")),
    ("s = super\nclass A:\n    def f(self): return 'A.f'\nclass B(A):\n    def f(self): return s().f()\nprint(B().f())\n", "A.f\n", ("done",)),
    ("class A:\n    def __init__(self): return 5\nprint(type(A()))\n", "<class 'A'>\n", ("done",)),
    ("class A: pass\nA.__name__ = 'B'\n", "", ("outside", "Feature", 2)),
    ("class A: pass\nA().__class__ = A\n", "", ("outside", "Feature", 2)),
    ("class E(Exception): pass\ne = E()\ne.args = ()\n", "", ("outside", "Feature", 3)),
    ("class A(int): print(1)\n", "1\n", ("outside", "Feature", 1)),
    ("class E(Exception):\n    def __init__(self): pass\nraise E\n", "", ("outside", "Feature", 3)),
    ("class A:\n    __init__ = print\nA()\n", "", ("outside", "Feature", 3)),
    ("class A: pass\nprint(A())\n", "<A object>\n", ("done",)),
    ("class A: pass\nA()()\n", "", ("raised", "<TypeError>", "'A' object is not callable")),
    ("class A:\n    x = 1\n    __y__ = 2\n", "", ("outside", "Special", 3)),
    ("super(int, 1)\n", "", ("outside", "Feature", 1)),
]
