"""A script run by the definitions of `sem_run.run` with the host of `pt_host`: names are bytes, and values are those of the definitions."""
import ast
import os

from definitions import constants, integer, items, listed, number
from run import Runner
from scopes import Scopes, in_order
from trees import Trees


def word(text):
    return listed(text.encode())


def text_of(codes):
    return bytes(items(codes)).decode()


def prelude_text(crates):
    """The text over which scripts are run."""
    return text_of(constants(os.path.join(crates, "pt_prelude", "src"))["PRELUDE"]["now"])


class ByteTrees(Trees):
    word, integer = staticmethod(word), staticmethod(integer)


def facts_of(block):
    """What a host knows of a block."""
    a = getattr(block.node, "args", None) if not isinstance(block.node, ast.GeneratorExp) else None
    names = lambda parameters: [block.scope.spell(p.arg) for p in parameters]
    plain, only = (names(a.args), names(a.kwonlyargs)) if a else ([], [])
    star, stars = (a.vararg, a.kwarg) if a else (None, None)
    parameters = plain + only + names([p for p in (star, stars) if p])
    others = sorted(block.scope.bound - block.scope.cells - set(parameters)) if block.scope.is_function() else []
    words = lambda xs: listed(map(word, xs))
    return {
        "name": word(block.name), "first_line": block.first_line, "yields": block.yields,
        "params": {"plain": words(plain), "only": words(only), "star": star is not None, "stars": stars is not None, "defaults": ()},
        "locals": words(parameters + others), "cells": words(in_order(block.scope.cells)), "frees": words(block.captured),
    }


class ClassScopes(Scopes):
    def __init__(self, module):
        super().__init__(module)
        self.keep_classes()


class ObjectRunner(Runner):
    trees, scopes = ByteTrees, ClassScopes

    def __init__(self, crates):
        super().__init__(crates)
        self.hidden = None
        self.heap_host = self.get("pt_host", "HeapHost", "heap_host")
        self.module_names = self.get("pt_host", "Calls", "module_names")
        self.module_world = self.get("pt_host", "Calls", "module_world")
        self.texts_of = self.get("pt_host", "Constants", "texts_of")
        self.class_name = self.get("pt_content", "Classes", "class_name")
        self.error_text = self.get("pt_tracebacks", "Summaries", "error_text")
        self.writes = self.get("sem_run", "run.Run", "writes")
        self.bare_start = self.get("pt_bare_runs", "Strides", "start")
        self.first_logged = self.get("pt_bare_runs", "Strides", "logged")
        self.stride = self.get("pt_bare_runs", "Strides", "stride")
        self.last_writes = self.get("pt_prog", "Answer", "last_writes")

    def around(self, blocks, block):
        plain = super().around(blocks, block)
        variable = plain["variable"](())

        def bytes_of(v):
            return {**v, "name": word(v["name"])}
        return {
            "null": ("None",),
            "variable": lambda within: lambda name: bytes_of(variable(text_of(name))),
            "spelled": lambda name: word(plain["spelled"](text_of(name))),
            "captured": lambda number: listed(map(bytes_of, items(plain["captured"](number)))),
        }

    def facts(self, blocks):
        return [facts_of(b) for b in blocks]

    def side(self, text):
        """The blocks of a text, what control knows around them, what a host knows of them, and the texts of constants."""
        blocks = self.blocks(text)
        return blocks, [self.around(blocks, b) for b in blocks], self.facts(blocks), self.texts_of(self.trees(text).tree)

    def begin(self, text):
        """The blocks of a script, it as a machine, its host, and how its module begins: block, names and world."""
        self.hidden = self.hidden or self.side(prelude_text(self.definitions.crates))
        sides = {True: self.hidden, False: self.side(text)}
        blocks = sides[False][0]
        texts = list(dict.fromkeys(items(sides[True][3]) + items(sides[False][3])))
        self.program = program = {"facts": lambda b: sides[b["hidden"]][2][b["number"]], "texts": listed(texts),
                                  "file": word("script.py"), "source": ("Some", word(text))}
        machine = self.machine({
            "code": lambda b: sides[b["hidden"]][0][b["number"]].record["code"],
            "around": lambda b: sides[b["hidden"]][1][b["number"]],
        })
        return blocks, machine, self.heap_host(program), ({"hidden": False, "number": 0}, self.module_names(program), self.module_world(program))

    def run(self, text, most=20000):
        """The blocks, the outputs, the last state but one and the step that ends the run."""
        blocks, machine, host, module = self.begin(text)
        outputs, state, step = self.follow(machine, host, self.start(machine, *module), most)
        return blocks, outputs, state, step

    def bare_run(self, text, most=20000):
        """What a run that nothing hooks into writes, the units that it took and its ending, stride by stride."""
        return self.bare_outcome(*self.begin(text)[1:], most)

    def bare_outcome(self, machine, host, module, most):
        state = self.bare_start(machine, host, *module)
        written = items(self.first_logged(machine, host, ("starts",), state))
        while True:
            stride = self.stride(machine, host, most, state)
            if stride[0] == "is_stuck":
                return written, None, stride
            written += items(stride[1])
            if stride[0] == "ends":
                return written, stride[2], stride[3]
            state = stride[2]

    def traceback(self, error, world):
        """What the log gets last of the script that began last, where this exception left it."""
        return "".join(text_of(w["text"]) for w in items(self.last_writes(self.program, 0, ("raised", error, world))))

    def describe(self, value, heap, depth=3):
        """A value, in the words of `record.describe`."""
        match value:
            case ("None",):
                return "None"
            case ("Bool", b):
                return repr(b)
            case ("Int", z):
                return repr(number(z))
            case ("Obj", place):
                thing = items(heap)[place["0"]]
                match thing[0]:
                    case "Str":
                        return repr(text_of(thing[1]))
                    case "Function":
                        return "<builtin>" if thing[1]["hidden"] else "<function>"
                    case "Builtin":
                        return "<builtin>"
                    case "Class":
                        return f"<class {text_of(thing[1]['name'])}>"
                    case "List" | "Tuple":
                        inner = ", ".join(self.describe(v, heap, depth - 1) for v in items(thing[1])) if depth else ""
                        return f"{thing[0].lower()}({inner})" if depth else "..."
                    case "Set":
                        inner = ", ".join(sorted(self.describe(e["first"], heap, depth - 1) for e in items(thing[1]))) if depth else ""
                        return f"set({inner})" if depth else "..."
                    case "Dict":
                        told = lambda e: f"{self.describe(e['first'], heap)}: {self.describe(e['value'], heap, depth - 1)}"
                        return f"dict({', '.join(map(told, items(thing[1])))})" if depth else "..."
        return f"<{text_of(self.class_name(heap, value))}>"

    def text_of_error(self, value, heap):
        """The text of an exception, as a traceback has it."""
        return text_of(self.error_text(heap, items(heap)[value[1]["0"]][1]))


class NamesRunner(ObjectRunner):
    """One that has the names of blocks, those of comprehensions too, by the definitions of `sem_names`."""

    def __init__(self, crates):
        super().__init__(crates)
        self.around_of = self.get("sem_names", "Around", "around_of")
        self.names_of = self.get("sem_names", "Around", "names_of")

    def blocks(self, text):
        self.tree = self.trees(text).tree
        return super().blocks(text)

    def around(self, blocks, block):
        said, known = self.around_of(("None",), self.tree, block.number), {}

        def variable(within):
            def named(name):
                if (within, name) not in known:
                    known[within, name] = said["variable"](within)(name)
                return known[within, name]
            return named
        return {**said, "variable": variable}

    def facts(self, blocks):
        return [{**facts_of(b), **self.names_of(self.tree, b.number)} for b in blocks]
