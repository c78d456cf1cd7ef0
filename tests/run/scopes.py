"""How the names of each block of a script are found (Language Reference 4.2.2, 6.2.1). The targets of comprehensions have names of
their own in each script, so a comprehension needs no scope here."""
import ast

FUNCTIONS = (ast.FunctionDef, ast.Lambda, ast.GeneratorExp)
CLASS = ".class"


def in_order(names):
    """The class for `super` behind all others."""
    return sorted(names, key=lambda x: (x == CLASS, x))


def spelled(name, class_name):
    """A private name of a class."""
    bare = (class_name or "").lstrip("_")
    return f"_{bare}{name}" if bare and name.startswith("__") and not name.endswith("__") else name


class Block:
    def __init__(self, node, around, class_name):
        self.node, self.around, self.class_name = node, around, class_name
        self.bound, self.used, self.globals, self.free, self.cells = set(), set(), set(), set(), set()

    def is_function(self):
        return isinstance(self.node, FUNCTIONS)

    def spell(self, name):
        return spelled(name, self.class_name)

    def scope(self, name):
        """The scope of a spelled name."""
        if isinstance(self.node, ast.Module) or name in self.globals:
            return "global"
        if name in self.bound:
            return "of_class" if isinstance(self.node, ast.ClassDef) else "cell" if name in self.cells else "local"
        return "free" if name in self.free else "global"


class Scopes:
    def __init__(self, module):
        self.blocks = {}
        self.enter(module, None, None, module.body)
        for block in self.blocks.values():
            for name in block.used | block.bound:
                self.capture(block, name)

    def enter(self, node, around, class_name, parts):
        block = Block(node, around, class_name)
        self.blocks[node] = block
        for part in parts:
            self.walk(part, block)
        return block

    def capture(self, block, name):
        """A name that a function around a block binds is a cell there, and is passed through the blocks between."""
        if name in block.globals or name in block.bound:
            return
        outer, between = block.around, [block]
        while outer is not None:
            if outer.is_function() and name in outer.globals:
                return
            if outer.is_function() and name in outer.bound:
                outer.cells.add(name)
                for b in between:
                    b.free.add(name)
                return
            between.append(outer)
            outer = outer.around

    def keep_classes(self):
        """The class that `super` is called for stands in a cell of the block around the class; it is free in the class and in each function of it."""
        for block in self.blocks.values():
            between = [block]
            if not isinstance(block.node, (ast.FunctionDef, ast.Lambda)):
                continue
            while between[-1].around is not None and not isinstance(between[-1].node, ast.ClassDef):
                between.append(between[-1].around)
            if isinstance(between[-1].node, ast.ClassDef):
                between[-1].around.cells.add(CLASS)
                for b in between:
                    b.free.add(CLASS)

    def walk_all(self, parts, block):
        for part in parts:
            if part is not None:
                self.walk(part, block)

    def bind_parameters(self, a, block):
        for p in a.posonlyargs + a.args + a.kwonlyargs + [x for x in (a.vararg, a.kwarg) if x]:
            block.bound.add(block.spell(p.arg))

    def walk(self, n, block):
        match n:
            case ast.FunctionDef(name, arguments, body, decorators):
                block.bound.add(block.spell(name))
                self.walk_all(decorators + arguments.defaults + arguments.kw_defaults, block)
                inner = self.enter(n, block, block.class_name, [])
                self.bind_parameters(arguments, inner)
                self.walk_all(body, inner)
            case ast.Lambda(arguments, body):
                self.walk_all(arguments.defaults + arguments.kw_defaults, block)
                inner = self.enter(n, block, block.class_name, [])
                self.bind_parameters(arguments, inner)
                self.walk(body, inner)
            case ast.ClassDef(name, bases, _, body, decorators):
                block.bound.add(block.spell(name))
                self.walk_all(decorators + bases, block)
                self.enter(n, block, name, body)
            case ast.GeneratorExp(item, generators):
                self.walk(generators[0].iter, block)
                inner = self.enter(n, block, block.class_name, [])
                self.walk_all([item, generators[0].target] + generators[0].ifs + generators[1:], inner)
            case ast.Name(name, context):
                (block.used if isinstance(context, ast.Load) else block.bound).add(block.spell(name))
            case ast.AnnAssign(target, _, value):
                self.walk_all([target, value], block)
            case ast.ExceptHandler(type_, name, body):
                self.walk_all([type_] + body, block)
                if name:
                    block.bound.add(block.spell(name))
            case ast.alias(name, alias):
                block.bound.add(block.spell(alias or name))
            case ast.Global(names):
                block.globals |= {block.spell(x) for x in names}
            case ast.Nonlocal(names):
                block.used |= {block.spell(x) for x in names}
                block.nonlocals = getattr(block, "nonlocals", set()) | {block.spell(x) for x in names}
            case _:
                for child in ast.iter_child_nodes(n):
                    self.walk(child, block)
        block.bound -= block.globals
        block.bound -= getattr(block, "nonlocals", set())
