"""A script run by the definitions of `sem_run.run`, over the tree of `sem_control.control` and a host on Python values."""
import ast
import types

from definitions import items, listed, load
from host import DISABLE, NONE, Cell, Function, Generator, Host, Method, Names, World
from scopes import CLASS, Scopes, in_order
from trees import Trees

SPECS = "Rattle.{}.specs.{}"


class Block:
    """A block of a script: what the definitions say of it, and how its names are found and bound."""

    def __init__(self, number, node, record, scope, yields):
        self.number, self.node, self.record, self.scope, self.yields = number, node, record, scope, yields
        name = record["name"]
        self.name = name if isinstance(name, str) else bytes(items(name)).decode()
        self.first_line = record["first_line"]
        self.key = (self.name, self.first_line)
        self.captured = in_order(scope.free)

    def cells(self, values):
        """The cells that the block takes along, in the order in which they are asked for."""
        return dict(zip(self.captured, values))

    def binder(self, defaults):
        """A function of Python that binds arguments to the block's parameters."""
        if isinstance(self.node, ast.GeneratorExp):
            return None
        a = self.node.args
        parameters = ast.unparse(ast.arguments(
            posonlyargs=[], args=[ast.arg(x.arg) for x in a.args], vararg=a.vararg and ast.arg(a.vararg.arg),
            kwonlyargs=[ast.arg(x.arg) for x in a.kwonlyargs], kw_defaults=[d and ast.Constant(None) for d in a.kw_defaults],
            kwarg=a.kwarg and ast.arg(a.kwarg.arg), defaults=[ast.Constant(None) for _ in a.defaults]))
        space = {}
        exec(f"def bind({parameters}): return locals()", space)
        bind = space["bind"]
        spelled = {self.scope.spell(x): x for x in bind.__code__.co_varnames}
        values = {spelled[x]: v for x, v in defaults.items()}
        bind.__defaults__ = tuple(values[x.arg] for x in a.args[len(a.args) - len(a.defaults):])
        bind.__kwdefaults__ = {x.arg: values[x.arg] for x, d in zip(a.kwonlyargs, a.kw_defaults) if d}
        return bind


class Runner:
    trees, scopes = Trees, Scopes

    def __init__(self, crates):
        self.definitions = load(crates)
        self.blocks_script = self.get("pt_tree", "Blocks", "blocks_script")
        self.yields = self.get("pt_tree", "Blocks", "yields")
        self.machine = self.get("sem_run", "run.Source", "machine")
        self.start = self.get("sem_run", "run.State", "start")
        self.step = self.get("sem_run", "run.Step", "step")
        self.take_advice = self.get("sem_run", "run.Hooks", "take_advice")

    def get(self, crate, module, name):
        return self.definitions.get(SPECS.format(crate, module), name)

    def blocks(self, text):
        trees = self.trees(text)
        scopes = self.scopes(trees.module)
        records = items(self.blocks_script(trees.tree))
        assert len(records) == len(trees.nodes)
        out = []
        for i, (node, record) in enumerate(zip(trees.nodes, records)):
            scope = scopes.blocks[node]
            assert record["class"] == trees.named(scope.class_name), (record["class"], scope.class_name)
            out.append(Block(i, node, record, scope, self.yields(record["code"])))
        return out

    def around(self, blocks, block):
        scope = block.scope

        def variable(name):
            name = scope.spell(name)
            return {"scope": (scope.scope(name),), "name": name}

        def captured(number):
            is_class = isinstance(blocks[number].node, ast.ClassDef)
            is_cell = lambda x: is_class if x == CLASS else x in scope.cells and x in scope.bound
            return listed({"scope": ("cell" if is_cell(x) else "free",), "name": x} for x in blocks[number].captured)
        return {"null": None, "variable": lambda within: variable, "spelled": scope.spell, "captured": captured}

    def run(self, text, hooks, most=20000):
        """What a run gives: its outputs, and its ending. `hooks` says which functions are asked at first: the trace function, and the
        callbacks of tools as (tool, bit, function)."""
        blocks = self.blocks(text)
        around = [self.around(blocks, b) for b in blocks]
        machine = self.machine({
            "code": lambda b: blocks[b["number"]].record["code"],
            "around": lambda b: around[b["number"]],
        })
        rules = Host(blocks)
        world = World()
        state = self.start(machine, {"hidden": False, "number": 0}, Names({}), world)
        outputs, _, ending = self.follow(machine, rules.record(), hooks.begin(state, rules, world), most)
        return blocks, world, outputs, ending

    def follow(self, machine, host, state, most):
        """The outputs of a run of at most so many acts from a state, its last state, and the step that ends it."""
        outputs = []
        for _ in range(most * 30 + 100):
            step = self.step(machine, host, most, state)
            if step[0] == "goes":
                outputs += items(step[1])
                state = step[2]
            elif step[0] == "consults":
                step = self.take_advice(machine, host, ("go",), step[2], step[3])
                outputs += items(step[1])
                state = step[2]
            else:
                return outputs, state, step
        raise RuntimeError("no end")
