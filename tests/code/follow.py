"""A block of code beside its tree: from the same answers both tell the same acts with their marks and asks, the same notes and the same
end, with the same exception active, behind jumps too."""
from machines import NONE, NULL, TRUTH, TT, PlainBlock, items, jump

CONST, JUMP_UNLESS, LEAVE = 1, 55, 72
REFUSED = {"no statement": "no_statement", "into block": "into_block", "out of finally": "out_of_finally"}
MOST_ACTS, MOST_MOVES = 250, 1000


class Differs(Exception):
    """What tree and code tell isn't the same, or the code doesn't fit."""


class Checked(PlainBlock):
    """A block whose least relations are made once."""

    def __init__(self, code, b):
        super().__init__(code, b)
        self.known, self.without = {}, None

    def gets(self, p):
        if ("gets", p) not in self.known:
            self.known["gets", p] = super().gets(p)
        return self.known["gets", p]

    def leaves(self, p, gets):
        if ("leaves", p) not in self.known:
            self.known["leaves", p] = super().leaves(p, gets)
        return self.known["leaves", p]

    def fits(self, lines):
        """Tables, kinds, targets and loops hold, some way comes to the start of each statement and to the target of each jump, and each branch
        that is never taken is needed for that."""
        if False in self.tables():
            raise Differs("a table fails")
        bad = self.disagrees(self.size)
        if bad:
            raise Differs(f"misfit {bad}")
        lists = dict(self.gets(self.size))
        wanted = self.wanted()
        if not wanted <= set(lists):
            raise Differs("no way comes to the start of a statement or to the target of a jump")
        for q in self.never_taken():
            self.without = q
            if wanted <= {at for at, _ in super().gets(self.size)}:
                raise Differs(f"a branch that is never taken isn't needed: {q}")
        self.without = None
        if sorted(line for _, line in self.b["starts"]) != sorted(lines):
            raise Differs("starts")
        if self.silent_loop(self.leaves(self.size, self.gets(self.size))[1]) is not None:
            raise Differs("a loop without acts")
        return lists

    def wanted(self):
        """The starts of statements and the targets of jumps."""
        return {at for at, _ in self.b["starts"]} | {i[1][0] for i in self.at.values() if i[0] == LEAVE}

    def never_taken(self):
        """The tests of a constant, without marks."""
        given = {i[2] for i in self.at.values() if i[0] == CONST and i[3] is None}
        return [q for q, i in self.at.items() if i[0] == JUMP_UNLESS and i[3] is None and q in given]

    def steps(self, pc, ks):
        out = super().steps(pc, ks)
        return [s for s in out if s[0] != self.at[pc][1][0]] if pc == self.without else out


def counted(piece, number):
    """The number behind the acts of a piece, if each is numbered as one that counts them would."""
    match piece[0]:
        case "act" | "leave":
            if piece[2] != number:
                raise Differs(f"act {piece[2]} is counted as {number}")
            return number + 1
        case "numbered":
            return counted(piece[2], piece[1])
        case "empty" | "move":
            return number
    for part in piece[1:]:
        number = counted(part, number) if isinstance(part, tuple) and part else number
    return number


def row(n, values):
    out = TT
    for v in reversed(values[:n]):
        out = ("×", v, out)
    return out


class Pair:
    def __init__(self, specs, script, b, random, raises, jumps):
        self.specs, self.b, self.r, self.raises, self.jumps = specs, b, random, raises, jumps
        self.targets = items(specs.starts_of(b.tree))
        if b.checked is None:
            b.checked = Checked(script.plain, script.plain["blocks"][script.blocks.index(b)])
            lists = b.checked.fits([t["line"] for t in self.targets])
            b.object = script.object(b, lambda pc: len(lists.get(pc, "")))
            self.marks([r["line"]["0"] for r in items(specs.acts_of(b.tree))])
        self.checked, self.object = b.checked, b.object
        self.value, self.acts, self.jumps_tried, self.jumped = 100, 0, 0, 0

    def marks(self, lines):
        """Each act has a mark with its line, and another one only in a re-test; and who counts acts numbers them so."""
        seen, repeats = set(), False
        for _, act, line, again in self.b.checked.b["marks"]:
            repeats = act in seen and bool(again or repeats)
            if act in seen and not repeats or again and act not in seen or lines[act:act + 1] != [line]:
                raise Differs(f"the mark of act {act} on line {line}")
            seen.add(act)
        if len(seen) != len(lines) or counted(self.b.piece, 0) != len(lines):
            raise Differs("how many acts there are")

    def fresh(self):
        self.value += 1
        return self.value

    def some_value(self):
        return self.r.choice([self.fresh(), self.fresh(), self.fresh(), NULL, TRUTH[True], TRUTH[False]])

    def begin(self):
        tag, around = self.b.tree[0], self.b.around
        if tag == "of_lambda":
            return self.specs.tree_start_lambda(around, *self.b.tree[1:]), self.specs.code_start()
        if tag == "of_generator":
            it = self.fresh()
            return self.specs.tree_start_generator(around, *self.b.tree[1:], it), self.specs.code_start_generator(it)
        return self.specs.tree_start(around, self.specs.statements_of(self.b.tree)), self.specs.code_start()

    def reply(self, ask, is_act):
        """An answer to an ask, or a raise in its place; an `if` in a loop may go either way, so that runs end."""
        r = self.r
        if ask[0] == "throw" or (ask[0] != "leave" or r.random() < 0.2) and r.random() < (self.raises if is_act else self.raises / 3):
            return ("raised", self.fresh())
        match ask[0]:
            case "seek":
                return ("got", self.some_value())
            case "deed" | "leave":
                return ("got", TT)
            case "test":
                return ("got", r.random() < 0.5)
            case "iter_of":
                return ("got", self.fresh())
            case "next_of":
                return ("got", ("Some", self.some_value()) if r.random() < 0.6 else NONE)
            case "enter":
                return ("got", ("×", self.fresh(), self.some_value()))
            case "unpack":
                return ("got", row(ask[2], [self.some_value() for _ in range(ask[2])]))
            case "delegate":
                return ("got", r.choice([("returned", self.some_value()), ("resumed", ("got", self.some_value())), ("resumed", ("raised", self.fresh()))]))
        raise ValueError(ask)

    def turn_of_code(self, s):
        for _ in range(MOST_MOVES):
            turn = self.specs.by_code(self.object, s)
            if turn[0] != "move":
                return s, turn
            s = turn[1]
        raise Differs("moves without end")

    def active_in(self, s):
        return self.specs.active(s[-1]) if s[0] != "off" else NONE

    def jump(self, c, s, turn):
        """A jump to a line, perhaps one on which nothing starts."""
        self.jumps_tried += 1
        lines = [t["line"] for t in self.targets]
        line = self.r.choice(lines + [max(lines) + 1])
        told = self.specs.jump(self.b.tree, self.specs.nest_at(c), line)
        answer = jump(self.checked, s[1], line)
        if told[0] == "refused":
            if REFUSED.get(answer) != told[1][0]:
                raise Differs(f"a jump to {line}: {told[1][0]} and {answer}")
            return c, s
        if not isinstance(answer, tuple):
            raise Differs(f"a jump to {line} is refused by code alone: {answer}")
        self.jumped += 1
        to, depth = answer
        return self.specs.go(self.b.around, told[1]), ("on", to, self.specs.cut(depth, s[2]))

    def step(self, c, s):
        """The next states of tree and code, or None at the end."""
        told = self.specs.by_tree(self.b.around, c)
        s, turn = self.turn_of_code(s)
        if told[0] != turn[0] or told[1:-1] != turn[1:-1] or told[0] == "over" and told != turn:
            raise Differs(f"tree {told[:-1]} and code {turn[:-1]} at {s[:2]}")
        is_act = told[0] == "act" and told[1] != NONE
        if (is_act or told[0] != "act") and self.specs.context_at(c) != self.active_in(s):
            raise Differs(f"active {self.specs.context_at(c)} and {self.active_in(s)}")
        if told[0] == "over":
            return None
        if is_act:
            self.acts += 1
            if s[0] == "on" and self.targets and self.r.random() < self.jumps:
                return self.jump(c, s, turn)
        reply = self.reply(told[2], is_act) if told[0] == "act" else ("raised", self.fresh()) if self.r.random() < 0.1 else ("got", TT)
        return told[-1](reply), turn[-1](reply)

    def run(self):
        """How many acts were the same, and whether the block came to its end."""
        both = self.begin()
        while both and self.acts < MOST_ACTS:
            both = self.step(*both)
        return both is None
