"""Rows of code that fits, and of code that is refused, with the answer that the rules give. They are tried by the plain checker."""
import struct
from checker import MODULE, Block, jump, read, said, verify

NAMES = """Nop Const Local SetLocal DelLocal Cell SetCell DelCell Global SetGlobal DelGlobal Name SetName DelName PushCell Pop Copy Copy2 Swap Rot3
Attr SetAttr DelAttr Item SetItem DelItem Slice Unary Not Binary InPlace Compare Tuple List Set Dict ListAdd SetAdd DictAdd Format Join Unpack
UnpackStar Spread SpreadMap Call CallKw CallSpread MakeFunction MakeClass MakeGenerator Iter Next Jump JumpIf JumpUnless JumpIfKeep JumpUnlessKeep
Return Yield Delegate Raise RaiseFrom RaiseAgain Match Caught EndHandler Rethrow Enter Normal Exit EndFinally Leave Import ImportName AssertFail
TupleJoin DictMerge Super FreshLocal FreshCell""".split()


def number(n):
    return struct.pack("<I", n)


def listed(items):
    return number(len(items)) + b"".join(items)


def text(t):
    return number(len(t)) + t


def code_bytes(lines):
    """`Jump 5; Return` as bytes; a hexadecimal text stands for itself."""
    out = b""
    for line in filter(None, (part.strip() for part in lines.split(";"))):
        words = line.split()
        if words[0] in NAMES:
            out += bytes([NAMES.index(words[0])]) + b"".join(number(int(w)) for w in words[1:])
        else:
            out += bytes.fromhex(line)
    return out


def block(lines, marks=(), handlers=(), starts=(), kind=0, parameters=0, keyword_only=0, flags=0, local=(), cells=(), free=()):
    return b"".join([
        number(0), bytes([kind]), number(1), number(parameters), bytes([flags]), number(keyword_only), listed([number(n) for n in local]),
        listed([number(n) for n in cells]), listed([number(n) for n in free]), text(code_bytes(lines)),
        listed([number(pc) + number(n) + number(1) + b"\0" for n, pc in enumerate(marks)]),
        listed([number(f) + number(t) + number(g) + number(d) + bytes([a]) for f, t, g, d, a in handlers]),
        listed([number(pc) + number(line) for pc, line in starts])])


def file(blocks, texts=(b"m", b"x", b"y"), lists=((), (1,), (1, 2), (1, 1))):
    return b"PTCF\x01" + listed([text(t) for t in texts]) + listed([b"\0"]) + listed([listed([number(t) for t in ls]) for ls in lists]) + listed(blocks)


def one(lines, **fields):
    return file([block(lines, **fields)])


def plain(table):
    """Rows of modules without tables: each line has a name, instructions and an answer."""
    rows = (line.strip().split(" | ") for line in table.strip().split("\n"))
    return [(name, one(lines), answer) for name, lines, answer in rows]


def is_code(data):
    """Only the first block is a module."""
    return all((b["kind"] == MODULE) == (n == 0) for n, b in enumerate(read(data)["blocks"]))


def otherwise(answers):
    """How many answers, each behind a name and before the one that is wanted, are otherwise; these are printed."""
    bad = [row for row in answers if row[1] != row[2]]
    for row in bad:
        print("%s: %s, and not %s" % row)
    return len(bad)


A = bytes.fromhex("50544346 01 01000000 01000000 6d 01000000 00 00000000 01000000 00000000 00 01000000 00000000 00 00000000 00000000 00000000 00000000"
                  "06000000 01 00000000 3a 00000000 00000000 00000000")
HELD = "01 00000000 01 00000000 36 14000000 48 14000000 3a 47 01 00000000 3a"

# places: Const, the jumps, Leave, List, Unpack take 5 bytes, Call too, Return, Pop, Nop and the other plain ones 1
ROWS = [
    ("file A", A, "fits"),
    ("file B", A.replace(b"\0\0\0\0\x3a", b"\0\0\0\0\x47"), "24 Kind block 0 pc 5"),
    ("a loop", one("35 00000000"), "27 SilentLoop block 0 pc 0"),
    ("a target outside", one("35 09000000"), "25 Target block 0 pc 0"),
    ("a Leave that is held", one(HELD, handlers=[(15, 20, 21, 0, 1)]), "23 Stack block 0 pc 15"),
    # each refusal
    *plain("""
    nothing to drop | Pop; Const 0; Return | 23 Stack block 0 pc 0
    two lengths at a place | Const 0; Jump 0 | 23 Stack block 0 pc 5
    two kinds at a place | Const 0; Const 0; JumpIf 17; Iter; Nop; Pop; Return | 24 Kind block 0 pc 16
    two kinds of one length | Const 0; Const 0; JumpIf 16; Iter; Jump 16 | 24 Kind block 0 pc 15
    an iterator is returned | Const 0; Iter; Return | 24 Kind block 0 pc 6
    a yield in a module | Const 0; Yield; Return | 24 Kind block 0 pc 5
    """),
    ("a name in a function", file([block("Const 0; Return"), block("Name 0; Return", kind=1)]), "24 Kind block 1 pc 0"),
    ("a name in a class", file([block("Const 0; Return"), block("Name 0; Return", kind=3)]), "fits"),
    ("more names than arguments", one("Const 0; CallKw 0 1; Return"), "24 Kind block 0 pc 5"),
    ("as many names", one("Const 0; Const 0; CallKw 1 1; Return"), "fits"),
    ("one name for two arguments", one("Const 0; Const 0; Const 0; CallSpread 2 1; Return"), "24 Kind block 0 pc 15"),
    ("a function of a class block", file([block("MakeFunction 1 0 0; Return"), block("Const 0; Return", kind=3)]), "24 Kind block 0 pc 0"),
    ("a default", file([block("Const 0; MakeFunction 1 1 1; Return"), block("Const 0; Return", kind=1, parameters=1, local=[1])]), "fits"),
    ("a default of no parameter", file([block("Const 0; MakeFunction 1 1 1; Return"), block("Const 0; Return", kind=1, local=[1])]), "24 Kind block 0 pc 5"),
    ("a default twice", file([block("Const 0; Const 0; MakeFunction 1 2 3; Return"), block("Const 0; Return", kind=1, parameters=1, local=[1])]),
     "24 Kind block 0 pc 10"),
    ("a class that is none", file([block("Const 0; MakeClass 1; Return"), block("Const 0; Return", kind=1)]), "24 Kind block 0 pc 5"),
    ("a cell that isn't there", file([block("Const 0; Const 0; MakeClass 1; Return"), block("Const 0; Return", kind=3, free=[1])]), "24 Kind block 0 pc 10"),
    ("a cell", file([block("Const 0; PushCell 0; MakeClass 1; Return", cells=[1]), block("Const 0; Return", kind=3, free=[1])]), "fits"),
    ("a generator expression", file([block("Const 0; Iter; MakeGenerator 1; Return"), block("Next 13; Yield; Pop; Jump 0; Const 0; Return", kind=4, marks=[0])]),
     "25 Target block 1 pc 0"),
    ("its loop", file([block("Const 0; Iter; MakeGenerator 1; Return"), block("Next 12; Yield; Pop; Jump 0; Const 0; Return", kind=4, marks=[0])]), "fits"),
    *plain("""
    nothing to add to | Const 0; ListAdd 0; Const 0; Return | 24 Kind block 0 pc 5
    too deep to add to | Const 0; ListAdd 1; Const 0; Return | 23 Stack block 0 pc 5
    a value to add to | Const 0; Const 0; ListAdd 1; Return | fits
    a fall from the end | Const 0 | 25 Target block 0 pc 0
    into an instruction | Jump 6; Const 0; Return | 25 Target block 0 pc 0
    a Leave that is lost | Leave 6; Nop; Const 0; Return | 25 Target block 0 pc 0
    a Leave outside | Leave 9; Nop; Const 0; Return | 25 Target block 0 pc 0
    too many slots | Const 0; Unpack 16777217; Return | 28 Depth block 0
    as many as may be | Const 0; Unpack 16777216; Return | fits
    """),
    ("a mark within an instruction", one("Const 0; Return", marks=[1]), "26 Table block 0 row 0"),
    ("marks that don't rise", one("Const 0; Return", marks=[5, 0]), "26 Table block 0 row 1"),
    ("a handler up to the end", one("Const 0; Return; Pop; Return", handlers=[(0, 8, 6, 0, 0)]), "24 Kind block 0 pc 6"),
    ("a handler from within", one("Const 0; Return", marks=[0], handlers=[(1, 6, 5, 0, 0)]), "26 Table block 0 row 1"),
    ("a handler to nowhere", one("Const 0; Return", handlers=[(0, 6, 7, 0, 0)]), "26 Table block 0 row 0"),
    ("a handler over nothing", one("Const 0; Return", handlers=[(5, 0, 0, 9, 0)]), "fits"),
    ("a start within an instruction", one("Const 0; Return", marks=[0], starts=[(0, 1), (2, 2)]), "26 Table block 0 row 2"),
    ("a handler that is too deep", one("Const 0; Return; EndHandler; Const 0; Return", handlers=[(0, 5, 6, 1, 0)]), "26 Table block 0 row 0"),
    ("a cut of two kinds", one("Const 0; Nop; Iter; Nop; Jump 14; EndHandler; Pop; Const 0; Return", handlers=[(5, 8, 13, 1, 0)]), "26 Table block 0 row 0"),
    ("a caught exception", one("Nop; Const 0; Return; EndHandler; Const 0; Return", handlers=[(0, 1, 7, 0, 0)]), "fits"),
    ("a finally part", one("Leave 7; Normal; EndFinally; Const 0; Return; EndFinally; Jump 7", handlers=[(0, 5, 13, 0, 1)]), "fits"),
    ("a held Leave in a loop", one("JumpIf 5", handlers=[]), "23 Stack block 0 pc 0"),
    # of two refusals
    ("tables before places", one("Pop; Const 0; Return", marks=[2]), "26 Table block 0 row 0"),
    ("the earlier place", one("Const 0; Iter; Return; Pop"), "24 Kind block 0 pc 6"),
    ("two lengths before a handler", one("Const 0; Jump 0", handlers=[(5, 10, 0, 2, 0)]), "23 Stack block 0 pc 5"),
    ("a handler before too few slots", one("Pop; Const 0; Return; EndHandler; Const 0; Return", handlers=[(0, 1, 7, 1, 0)]), "26 Table block 0 row 0"),
    ("cuts that differ before a handler that is too deep", one("Const 0; Nop; Jump 12; Nop; Iter; Jump 11; Rethrow",
                                                               handlers=[(5, 12, 18, 1, 0), (11, 12, 18, 2, 0)]), "26 Table block 0 row 0"),
    ("a handler that is too deep before cuts that differ", one("Const 0; Nop; Jump 12; Nop; Iter; Jump 11; Rethrow",
                                                               handlers=[(11, 12, 18, 2, 0), (5, 12, 18, 1, 0)]), "26 Table block 0 row 0"),
    ("cuts that differ before too few slots", one("Const 0; Nop; Jump 16; ListAdd 2; Iter; Const 0; Jump 11; Rethrow", handlers=[(5, 16, 27, 1, 0)]),
     "26 Table block 0 row 0"),
    ("the least of two handlers", one("Nop; Const 0; Return; EndHandler; Const 0; Return", handlers=[(0, 1, 7, 0, 0), (0, 1, 7, 2, 0), (0, 1, 7, 1, 0)]),
     "26 Table block 0 row 1"),
    *plain("""
    too few slots before another kind | Const 0; Iter; Binary 0; Return | 23 Stack block 0 pc 6
    another kind before a target | Const 0; Iter; Pop | 24 Kind block 0 pc 6
    a target of a Leave before what comes later | Const 0; JumpIf 15; Leave 16; Pop | 25 Target block 0 pc 10
    a lost Leave before the depth | Const 0; JumpIf 15; Leave 26; Const 0; Unpack 16777217; Return | 25 Target block 0 pc 10
    the depth before a loop | Const 0; Unpack 16777217; Jump 10 | 28 Depth block 0
    the least place of a loop | Nop; Nop; Jump 1 | 27 SilentLoop block 0 pc 1
    """),
    ("a loop with a mark", one("Nop; Nop; Jump 1", marks=[2]), "fits"),
    ("a loop through a handler", one("Nop; EndHandler; Jump 0", handlers=[(0, 1, 1, 0, 0)]), "23 Stack block 0 pc 0"),
    ("a handler that covers itself", one("Const 0; Return; EndHandler; Const 0; Return", handlers=[(0, 13, 6, 0, 0)]), "27 SilentLoop block 0 pc 6"),
    ("a delegation without a mark", file([block("Const 0; Return"), block("Const 0; Iter; Const 0; Delegate; Return", kind=2)]), "27 SilentLoop block 1 pc 11"),
    ("the earlier block", file([block("Const 0; Return"), block("Jump 9"), block("Pop")]), "25 Target block 1 pc 0"),
]

LOOP = one("Const 0; Iter; Next 18; Pop; Nop; Jump 6; Const 0; Return", marks=[6], starts=[(0, 1), (12, 2), (18, 3)])
TWO_LOOPS = one("Const 0; Iter; Next 18; Pop; Nop; Jump 6; Const 0; Iter; Next 36; Pop; Nop; Jump 24; Const 0; Return", marks=[6, 24],
                starts=[(0, 1), (12, 2), (18, 3), (30, 4), (36, 5)])
FINALLY = one("Nop; Normal; Nop; EndFinally; Const 0; Return", starts=[(0, 1), (2, 2), (4, 3)])
HELD_BREAK = one("Const 0; Iter; Next 24; Pop; Leave 24; Nop; EndFinally; Jump 6; Const 0; Return", marks=[6], handlers=[(12, 17, 17, 1, 1)],
                 starts=[(12, 1), (17, 2)])

# code, from, line, answer
JUMPS = [
    ("out of a loop", LOOP, 12, 3, (18, 0)),
    ("within a loop", LOOP, 12, 2, (12, 1)),
    ("into a loop", LOOP, 18, 2, "into block"),
    ("from the loop's head into its body", LOOP, 6, 2, (12, 1)),
    ("to no statement", LOOP, 12, 9, "no statement"),
    ("from a loop into its neighbour", TWO_LOOPS, 12, 4, "into block"),
    ("from a loop behind its neighbour", TWO_LOOPS, 12, 5, (36, 0)),
    ("into a finally part", FINALLY, 0, 2, "out of finally"),
    ("out of a finally part", FINALLY, 2, 3, "out of finally"),
    ("past a finally part", FINALLY, 0, 3, (4, 0)),
    ("within a finally part", FINALLY, 2, 2, (2, 1)),
    ("into the finally part of a loop", HELD_BREAK, 12, 2, "out of finally"),
    ("out of it into the loop", HELD_BREAK, 17, 1, "out of finally"),
]


def jumped(code, pc, line):
    """Where a jump in the first block leads, or why the code is refused."""
    bad = verify(code)
    return said(bad) if bad else jump(Block(code, code["blocks"][0]), pc, line)


if __name__ == "__main__":
    bad = otherwise((name, said(verify(read(data))), want) for name, data, want in ROWS)
    bad += otherwise((name, jumped(read(data), pc, line), want) for name, data, pc, line, want in JUMPS)
    print("%d rows, %d of them otherwise" % (len(ROWS) + len(JUMPS), bad))
    raise SystemExit(bad > 0)
