#!/usr/bin/env python3
"""Rows of whole code files, each with the answer that the rules give: what isn't a code file, and of two refusals which comes first. As a
program it tries them by the plain reader and the plain checker."""
import sys
from files import answer, told
from rows import A, HELD, ROWS, block, file, is_code, number, one, otherwise, plain

B = A.replace(b"\0\0\0\0\x3a", b"\0\0\0\0\x47")
END = "Const 0; Return"
MOST = 2 ** 32 - 1

# where fields stand in file A
FIRST_TEXT, CONSTANT, BLOCKS, NAME, KIND, PLAIN, FLAGS, KEYWORD_ONLY, LOCALS, FREE, SIZE, CONST, RETURN = 9, 18, 23, 27, 31, 36, 40, 41, 45, 53, 57, 61, 66
# and in files of `rows`: of the first block its instructions; of the second one, behind a first of two instructions without tables, its fields
CODE = 107
SECOND = {name: at + 98 for name, at in (("name", NAME), ("kind", KIND), ("plain", PLAIN), ("flags", FLAGS), ("keyword_only", KEYWORD_ONLY), ("locals", LOCALS))}


def put(data, place, field):
    """The file with other bytes at a place."""
    return data[:place] + field + data[place + len(field):]


def two(**fields):
    """A module and a block that has these fields."""
    return file([block(END), block(END, **{"kind": 1, **fields})])


def blocks(*each):
    """A module and functions of these instructions."""
    return file([block(lines, kind=int(n > 0), **fields) for n, (lines, fields) in enumerate(each)])


def alone(lines, handlers=()):
    """File A with other instructions."""
    return file([block(lines, handlers=handlers)], texts=(b"m",), lists=())


def same_texts(lines, names, **fields):
    """A module and a function with these fields, where the texts 1 and 2 are the same, and the list 1 has these names."""
    return file([block(lines), block(END, kind=1, **fields)], texts=(b"m", b"x", b"x"), lists=((), names))


def field(at):
    return "21 Field %d" % at


FILES = [
    ("file A with a loop alone", alone("35 00000000"), "27 SilentLoop block 0 pc 0"),
    ("file A with a jump outside alone", alone("35 09000000"), "25 Target block 0 pc 0"),
    ("file A with a Leave that is held", alone(HELD, [(15, 20, 21, 0, 1)]), "23 Stack block 0 pc 15"),
    ("no bytes", b"", "20 Truncated 0"),
    ("a magic that is cut", b"PTC", "20 Truncated 3"),
    ("a wrong byte in a magic that is cut", b"PU", "18 Magic 0"),
    ("another first byte", put(A, 0, b"Q"), "18 Magic 0"),
    ("another last byte of the magic", put(A, 3, b"f"), "18 Magic 0"),
    ("the magic alone", A[:4], "20 Truncated 4"),
    ("another version", put(A, 4, b"\2"), "19 Version 2"),
    ("no version", put(A, 4, b"\0"), "19 Version 0"),
    ("another version and no more", A[:4] + b"\xff", "19 Version 255"),
    ("another magic and another version", put(A, 3, b"f\2"), "18 Magic 0"),
    ("the version alone", A[:5], "20 Truncated 5"),
    ("cut within a count", A[:7], "20 Truncated 7"),
    ("cut before the last byte", A[:78], "20 Truncated 78"),
    ("one byte more", A + b"\0", "22 Trailing 79"),
    ("the file twice", A + A, "22 Trailing 79"),
    ("more texts than there is room for", put(A, 5, number(MOST)), "20 Truncated 79"),
    ("a longer text than there is room for", put(A, FIRST_TEXT, number(MOST)), "20 Truncated 79"),
    ("a text that isn't UTF-8", put(A, FIRST_TEXT + 4, b"\xff"), field(FIRST_TEXT)),
    ("a text that isn't UTF-8 and is cut", put(A, FIRST_TEXT, number(2) + b"\xff")[:14], "20 Truncated 14"),
    ("a surrogate", file([block(END)], texts=(b"m", b"\xed\xa0\x80")), field(14)),
    ("an empty text", file([block(END)], texts=(b"",), lists=()), "fits"),
    ("a constant of no kind", put(A, CONSTANT, b"\6"), field(CONSTANT)),
    ("a constant text that isn't there", put(A[:CONSTANT], CONSTANT, b"\4" + number(1)) + A[CONSTANT + 1:], field(CONSTANT + 1)),
    ("a constant text", A[:CONSTANT] + b"\4" + number(0) + A[CONSTANT + 1:], "fits"),
    ("an integer", A[:CONSTANT] + b"\3" + bytes(15) + b"\x80" + A[CONSTANT + 1:], "fits"),
    ("an integer that is cut", A[:CONSTANT] + b"\3" + bytes(15), "20 Truncated 34"),
    ("no text in a list", file([block(END)], texts=(b"m",), lists=((0, 1),)), field(31)),
    ("no blocks", A[:BLOCKS] + number(0), field(BLOCKS)),
    ("no blocks and more bytes", put(A, BLOCKS, number(0)), field(BLOCKS)),
    ("a name that isn't there", put(A, NAME, number(1)), field(NAME)),
    ("a block of no kind", put(A, KIND, b"\5"), field(KIND)),
    ("a function as the first block", put(A, KIND, b"\1"), field(KIND)),
    ("a second module", two(kind=0), field(SECOND["kind"])),
    ("parameters of a module", put(A, PLAIN, number(1)), field(PLAIN)),
    ("parameters of a class", two(kind=3, parameters=1, local=[1]), field(SECOND["plain"])),
    ("flags of a module", put(A, FLAGS, b"\1"), field(FLAGS)),
    ("flags that aren't there", two(local=[1, 2], flags=4), field(SECOND["flags"])),
    ("keyword-only parameters of a generator expression", two(kind=4, keyword_only=1), field(SECOND["keyword_only"])),
    ("fewer local names than parameters", two(parameters=1), field(SECOND["locals"])),
    ("no local name for the rest", two(parameters=1, flags=1, local=[1]), field(SECOND["locals"])),
    ("no local name for the named rest", two(keyword_only=1, flags=3, local=[1, 2]), field(SECOND["locals"])),
    ("a local name for each", two(keyword_only=1, flags=3, local=[1, 2, 0]), "fits"),
    ("2^32 parameters", two(parameters=MOST, flags=1), field(SECOND["locals"])),
    ("2^33 parameters", two(parameters=MOST, keyword_only=MOST, flags=3), field(SECOND["locals"])),
    ("too few local names before one that isn't there", two(parameters=2, local=[9]), field(SECOND["locals"])),
    ("a local name that isn't there", two(local=[1, 9]), field(SECOND["locals"] + 8)),
    ("a name of a cell that isn't there", two(cells=[9]), field(SECOND["locals"] + 8)),
    ("a free name that isn't there", two(free=[9]), field(SECOND["locals"] + 12)),
    ("a free name of the module", one(END, free=[1]), field(CODE - 8)),
    ("a free name of the module that isn't there", put(A, FREE, number(1)), field(FREE)),
    ("no instructions", put(A, SIZE, number(0)), field(SIZE)),
    ("an operation that isn't there", put(A, RETURN, b"\x51"), field(RETURN)),
    ("an instruction that passes the end", put(A, RETURN, b"\1"), field(RETURN)),
    ("an instruction that isn't there in a cut file", put(A, CONST, b"\xff")[:CONST + 1], field(CONST)),
    ("an instruction that is cut", A[:CONST + 3], "20 Truncated 64"),
    ("an operand that isn't there before one that is cut", one("MakeFunction 9 0 0")[:CODE + 6], field(CODE + 1)),
    ("an operand that isn't there in an instruction that passes the end", one("01 00000000 01 09"), field(CODE + 5)),
    ("instructions that pass the end of the file", put(A, SIZE, number(MOST)), "20 Truncated 79"),
    ("an act that is neither done again nor not", put(one(END, marks=[0]), CODE + 6 + 16, b"\2"), field(CODE + 22)),
    ("a handler row neither for exceptions nor for all", one(END, handlers=[(0, 5, 0, 0, 2)]), field(CODE + 6 + 4 + 4 + 16)),
    ("a free name as a cell", file([block(END), block("Cell 1; Return", kind=1, cells=[1], free=[2])]), "fits"),
    ("a cell behind the free names", file([block(END), block("Cell 2; Return", kind=1, cells=[1], free=[2])]), field(CODE + 18 + 34 + 8 + 1)),
    # before what doesn't fit
    ("a byte more before another kind", B + b"\0", "22 Trailing 79"),
    ("a cut before another kind", B[:78], "20 Truncated 78"),
    ("a field of the second block before the first one's slots", file([block("Pop; Const 0; Return"), block(END)]), field(CODE + 7 + 12 + 4)),
]
# operands that aren't there, each the last of its instruction
for lines, count in (("Const 1", 1), ("Local 0", 1), ("SetLocal 0", 1), ("DelLocal 0", 1), ("FreshLocal 0", 1), ("Cell 0", 1), ("SetCell 0", 1),
                     ("DelCell 0", 1), ("PushCell 0", 1), ("FreshCell 0", 1), ("Global 3", 1), ("SetGlobal 3", 1), ("DelGlobal 3", 1),
                     ("Name 3", 1), ("SetName 3", 1), ("DelName 3", 1), ("Attr 3", 1), ("SetAttr 3", 1), ("DelAttr 3", 1), ("Import 3", 1),
                     ("ImportName 3", 1), ("Unary 3", 1), ("Binary 12", 1), ("InPlace 12", 1), ("Compare 10", 1), ("Format 3", 1), ("CallKw 9 4", 2),
                     ("CallSpread 9 4", 2), ("MakeFunction 0 9 4", 3), ("MakeClass 1", 1), ("MakeGenerator 1", 1), ("AssertFail 2", 1)):
    FILES.append((lines, one(lines), field(CODE + 4 * count - 3)))

# places: Const and the jumps take 5 bytes, Pop, Return, Nop and the other plain ones 1
BAD_START = {"starts": [(1, 1)]}
DEEP = "Const 0; Unpack 16777217; Return"
LOST = "Leave 6; Nop; Const 0; Return"
CATCH = "; EndHandler; Const 0; Return"
FITTING = [
    # tables come first, the least row of them
    ("a mark before a handler row", one(END, marks=[1], handlers=[(1, 6, 5, 0, 0)]), "26 Table block 0 row 0"),
    ("a handler row before a start", one(END, handlers=[(0, 5, 1, 0, 0)], **BAD_START), "26 Table block 0 row 0"),
    ("the second of two starts", one(END, starts=[(0, 1), (0, 2)]), "26 Table block 0 row 1"),
    ("a mark at the end", one(END, marks=[6]), "26 Table block 0 row 0"),
    ("a handler row that ends behind the end", one(END, handlers=[(0, 7, 0, 0, 0)]), "26 Table block 0 row 0"),
    ("a handler row over nothing to nowhere", one(END, handlers=[(5, 0, 9, 0, 0)]), "26 Table block 0 row 0"),
    ("places before a depth", one("Nop; Const 0; Return" + CATCH, handlers=[(0, 1, 7, 9, 0), (0, 2, 7, 0, 0)]), "26 Table block 0 row 1"),
    ("tables before too few slots", one("Pop; Const 0; Return", starts=[(2, 1)]), "26 Table block 0 row 0"),
    ("tables before another kind", one("Const 0; EndFinally", **BAD_START), "26 Table block 0 row 0"),
    ("tables before a target", one("Jump 9", **BAD_START), "26 Table block 0 row 0"),
    ("tables before a lost Leave", one(LOST, **BAD_START), "26 Table block 0 row 0"),
    ("tables before the depth", one(DEEP, **BAD_START), "26 Table block 0 row 0"),
    ("tables before a loop", one("Jump 0", **BAD_START), "26 Table block 0 row 0"),
    # the least block, whatever it fails by
    ("a loop before tables of the next block", blocks(("Jump 0", {}), (END, BAD_START)), "27 SilentLoop block 0 pc 0"),
    ("the depth before tables of the next block", blocks((DEEP, {}), (END, BAD_START)), "28 Depth block 0"),
    ("a lost Leave before slots of the next block", blocks((LOST, {}), ("Pop; Const 0; Return", {})), "25 Target block 0 pc 0"),
    ("a target before tables of the next block", blocks(("Jump 9", {}), (END, BAD_START)), "25 Target block 0 pc 0"),
    ("the second of three blocks", blocks((END, {}), (DEEP, {}), ("Pop; Const 0; Return", {})), "28 Depth block 1"),
    ("the third block", blocks((END, {}), (END, {}), ("Nop; Jump 0", {})), "27 SilentLoop block 2 pc 0"),
    # of two at one place
    ("two lengths before another kind", one("Const 0; Iter; JumpUnlessKeep 0"), "23 Stack block 0 pc 6"),
    ("two lengths before a target", one("Const 0; JumpIfKeep 0"), "23 Stack block 0 pc 5"),
    ("a handler before another kind", one("Const 0; Iter; Pop; Const 0; Return" + CATCH, handlers=[(6, 7, 13, 1, 0)]), "26 Table block 0 row 0"),
    ("a handler before a target", one("Jump 9; EndHandler; Const 0; Return", handlers=[(0, 5, 5, 1, 0)]), "26 Table block 0 row 0"),
    ("cuts of two kinds before a target", one("Const 0; Nop; Iter; Jump 99; Return" + CATCH, handlers=[(5, 12, 13, 1, 0)]), "26 Table block 0 row 0"),
    ("too few slots before a target", one("Jump 11; Pop; Jump 99; Const 0; JumpIf 5; Const 0; Return", handlers=[(16, 21, 6, 0, 0)]), "23 Stack block 0 pc 16"),
    ("the least of two handlers that fail in two ways", one("Const 0; Nop; Iter; Nop; Jump 14; EndHandler; Pop; Const 0; Return",
                                                          handlers=[(5, 8, 13, 1, 0), (7, 8, 13, 2, 0)]), "26 Table block 0 row 0"),
    # of two places the earlier one
    ("a target before too few slots behind it", one("Const 0; JumpIf 99; Pop"), "25 Target block 0 pc 5"),
    ("a target before a handler behind it", one("Const 0; JumpIf 99; Nop; Const 0; Return" + CATCH, handlers=[(10, 11, 17, 1, 0)]), "25 Target block 0 pc 5"),
    ("another kind before two lengths behind it", one("Const 0; EndFinally; Const 0; Jump 6"), "24 Kind block 0 pc 5"),
    ("another kind before a handler behind it", one("Const 0; EndHandler; Nop; Const 0; Return" + CATCH, handlers=[(6, 7, 13, 1, 0)]), "24 Kind block 0 pc 5"),
    ("the place that leads to where slots are missing", one("Jump 6; Pop; Jump 5"), "23 Stack block 0 pc 6"),
    ("the place that leads to another kind", one("Jump 7; EndHandler; Nop; Const 0; Jump 5"), "24 Kind block 0 pc 12"),
    ("the place that leads to one that strays", one("Jump 10; Jump 99; Jump 5"), "25 Target block 0 pc 10"),
    # what comes behind all places
    *plain("""
    too few slots before a lost Leave | Const 0; JumpIf 15; Leave 16; Pop; Const 0; Return | 23 Stack block 0 pc 15
    a lost Leave before a loop | Const 0; JumpIf 15; Leave 20; Jump 15; Const 0; Return | 25 Target block 0 pc 10
    the least of two lost Leaves | Const 0; JumpIf 15; Leave 20; Leave 25; Const 0; Const 0; Return | 25 Target block 0 pc 10
    the least of two loops | Const 0; JumpIf 15; Jump 10; Jump 15 | 27 SilentLoop block 0 pc 10
    """),
    ("too many slots in a block behind a mark", one("Const 0; Unpack 4294967295; Jump 10", marks=[10]), "28 Depth block 0"),
    *plain("""
    2^33 slots | Const 0; UnpackStar 4294967295 4294967295; Return | 28 Depth block 0
    2^33 slots that aren't there | Dict 4294967295; Return | 23 Stack block 0 pc 0
    2^32 slots that aren't there | Call 4294967295; Return | 23 Stack block 0 pc 0
    as many slots again | Const 0; Unpack 4294967295; Tuple 4294967295; Return | 28 Depth block 0
    """),
    # names of defaults are compared as texts, with those of parameters that may have one
    ("a default by another number of its name", same_texts("Const 0; MakeFunction 1 1 1; Return", (2,), parameters=1, local=[1]), "fits"),
    ("a default twice by two numbers", same_texts("Const 0; Const 0; MakeFunction 1 2 1; Return", (1, 2), parameters=1, local=[1]), "24 Kind block 0 pc 10"),
    ("a default of a keyword-only parameter", same_texts("Const 0; MakeFunction 1 1 1; Return", (1,), keyword_only=1, local=[1]), "fits"),
    ("a default of the rest", same_texts("Const 0; MakeFunction 1 1 1; Return", (1,), flags=1, local=[1]), "24 Kind block 0 pc 5"),
    ("fewer defaults than names", same_texts("MakeFunction 1 0 1; Return", (1,), parameters=1, local=[1]), "24 Kind block 0 pc 0"),
    ("more defaults than names", same_texts("Const 0; MakeFunction 1 1 0; Return", (1,), parameters=1, local=[1]), "24 Kind block 0 pc 5"),
    ("fewer names than arguments", one("Const 0; Const 0; CallKw 1 0; Return"), "fits"),
    # an iterator below
    ("an iterator is added to", one("Const 0; Iter; Const 0; ListAdd 1; Const 0; Return"), "24 Kind block 0 pc 11"),
    ("a value below an iterator is added to", one("Const 0; Const 0; Iter; Next 26; ListAdd 2; Jump 11; Return", marks=[11]), "fits"),
    ("an iterator comes to the top", one("Const 0; Iter; Const 0; Swap; Next 23; Pop; Jump 12; Return", marks=[12]), "fits"),
    ("a value comes above an iterator", one("Const 0; Const 0; Iter; Swap; Return"), "24 Kind block 0 pc 11"),
    # what isn't reached
    ("instructions that aren't reached", one("Const 0; Return; Pop; Jump 99; Yield; Leave 77"), "fits"),
    ("a handler row over what isn't reached", one("Const 0; Return; Nop; Const 0; Return", handlers=[(6, 7, 0, 9, 0)]), "fits"),
    ("a loop that isn't reached", one("Const 0; Return; Jump 6"), "fits"),
    # Leaves
    *plain("""
    a Leave with fewer slots than its target | Const 0; Const 0; JumpIf 21; Pop; Leave 21; Return | 23 Stack block 0 pc 16
    a Leave before its target gets slots | Const 0; JumpIf 15; Leave 21; Const 0; Nop; Return | 23 Stack block 0 pc 20
    a Leave with another kind than its target | Const 0; Const 0; JumpIf 21; Iter; Leave 21; Return | 24 Kind block 0 pc 16
    a Leave with more slots than its target | Const 0; JumpIf 20; Const 0; Leave 20; Const 0; Return | fits
    a Leave within an instruction | Const 0; JumpIf 15; Leave 16; Const 0; Return | 25 Target block 0 pc 10
    """),
    ("a Leave that an except row covers", one(HELD, handlers=[(15, 20, 21, 0, 0)]), "24 Kind block 0 pc 21"),
    ("a Leave whose target the row covers", one(HELD, handlers=[(15, 21, 21, 0, 1)]), "fits"),
    ("a Leave of which a row leaves enough", one(HELD, handlers=[(15, 20, 21, 1, 1)]), "fits"),
    ("a Leave that the first of two rows takes", one("Const 0; Const 0; JumpIf 20; Leave 20; Return; EndFinally; Return; EndFinally; Const 0; Return",
                                                     handlers=[(15, 20, 21, 1, 1), (15, 20, 23, 0, 1)]), "fits"),
    ("a Leave that the outer row leaves too little", one("Const 0; Const 0; JumpIf 20; Leave 20; Return; EndFinally; Return; EndFinally; Const 0; Return",
                                                        handlers=[(15, 20, 21, 1, 1), (21, 22, 23, 0, 1)]), "23 Stack block 0 pc 21"),
    ("a loop by a Leave that is held", one("Const 0; JumpIf 15; Leave 15; Normal; EndFinally; Const 0; Return", handlers=[(10, 15, 16, 0, 1)]),
     "27 SilentLoop block 0 pc 15"),
    ("a mark in that loop", one("Const 0; JumpIf 15; Leave 15; Normal; EndFinally; Const 0; Return", marks=[16], handlers=[(10, 15, 16, 0, 1)]), "fits"),
]


def rows():
    """Name, row and answer."""
    every = [row for row in ROWS if is_code(row[1])] + FILES + FITTING
    return [(name, data.hex(), want) for name, data, want in every]


def main():
    tried = rows()
    bad = otherwise((name, told(answer(bytes.fromhex(digits))), want) for name, digits, want in tried)
    print("%d whole files, %d of them otherwise" % (len(tried), bad))
    return bad > 0


if __name__ == "__main__":
    sys.exit(main())
