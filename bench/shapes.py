"""Code files of shapes that are meant to cost much, of about so many bytes."""
import random
import sys

from timing import TOP

sys.path.append(str(TOP / "tests" / "fits"))
from rows import file, listed, number, text  # noqa: E402

NOP, CONST, POP, COPY, SWAP, TUPLE, UNPACK, MAKE_FUNCTION, ITER, JUMP, JUMP_IF, RETURN = 0, 1, 15, 16, 18, 32, 41, 48, 51, 53, 54, 58
END_HANDLER, ENTER, NORMAL, EXIT, END_FINALLY, LEAVE = 66, 68, 69, 70, 71, 72


def op(code, *operands):
    return bytes([code]) + b"".join(map(number, operands))


def row(start, end, target, depth=0, always=0):
    return number(start) + number(end) + number(target) + number(depth) + bytes([always])


def block(instructions, marks=(), rows=(), kind=0, parameters=()):
    return (number(0) + bytes([kind]) + number(1) + number(len(parameters)) + b"\0" + number(0) + listed([number(n) for n in parameters])
            + listed([]) * 2 + number(len(instructions)) + instructions
            + listed([number(pc) + number(n) + number(1) + b"\0" for n, pc in enumerate(marks)]) + listed(list(rows)) + listed([]))


def code_file(blocks, texts=(b"m",), lists=()):
    return file(blocks, texts, lists)


END = op(CONST, 0) + bytes([RETURN])


def straight(size):
    """Loads and pops."""
    return code_file([block((op(CONST, 0) + bytes([POP])) * (size // 6) + END)])


def branches(size):
    """Each instruction but loads is a branch, to the end or to one before it, with a mark each."""
    count = size // 27
    return code_file([block(b"".join(op(CONST, 0) + op(JUMP_IF, 10 * (i // 2 if i % 2 else count)) for i in range(count)) + END,
                            [10 * i for i in range(count)])])


def long_cycle(size):
    """One silent loop over all places."""
    return code_file([block(bytes([NOP]) * size + op(JUMP, 0))])


def small_cycles(size):
    """A loop at each place, each with a mark."""
    count = size // 23
    return code_file([block(b"".join(op(CONST, 0) + op(JUMP_IF, 10 * i) for i in range(count)) + END, [10 * i for i in range(count)])])


def backwards(size):
    """Each place gets its slots from the one behind it."""
    count = size // 5
    return code_file([block(op(JUMP, 5 * (count - 1)) + op(JUMP, 5 * count) + b"".join(op(JUMP, 5 * (i - 1)) for i in range(2, count)) + END)])


def rows_over_all(size):
    """As many handler rows over all places as there are bytes of code, by a seventeenth."""
    count = size // 34
    code = bytes([NOP]) * (size // 2) + END
    targets = len(code)
    return code_file([block(code + bytes([END_HANDLER]) + END, rows=[row(0, targets - 6, targets)] * count)])


def nested_rows(size):
    """Handler rows one in the other."""
    count = size // 36
    code = bytes([NOP]) * (2 * count + 2) + END
    return code_file([block(code + bytes([END_HANDLER]) + END, rows=[row(i, 2 * count + 1 - i, len(code)) for i in reversed(range(count))])])


def rows_over_one(size):
    """All handler rows over one place."""
    code = bytes([NOP]) + END
    return code_file([block(code + bytes([END_HANDLER]) + END, rows=[row(0, 1, len(code))] * (size // 17))])


def chained_rows(size):
    """Each handler is covered by the row of the next one."""
    count = size // 23
    code = bytes([NOP]) + END + (bytes([END_HANDLER]) + op(JUMP, 1)) * count
    at = [7 + 6 * i for i in range(count)]
    return code_file([block(code, rows=[row(0 if i == 0 else at[i - 1], 1 if i == 0 else at[i - 1] + 1, at[i]) for i in range(count)])])


def random_rows(size):
    """Handler rows from anywhere to anywhere, and jumps of as many places."""
    rng = random.Random(1)
    count = size // 32
    ends = 10 * count
    code = b"".join(op(CONST, 0) + op(JUMP_IF, 10 * rng.randrange(count)) for _ in range(count)) + END
    rows = []
    for _ in range(count):
        one, other = sorted(rng.sample(range(count), 2))
        rows.append(row(10 * one, 10 * other, ends + 6))
    return code_file([block(code + bytes([END_HANDLER]) + END, [10 * i for i in range(count)], rows[:size // 68])])


def unpacks(size):
    """Each place gets 2^32 slots more."""
    return code_file([block((op(CONST, 0) + op(UNPACK, 2 ** 32 - 1)) * (size // 10) + END)])


def deep_rows(size):
    """Slots one upon the other, each under a handler row that leaves all below it."""
    count = size // 34
    code = op(CONST, 0) * count + bytes([POP]) * count + END
    handlers = len(code)
    return code_file([block(code + (bytes([END_HANDLER]) + END) * count,
                            rows=[row(5 * i, 5 * i + 5, handlers + 7 * i, i) for i in range(count)])])


def depths_over_all(size):
    """Handler rows over all places, each of which leaves one slot more."""
    count = size // 48
    start = op(CONST, 0) + op(UNPACK, count)
    code = start + bytes([NOP]) * (size // 2) + END
    return code_file([block(code + (bytes([END_HANDLER]) + END) * count,
                            rows=[row(len(start), len(code) - 6, len(code) + 7 * i, i) for i in range(count)])])


def nested_depths(size):
    """Handler rows one in the other, each of which leaves one slot more."""
    count = size // 30
    code = op(CONST, 0) * count + bytes([POP]) * count + END
    return code_file([block(code + (bytes([END_HANDLER]) + END) * count,
                            rows=[row(5 * i, 6 * count - i, len(code) + 7 * i, i) for i in range(count)])])


def runs(size):
    """Slots of two kinds by turns."""
    count = size // 11
    return code_file([block((op(CONST, 0) + op(CONST, 0) + bytes([ITER])) * count + END)])


def shortened(size):
    """Jumps back to before many places, each with one slot fewer in common with the first."""
    count = size // 64
    start = op(CONST, 0) + op(UNPACK, count + 2)
    back = b"".join(op(TUPLE, i) + bytes([POP]) + op(CONST, 0) + bytes([ITER]) + op(CONST, 0) + op(UNPACK, i - 1) + op(CONST, 0) + op(JUMP_IF, len(start))
                    for i in range(1, count + 1))
    return code_file([block(start + bytes([NOP]) * (size // 2) + back + END)])


def many_blocks(size):
    """Blocks of a few instructions."""
    one = block(END, kind=1)
    return code_file([block(END)] + [one] * (size // len(one)))


def leaves(size):
    """Leaves under always rows, each of whose parts lets it go on to the next."""
    count = size // 26
    at = [7 * i for i in range(count)]
    code = b"".join(op(LEAVE, 7 * count) + bytes([NOP, END_FINALLY]) for _ in range(count)) + END
    return code_file([block(code, rows=[row(i, i + 5, i + 6, 0, 1) for i in at])])


def parts(size):
    """A Leave that goes through one `finally` part after the other."""
    count = size // 23
    end = 5 + 6 * count
    code = op(LEAVE, end) + (bytes([END_FINALLY]) + op(JUMP, end)) * count + END
    at = [5 + 6 * i for i in range(count)]
    return code_file([block(code, rows=[row(0 if i == 0 else at[i - 1], 5 if i == 0 else at[i - 1] + 1, at[i], 0, 1) for i in range(count)])])


def swaps(size):
    """Two slots that change places again and again."""
    return code_file([block(op(CONST, 0) * 2 + bytes([SWAP]) * size + bytes([POP, RETURN]))])


def marks(size):
    """An act at each place."""
    count = size // 14
    return code_file([block(bytes([NOP]) * count + END, range(count))])


def hundred_thousand_blocks(size):
    """So many blocks, or as many as there is room for, of as many instructions each."""
    count = min(100_000, size // 60)
    one = block(bytes([NOP]) * (size // count - 60) + END, kind=1)
    return code_file([block(END)] + [one] * count)


def exits_to(targets, first):
    """Instructions from a place on, of which each goes on to a Leave for one of these or to the next one."""
    return b"".join(op(CONST, 0) + op(JUMP_IF, first + 15 * n + 15) + op(LEAVE, target) for n, target in enumerate(targets))


def leaves_over_one_row(size):
    """Leaves for as many targets, which one row takes."""
    count = size // 16
    part = 15 * count + 5
    targets = part + 6
    code = exits_to(range(targets, targets + count), 0) + op(JUMP, targets) + bytes([END_FINALLY]) + op(JUMP, targets) + bytes([NOP]) * count + END
    return code_file([block(code, rows=[row(0, 15 * count, part, 0, 1)])])


def nested_parts(size):
    """A Leave out of `finally` parts one around the other: each part is covered by the rows of all that are further out."""
    count = size // 23
    end = 5 + 6 * count
    code = op(LEAVE, end) + (bytes([END_FINALLY]) + op(JUMP, end)) * count + END
    return code_file([block(code, rows=[row(0, 5 + 6 * i, 5 + 6 * i, 0, 1) for i in range(count)])])


def grid_code(count, behind):
    """Leaves for so many targets, out of as many `finally` parts one around the other, with what comes behind, and the rows."""
    parts = 15 * count + 5
    targets = parts + 6 * count
    code = (exits_to(range(targets, targets + count), 0) + op(JUMP, targets) + (bytes([END_FINALLY]) + op(JUMP, targets)) * count
            + bytes([NOP]) * count + behind)
    return code, [row(0, parts + 6 * i, parts + 6 * i, 0, 1) for i in range(count)]


def grid_of_leaves(size):
    """Leaves for as many targets, out of as many `finally` parts one around the other."""
    code, rows = grid_code(size // 39, END)
    return code_file([block(code, rows=rows)])


def nested_withs(size):
    """A Leave out of `with` bodies one in the other, through the exit of each."""
    count = size // 27
    body = 7 * count
    end = body + 5 + 3 * count
    code = (op(CONST, 0) + bytes([ENTER, POP])) * count + op(LEAVE, end) + bytes([NORMAL, EXIT, END_FINALLY]) * count + END
    parts = [body + 5 + 3 * i for i in range(count)]
    return code_file([block(code, rows=[row(7 * (count - i), part, part + 1, count - i, 1) for i, part in enumerate(parts)])])


def names(count):
    return [b"%07d" % n for n in range(count)]


def defaults(rows):
    """Functions that are made, each of a block and with a list of so many defaults."""
    return b"".join(op(CONST, 0) + op(UNPACK, count) + op(MAKE_FUNCTION, n, count, of) + bytes([POP]) for n, count, of in rows)


def long_defaults(size):
    """One function is made again and again, with a default of each of its many parameters."""
    count, turns = size // 40, size // 48
    each = tuple(range(count))
    code = defaults([(1, count, 0)]) * turns + END
    return code_file([block(code), block(END, kind=1, parameters=each)], names(count), [each])


def pairs_of_defaults(size):
    """Each of many functions is made with each of many lists, whose names are those of its parameters."""
    many = int((size / 56) ** 0.5)
    count = size // (20 * many)
    each = tuple(range(count))
    code = defaults((n + 1, count, of) for n in range(many) for of in range(many)) + END
    return code_file([block(code)] + [block(END, kind=1, parameters=each)] * many, names(count), [each] * many)


def ends_code(count):
    """Leaves for so many targets and as many EndFinallys on one slot, and the row that takes the Leaves to it."""
    part = 15 * count + 5
    ends = part + 10 * count
    targets = ends + 6 * count
    code = (exits_to(range(targets, targets + count), 0) + op(JUMP, targets)
            + b"".join(op(CONST, 0) + op(JUMP_IF, ends + 6 * i) for i in range(count)) + (bytes([END_FINALLY]) + op(JUMP, targets)) * count
            + bytes([NOP]) * count + END)
    return code, row(0, 15 * count, part, 0, 1)


def leaves_by_ends(size):
    """Leaves for as many targets, which one row takes, and as many EndFinallys on its slot, each of which lets all of them go on."""
    code, taker = ends_code(size // 32)
    return code_file([block(code, rows=[taker])])


def ends_under_row(size):
    """The same, where an always row lies over all of them and their targets, and so takes none."""
    count = size // 33
    code, taker = ends_code(count)
    outer = len(code)
    return code_file([block(code + bytes([END_FINALLY]) + END, rows=[taker, row(15 * count + 5, outer, outer, 0, 1)])])


def leaves_within_rows(size):
    """Leaves that run one after the other, under as many always rows, none of which takes them."""
    count = size // 32
    code = b"".join(op(CONST, 0) + op(JUMP_IF, 15 * i + 15) + op(LEAVE, 15 * i + 15) for i in range(count)) + END
    return code_file([block(code + bytes([END_FINALLY]) + END, rows=[row(0, len(code), len(code), 0, 1)] * count)])


# with so many Leaves, and as many parts that hold them, a code file has nearly as many pairs as are followed in all its blocks together
GRID = 1400


def many_grids(size):
    """Blocks, in each of which nearly as many pairs are to be followed as in all of them are."""
    count = min(GRID, size // 100)
    code, rows = grid_code(count, END)
    grid = block(code, rows=rows, kind=1)
    return code_file([block(END)] + [grid] * (size // len(grid)))


def refused_grid(size):
    """So many in one block which is refused at its end, so that they are followed again and again."""
    count = min(GRID, size // 60)
    bad = op(CONST, 0) + bytes([ITER, RETURN])
    code, rows = grid_code(count, bytes([NOP]) * (size - 39 * count) + bad)
    return code_file([block(code, rows=rows)])


def refused_at_end(size):
    """Places that agree up to the last one, which finds another kind."""
    return code_file([block(bytes([NOP]) * size + op(CONST, 0) + bytes([ITER, RETURN]))])


def too_few_at_end(size):
    """Places that agree up to the last one, which finds too few slots."""
    return code_file([block(bytes([NOP]) * size + bytes([POP]) + END)])


def unreached_pairs(size):
    """As `pairs_of_defaults`, with instructions that nothing leads to and which are asked nevertheless."""
    many = int((size / 39) ** 0.5)
    count = (size - 13 * many * many) // (8 * many)
    each = tuple(range(count))
    code = END + b"".join(op(MAKE_FUNCTION, n + 1, count, of) for n in range(many) for of in range(many))
    return code_file([block(code)] + [block(END, kind=1, parameters=each)] * many, names(count), [each] * many)


def deep_runs(count, slots):
    """Instructions that give slots of two kinds by turns, so many runs of each, those of values of so many slots."""
    return (op(CONST, 0) + op(UNPACK, slots) + op(CONST, 0) + bytes([ITER])) * count


def rows_over_runs(size, behind=END, slots=16):
    """Places with lists of many runs, under handler rows that lie in many stretches and leave nearly all of the slots."""
    count = size // 51
    start = deep_runs(count, slots)
    places = max(size - 16 * count - 17 * count, 4)
    code = start + bytes([NOP]) * places + behind
    depth = (slots + 1) * count
    rows = [row(len(start) + 1 + 2 * (i % (places // 8)), len(code) - len(behind) - 1 - 2 * (i % (places // 8)), len(code), depth) for i in range(count)]
    return code_file([block(code + bytes([END_HANDLER]) + END, rows=rows)])


def refused_under_rows(size):
    """The same in a block that is refused at its end, with so many slots that only the refusals behind it would tell."""
    count = size // 51
    return rows_over_runs(size, op(CONST, 0) + bytes([ITER, RETURN]), (2 ** 32 - 1) // count - 1)


def branches_over_runs(size):
    """Places with lists of many runs, to each of which two ways lead."""
    count = size // 44
    start = deep_runs(count, 2)
    first = len(start)
    return code_file([block(start + b"".join(op(CONST, 0) + op(JUMP_IF, first + 10 * i + 10) for i in range(size // 16)) + END)])


def stretches_too_few(size):
    """A handler row over each stretch of places, so that a place lies in one on each level, and at the end too few slots."""
    least = 7
    count = size * 64 // 81
    code = bytes([NOP]) * count + bytes([POP]) + END
    rows = [row(at, at + (1 << level), len(code)) for level in range(least, count.bit_length()) for at in range(0, count - (1 << level) + 1, 1 << level)]
    return code_file([block(code + bytes([END_HANDLER]) + END, rows=rows)])


def one_always_row(size):
    """A Leave, and one always row over all places."""
    code = op(CONST, 0) + op(JUMP_IF, 15) + op(LEAVE, 15) + bytes([NOP]) * size + END
    return code_file([block(code + bytes([END_FINALLY]) + END, rows=[row(0, len(code), len(code), 0, 1)])])


def file_of(texts, constants, lists, blocks):
    """A code file of lists that are bytes already, each with its count."""
    return b"PTCF\x01" + b"".join(number(count) + items for count, items in (texts, constants, lists)) + listed(blocks)


ONE_TEXT, ONE_CONSTANT, NONE = (1, text(b"m")), (1, b"\0"), (0, b"")


def many_constants(size):
    """Constants of one byte each."""
    return file_of(ONE_TEXT, (size, b"\0" * size), NONE, [block(END)])


def empty_lists(size):
    """Lists of no text."""
    return file_of(ONE_TEXT, ONE_CONSTANT, (size // 4, number(0) * (size // 4)), [block(END)])


def empty_texts(size):
    """The empty text again and again."""
    return file_of((size // 4, number(0) * (size // 4)), ONE_CONSTANT, NONE, [block(END)])


def short_texts(size):
    """Texts that differ."""
    count = size // 16
    return file_of((count, b"".join(text(b"%012x" % (n * 0x9e3779b97f4a % 2 ** 48)) for n in range(count))), ONE_CONSTANT, NONE, [block(END)])


def texts_alike(size):
    """Texts that differ at their ends alone, as many as each has bytes."""
    length = int(size ** 0.5)
    count = size // (length + 4)
    return file_of((count, b"".join(text(b"a" * (length - 8) + b"%08d" % n) for n in range(count))), ONE_CONSTANT, NONE, [block(END)])


# how much text is named
NAMED = 2 ** 30


def long_names(size):
    """Blocks with one name, so long that as much text is named as may be."""
    one = block(END, kind=1)
    count = max(size // 2 // len(one), 1)
    return file_of((1, text(b"m" * min(size // 2, NAMED // (count + 1)))), ONE_CONSTANT, NONE, [block(END)] + [one] * count)


def long_constants(size):
    """Constants of one text, so long that as much text is named as may be."""
    count = max(size // 10, 1)
    return file_of((1, text(b"m" * min(size // 2, NAMED // (count + 1)))), (count, (b"\4" + number(0)) * count), NONE, [block(END)])


SHAPES = (straight, branches, long_cycle, small_cycles, backwards, rows_over_all, nested_rows, rows_over_one, chained_rows, random_rows,
          unpacks, deep_rows, depths_over_all, nested_depths, runs, shortened, many_blocks, leaves, parts, rows_over_runs, branches_over_runs,
          one_always_row)
# what is read and refused or run as a whole, too
WHOLE = (*SHAPES, swaps, marks, hundred_thousand_blocks, leaves_over_one_row, nested_parts, nested_withs, long_defaults, pairs_of_defaults,
         unreached_pairs, refused_at_end, too_few_at_end, refused_under_rows, stretches_too_few, many_grids, many_constants, empty_lists,
         empty_texts, short_texts, texts_alike, long_names, long_constants)
# as many pairs of a Leave and of what holds it, or of a row that doesn't take it, as the square of the file's size
SQUARE = (grid_of_leaves, leaves_by_ends, ends_under_row, leaves_within_rows, refused_grid)
