"""The tables of texts beside CPython and the recogniser of the grammar."""
import ast
import sys
import warnings

import acts
import recogniser
import scopes
import spellings
import trees

warnings.simplefilter("ignore")

ESCAPES = {"n": "\n", "r": "\r", "t": "\t", "f": "\f", "\\": "\\"}

# CPython reads these numbers as floats, and ends a spec with its line
TAKEN = {"09.5\n", "0_7j\n"}
REFUSED = {'f"{x:a\n}"\n'}

# the number of a refusal of a declaration, by what CPython says of it
DECLARATIONS = {
    "no binding for nonlocal": 14,
    "duplicate argument": 15,
    "is parameter and": 15,
    "is nonlocal and global": 15,
    "is used prior to": 16,
    "is assigned to before": 16,
    "outside": 17,
    "not properly in loop": 17,
}


def rows(name):
    """Answer and text of each line of a table, with a tab between; escapes.rt of test_notation says how a text stands on a line."""
    lines = open(name + ".txt").read().splitlines()
    return [tuple(line.split("\t", 1)) for line in lines]


def text_of(row):
    """The text that stands on a line, or None where a piece of it stands many times or bytes of it are told."""
    plain, *parts = row.split("\\")
    text, is_plain = plain, False
    for part in parts:
        if is_plain:
            text, is_plain = text + part, False
        elif part == "":
            text, is_plain = text + "\\", True
        elif part[0] in ESCAPES:
            text += ESCAPES[part[0]] + part[1:]
        else:
            return None
    return text


def scripts(name):
    return [row.rstrip("\n") + "\n" for row in open(name + ".txt").read().split("\n---\n")]


def accepted():
    return scripts("accepted")


def refused():
    """Byte place and script."""
    rows = open("refused.txt").read().split("---\n")
    return [(int(row.split("\n", 1)[0]), row.split("\n", 1)[1]) for row in rows if row]


def faults(name="faults"):
    """Number, line, reason and script: forms that the language leaves out, and bad targets. A reason is given where
    CPython's grammar takes the script."""
    rows = [row.split("\n", 1) for row in open(name + ".txt").read().split("---\n") if row]
    return [(*heading(head), script) for head, script in rows]


def heading(text):
    """Number, line, and the reason, if there is one."""
    number, line, *reason = text.split(" ", 2)
    return int(number), int(line), reason


def is_parsed(script):
    try:
        ast.parse(script)
        return True
    except (SyntaxError, ValueError):
        return False


def declaration(script):
    """The number and line of CPython's refusal."""
    try:
        compile(script, "a.py", "exec")
    except SyntaxError as error:
        return next(number for words, number in DECLARATIONS.items() if words in error.msg), error.lineno


def tokens_stand(answer, text):
    """Whether tokens are CPython's; or whether CPython takes a text that is refused for what is left out or beyond a limit
    (8 and 9) alone."""
    if not answer[0].isdigit():
        return spellings.spelled(text) == " " + answer
    is_left_out = answer.split()[0] in ("8", "9")
    return text in TAKEN | REFUSED or is_left_out or not is_parsed(text)


def operator(text):
    """The operator of a binary operation."""
    e = ast.parse("(" + text + "\n)", mode="eval").body
    if not isinstance(e, ast.BinOp) or e.col_offset != 1:
        return ""
    return " @" if isinstance(e.op, ast.MatMult) else " " + trees.sign(e.op)


def part(text, goal):
    count, read = recogniser.first(text, goal)
    return f"10 {count}" if read is None else f"{count}{operator(read)}"


def whole(text):
    place = recogniser.refusal(text)
    return "script" if place is None else f"10 {place}"


def wrong_rows():
    """The rows of the tables of lines that CPython or the recogniser contradicts."""
    asked = {
        "tokens": tokens_stand,
        "expressions": lambda answer, text: part(text, "expr") == answer,
        "targets": lambda answer, text: part(text, "target") == answer,
        "scripts": lambda answer, text: whole(text) == answer,
    }
    for name, stands in asked.items():
        for answer, row in rows(name):
            text = text_of(row)
            if text is not None and not stands(answer, text):
                yield name, row


def wrong_scripts():
    show = "--trees" in sys.argv
    for script in accepted():
        if not is_parsed(script) or recogniser.refusal(script) is not None:
            yield "accepted", script
        elif show:
            print(trees.script(script))
    for place, script in refused():
        if is_parsed(script) or recogniser.refusal(script) != place:
            yield "refused", script
    for _, _, reason, script in faults():
        if recogniser.refusal(script) is not None or bool(reason) != is_parsed(script):
            yield "faults", script
    for number, line, _, script in faults("declarations"):
        if recogniser.refusal(script) is not None or declaration(script) != (number, line):
            yield "declarations", script
    for script in scripts("acts"):
        acts.script(script)
    for script in scopes.scripts():
        scopes.scopes(script)


def main():
    counts = {name: len(rows(name)) for name in ("tokens", "places", "expressions", "targets", "scripts", "parts")}
    counts |= {"accepted": len(accepted()), "refused": len(refused()), "faults": len(faults())}
    counts |= {"declarations": len(faults("declarations")), "acts": len(scripts("acts")), "scopes": len(scopes.scripts())}
    wrong = [*wrong_rows(), *wrong_scripts()]
    print(", ".join(f"{count} {name}" for name, count in counts.items()) + f"; {len(wrong)} wrong")
    for name, text in wrong:
        print(name, repr(text))
    sys.exit(1 if wrong else 0)


if __name__ == "__main__":
    main()
