"""Writes what the programs test_tokens, test_wide and test_front read, and what they must print: the tables with the answers
that they tell, the trees that CPython's ast gives with the acts of their blocks, and the scopes that its symtable gives."""
import io
import tokenize
import warnings
from pathlib import Path

import acts
import scopes
import tables
import trees

warnings.simplefilter("ignore")

CRATES = Path("../../crates")

# kinds of rows that stand on a line each, by the programs that read them and the names of their tables
LINES = {"test_tokens": ["tokens", "places"], "test_wide": ["expressions", "targets", "scripts"], "test_front": ["parts"]}

# words that are no tokens of the language: a text with one is refused for it, before its tokens are read
EXCLUDED = {":=", "@=", "async", "await"}

# there is no such block
NO_BLOCK = ("# 3 x\nx = 1\n", " -")


def refusal(place, script):
    """The number and place of a refusal: a token that is left out, or else the token with which nothing goes on."""
    for token in tokenize.generate_tokens(io.StringIO(script).readline):
        if token.type != tokenize.STRING and token.string in EXCLUDED:
            return f" 8 {token.start[0]}"
    return f" 10 {place}"


def queried(script):
    """The script behind a comment with blocks and names, and the scopes of these."""
    found = scopes.scopes(script)
    return "#" + "".join(f" {block} {name}" for block, name, _ in found) + "\n" + script, "".join(" " + scope for _, _, scope in found)


def lines(names):
    """Kind, name and rows of the tables of lines with these names."""
    return [(name, name, [(text, " " + answer) for answer, text in tables.rows(name)]) for name in names]


def trees_acts_and_scopes():
    """The same of the tables of scripts."""
    return [
        ("trees", "accepted", [(script, trees.script(script)) for script in tables.accepted()]),
        ("trees", "refused", [(script, refusal(place, script)) for place, script in tables.refused()]),
        ("trees", "faults", [(script, f" {number} {line}") for number, line, _, script in tables.faults()]),
        ("acts", "acts", [(script, acts.script(script)) for script in tables.scripts("acts")]),
        ("scopes", "declarations", [(script, f" {number} {line}") for number, line, _, script in tables.faults("declarations")]),
        ("scopes", "scopes", [queried(script) for script in scopes.scripts()] + [NO_BLOCK]),
    ]


def write(crate, files):
    """What a program reads and what it must print."""
    (crate / "data").mkdir(parents=True, exist_ok=True)
    for _, name, rows in files:
        texts = [text for text, _ in rows]
        is_of_lines = any(name in names for names in LINES.values())
        table = "".join(text + "\n" for text in texts) if is_of_lines else "---\n".join(texts)
        (crate / "data" / (name + ".txt")).write_text(table)
    (crate / "args").write_text("".join(f"{kind}\n{name}.txt\n" for kind, name, _ in files))
    (crate / "stdout").write_text("".join(answer + "\n" for _, _, rows in files for _, answer in rows))


def main():
    for program, names in LINES.items():
        write(CRATES / program, lines(names) + (trees_acts_and_scopes() if program == "test_front" else []))


if __name__ == "__main__":
    main()
