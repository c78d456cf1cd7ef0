"""The definitions on which a contract rests, in an order in which they can be read: each behind those that it uses.

usage: definitions.py FILE.rt [FUNCTION] [--names]: follows the names in the clauses of the function (or of the whole
file) from definition to definition, not from file to file. A line tells how many lines of a file are needed, blank ones,
comments and `use` left out, how many it has, and the file; with --names the definitions follow. The last line tells the
sum. Types that are declared in code, and the kit's own words, aren't followed.
"""
import re
import sys
from collections import defaultdict
from functools import lru_cache
from pathlib import Path

CRATES = Path(__file__).resolve().parent.parent / "crates"
USE = re.compile(r"^\s*(?:pub )?(?:ghost )?use Rattle\.(\w+(?:\.\w+)*)(?:\.\{([^}]*)\}| as (\w+))?;?\s*$", re.M)
# a definition begins with its name and its type; what follows it deeper, or under its own name, is its text
BEGINS = re.compile(r"^(\s*)(?:(?:abbrev|unfoldable|opaque|pub|private)\s+)*(record\s+|data\s+)?([^\s(){}:=]+)((?:\s+[({][^=]*?[)}])*)\s+:(?:\s|$)")
MODULE = re.compile(r"^(\s*)(?:pub )?module\s+\S+.*\bwhere\s*$|^(\s*)(?:abbrev |pub )*mutual\s*$")
WORD = re.compile(r"[^\s(){}\[\];,.λ→×:]+")


def file_of(path):
    """The file of a module, if the repository has it."""
    crate, *inner = path.split(".")
    if not inner or inner[0] not in ("specs", "proofs"):
        return None
    file = CRATES / crate / ("/".join(inner) + ".antt")
    if not file.exists() and len(inner) > 1 and (below := handed_on(crate, inner[0]).get(inner[1])):
        return file_of(".".join([below, *inner[2:]]))
    return file if file.exists() else None


@lru_cache(maxsize=None)
def handed_on(crate, part):
    """What a crate hands on of those below it, by the names that it gives them."""
    file = CRATES / crate / part / "Lib.antt"
    return {own: path for path, _, own in USE.findall(file.read_text()) if own} if file.exists() else {}


class Definition:
    """A definition, with its lines by their numbers."""

    def __init__(self, file, name, lines):
        self.file, self.name, self.lines = file, name, dict(lines)


class Module:
    """The definitions of a file by name, with the names of their constructors, and what it takes from others."""

    def __init__(self, text, file=None):
        self.named, self.aliases, self.taken, self.file = {}, {}, {}, file
        for path, names, alias in USE.findall(text):
            if alias:
                self.aliases[alias] = path
            for it in filter(None, (part.strip() for part in names.split(","))):
                name, _, own = it.partition(" as ")
                self.taken[(own or name).strip()] = (path, name.strip())
        if file:
            self.split(text)

    def split(self, text):
        around, item, depth, is_type = [], None, 0, False
        for number, line in enumerate(text.splitlines()):
            bare = line.strip()
            if not bare or bare.startswith(("--", "use ", "pub use ")):
                continue
            indent = len(line) - len(line.lstrip())
            while around and around[-1][0] >= indent:
                around.pop()
            if item and is_type and indent > depth:
                item.lines[number] = line
                if found := re.match(r"\s*(?:pub\s+)?([^\s:]+(?:, *[^\s:]+)*)\s+:", line):
                    for it in found[1].split(","):
                        self.named.setdefault(it.strip(), item)
                continue
            if MODULE.match(line):
                around.append((indent, number, line))
                item = None
                continue
            begins = BEGINS.match(line)
            if begins and not (item and indent > depth):
                # (the parameters of the modules around belong to it)
                item = Definition(self.file, begins[3], [*[it[1:] for it in around if "module" in it[2]], (number, line)])
                depth, is_type = indent, bool(begins[2])
                self.named[begins[3]] = item
            elif item:
                item.lines[number] = line

    def find(self, name):
        """The definition of a name that stands in this file, here or where it is taken from."""
        if name in self.named:
            return self.named[name]
        if name in self.taken:
            path, own = self.taken[name]
            return (module(file).find(own) if (file := file_of(path)) else None)
        return None

    def uses(self, text):
        """The definitions that a text of this file names."""
        for alias, name in re.findall(r"\b(\w+)\.([^\s(){}\[\];,.]+)", text):
            if alias in self.aliases and (file := file_of(self.aliases[alias])):
                yield module(file).find(name)
        words = set(WORD.findall(text))
        for name in [*words, *[it for it in (*self.taken, *self.named) if "◌" in it and it.replace("◌", " ").split()[0] in words]]:
            yield self.find(name)


@lru_cache(maxsize=None)
def module(file):
    return Module(file.read_text(), file)


def in_order(definition, seen):
    for it in module(definition.file).uses("\n".join(definition.lines.values())):
        if it and id(it) not in seen:
            seen.add(id(it))
            yield from in_order(it, seen)
            yield it


def clauses_of(text, function):
    """The head of a function, up to its body, or all clauses of a file."""
    if function:
        head = re.search(rf"^\s*pub fn {function}\b.*?^\{{", text, re.M | re.S)
        if not head:
            sys.exit(f"definitions.py: no public function {function}")
        return head[0]
    return "\n".join(re.findall(r"(?:ensures|requires)[^{]*\{.*?\}\s*$", text, re.M | re.S))


def length(file):
    lines = (line.strip() for line in file.read_text().splitlines())
    return sum(bool(line) and not line.startswith(("--", "use ", "pub use ")) for line in lines)


def main(name, function, with_names):
    text, files, seen = Path(name).read_text(), defaultdict(list), set()
    # (a name list of `ghost use` may take several lines)
    joined = re.sub(r"\{\s*([^{}]*?),?\s*\};", lambda it: "{" + " ".join(it[1].split()) + "};", text)
    for start in Module(joined).uses(clauses_of(text, function)):
        if start and id(start) not in seen:
            seen.add(id(start))
            for it in [*in_order(start, seen), start]:
                files[it.file].append(it)
    total = 0
    for file, items in files.items():
        needed = len({number for it in items for number in it.lines})
        total += needed
        print(f"{needed:5} of {length(file):4} {file.relative_to(CRATES)}")
        if with_names:
            print("              " + " ".join(it.name for it in items))
    print(f"{total:5} lines of {sum(map(len, files.values()))} definitions in {len(files)} files")


if __name__ == "__main__":
    words = [it for it in sys.argv[1:] if it != "--names"]
    if not 1 <= len(words) <= 2:
        sys.exit("usage: tools/definitions.py FILE.rt [FUNCTION] [--names]")
    main(words[0], words[1] if len(words) == 2 else None, "--names" in sys.argv)
