"""The functions of a source file, as the prover names them, and which of them an edit touches."""
import re

FUNCTION = re.compile(r"^( *)(?:#\[.*\] *)*(?:pub(?:\(\w+\))? +)?(?:(?:const|unsafe) +)*fn +(\w+)")
IMPL = re.compile(r"^impl(?:<.*?>)? (?:(\w+).* for )?(\w+)")


class Function:
    """A function of a source file, by its lines, counted from 1."""

    def __init__(self, file, first, last, name, owner):
        self.file, self.first, self.last, self.name = file, first, last, name
        self.key = (file, first)
        if owner:
            # (a method is named by its type, which may stand in another file)
            self.path = re.compile(rf"^\w+::(?:\w+::)*{owner}::{name}$")
            self.proofs = re.compile(rf"^proofs/(?:\w+/)*{owner}/\+?{name}/")
            return
        modules = re.sub(r"^src/|(^|/)(lib|main|mod)\.rt$|\.rt$", "", file)
        # (a method is named by its type, which may stand in a module above the file's)
        outer, *inner = modules.split("/")
        self.path = re.compile(rf"^\w+::{outer}{'::' if outer else ''}{''.join(f'(?:{it}::)?' for it in inner)}(?:[^:]+::)?{name}$")
        self.proofs = re.compile(rf"^proofs/{outer}{'/' if outer else ''}{''.join(f'(?:{it}/)?' for it in inner)}(?:[^/]+/)?\+?{name}/")

    def has(self, file, line):
        return file == self.file and self.first <= line <= self.last or bool(self.proofs.match(file))


def owner_in(impl):
    """What the prover calls the type of an impl: a trait's impl has the trait's name behind the type's, but for Drop."""
    trait, name = impl[1], impl[2]
    return f"{name}(?:{trait}\\w*)?" if trait else name


def functions_of(folder, file):
    """The functions of a source file: each ends where a brace closes at its own indent."""
    lines = open(f"{folder}/{file}", encoding="utf-8").read().split("\n")
    found, owner = [], ""
    for at, line in enumerate(lines):
        impl = IMPL.match(line)
        owner = owner_in(impl) if impl else "" if line == "}" else owner
        start = FUNCTION.match(line)
        if start:
            first = at
            while lines[first - 1].lstrip().startswith("#["):
                first -= 1
            ends = (i for i in range(at, len(lines)) if re.match(rf"{start[1]}(\}}|\{{.*\}}$)", lines[i]) or i == at and re.search(r"(\{.*\}|;)$", line))
            found.append(Function(file, first + 1, next(ends, at) + 1, start[2], owner))
    return found


def pairs_of(path):
    """The pairs of an edit: file, old text and new text."""
    file, old, found = "", None, []
    for line in open(path, encoding="utf-8").read().split("\n"):
        if line.startswith("file: "):
            file = line[6:].strip()
        elif line.startswith("old: "):
            old = line[5:]
        elif line.startswith("new:") and old is not None:
            found.append((file, old, line[4:].removeprefix(" ")))
            old = None
    return found


def functions_around(folder, pair):
    """The innermost function round an edit's text, if it stands in one."""
    file, old, _ = pair
    text = open(f"{folder}/{file}", encoding="utf-8").read()
    # (a pair may change what an earlier pair of its edit made; the earlier one's place then serves)
    if not file.startswith("src/") or text.count(old) != 1:
        return []
    line = text[: text.index(old)].count("\n") + 1
    around = [it for it in functions_of(folder, file) if it.first <= line <= it.last]
    return [min(around, key=lambda it: it.last - it.first)] if around else []
