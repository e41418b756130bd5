"""Which edits were refused over which sources: the file wrong-bodies.tried, which wrong-bodies writes and reads."""
import fcntl
import hashlib
import os
import re

# The files of a function's own proof, which no other proof can read.
OF_A_FUNCTION = ("Answers.antt", "Invariants.antt", "Proof.antt")
COMMENT = re.compile(r"\s*(//|--)")
FUNCTION = re.compile(r"^( *)(?:#\[.*\] *)*(?:pub(?:\(\w+\))? +)?(?:unsafe +)?fn +\w+")


class Tried:
    """A line a crate: its name, a sum of the logic and of all that a refusal rests on, and sums of the edits that were refused over it. A refusal
    rests on the crate's own files, and of the crates below on what a proof above can read: their specs, their lemmas, and their sources
    without the bodies of functions, all without lines of comments."""

    def __init__(self, parts, logic):
        self.file = f"{os.path.dirname(os.path.realpath(__file__))}/wrong-bodies.tried"
        # (a crate's folders that a proof reads, what the prover is, and what was summed already)
        self.parts, self.logic, self.seen = parts, logic, {}
        self.read()

    def read(self):
        self.sources, self.edits = {}, {}
        if os.path.isfile(self.file):
            with open(self.file, encoding="utf-8") as it:
                for name, sources, *edits in map(str.split, it):
                    self.sources[name], self.edits[name] = sources, set(edits)

    def has(self, crate, edit):
        return self.sources.get(crate.name) == self.sum_of_sources(crate) and sum_of_edit(edit) in self.edits[crate.name]

    def note(self, crate, edit):
        """Adds an edit to what the file has by now, since other runs may write it, too."""
        with open(f"{self.file}.lock", "w", encoding="utf-8") as lock:
            fcntl.flock(lock, fcntl.LOCK_EX)
            self.read()
            if self.sources.get(crate.name) != self.sum_of_sources(crate):
                self.sources[crate.name], self.edits[crate.name] = self.sum_of_sources(crate), set()
            self.edits[crate.name].add(sum_of_edit(edit))
            lines = (f"{name} {self.sources[name]} {' '.join(sorted(self.edits[name]))}\n" for name in sorted(self.sources))
            with open(f"{self.file}.new", "w", encoding="utf-8") as it:
                it.writelines(lines)
            os.replace(it.name, self.file)

    def sum_of_sources(self, crate):
        texts = [(os.path.relpath(path, crate.folder), text_of(path)) for path in self.files_of(crate)]
        return self.sum_of(repr(texts), crate)

    def sum_of_statements(self, crate):
        """A sum of what a proof above can read of a crate and of those below it."""
        if crate.name not in self.seen:
            files = [it for it in self.files_of(crate) if os.path.basename(it) not in OF_A_FUNCTION]
            texts = [(os.path.relpath(path, crate.folder), without_comments(without_bodies(text_of(path)))) for path in files]
            self.seen[crate.name] = self.sum_of(repr(texts), crate)
        return self.seen[crate.name]

    def sum_of(self, texts, crate):
        below = " ".join(map(self.sum_of_statements, crate.deps))
        return hashlib.sha256(f"{self.logic}{texts}{below}".encode()).hexdigest()[:16]

    def files_of(self, crate):
        found = []
        for part in self.parts:
            for at, _, names in os.walk(f"{crate.folder}/{part}"):
                found += [f"{at}/{name}" for name in names]
        return sorted(found)


def text_of(path):
    with open(path, encoding="utf-8") as it:
        return it.read()


def without_bodies(text):
    """A source without the bodies of its functions, by the layout that `rt fmt` gives: a body opens at the end of a line that has the function's own
    indent, and closes at that indent. A body that isn't found so stays."""
    lines, kept, at = text.split("\n"), [], 0
    while at < len(lines):
        head = FUNCTION.match(lines[at])
        opens = head and next((it for it in range(at, len(lines)) if ends_a_head(lines[it], head[1])), None)
        if opens is None or not lines[opens].endswith("{"):
            kept.append(lines[at])
            at += 1
            continue
        kept += lines[at : opens + 1]
        at = next((it for it in range(opens + 1, len(lines)) if lines[it] == f"{head[1]}}}"), opens + 1)
    return "\n".join(kept)


def without_comments(text):
    return "\n".join(line for line in text.split("\n") if not COMMENT.match(line))


def ends_a_head(line, indent):
    """Whether a function's head ends with the line: a body opens, or has opened and closed, or there is none."""
    return re.match(rf"{indent}\S", line) is not None and line.endswith(("{", "}", ";"))


def sum_of_edit(path):
    with open(path, "rb") as it:
        return hashlib.sha256(repr((os.path.basename(path), it.read())).encode()).hexdigest()[:8]
