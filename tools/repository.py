"""The crates that crates.txt lists: what each stands on, its sources, and copies of them."""
import os
import re
import shutil

ROOT = os.path.dirname(os.path.dirname(os.path.realpath(__file__)))
# The folders of a crate that a proof reads.
PARTS = ("src", "specs", "proofs")


class Crate:
    """A line of crates.txt. `below` has the crates of this repository that the line names."""

    def __init__(self, name, below, line):
        self.name, self.below, self.line = name, below, line

    def folder(self, root=ROOT):
        return f"{root}/crates/{self.name}"

    def is_program(self):
        return os.path.isfile(f"{self.folder()}/src/main.rt")

    def files(self, suffixes=(".rt", ".antt")):
        """The files that a proof of the crate reads, with their contents' paths in an order that is always the same."""
        found = []
        for part in PARTS:
            for at, folders, names in os.walk(f"{self.folder()}/{part}"):
                folders.sort()
                found += [f"{at}/{name}" for name in sorted(names) if name.endswith(suffixes)]
        return found

    def count(self, pattern, suffixes=(".rt", ".antt")):
        """How often a pattern stands in the crate's files."""
        found = 0
        for path in self.files(suffixes):
            with open(path, "rb") as it:
                found += len(re.findall(pattern, it.read()))
        return found


def crates():
    """The crates by their names, each behind those that it stands on."""
    with open(f"{ROOT}/crates.txt", encoding="utf-8") as it:
        lines = [line for line in it if line.partition("#")[0].strip()]
    heads = [line.partition("#")[0].partition(":") for line in lines]
    names = {head.split()[0] for head, _, _ in heads}
    listed = {}
    for line, (head, _, below) in zip(lines, heads):
        name = head.split()[0]
        listed[name] = Crate(name, [it for it in below.split() if it in names], line)
    return {name: listed[name] for name in lowest_first(listed, listed)}


def lowest_first(listed, wanted):
    """The names of the crates wanted and of all that they stand on."""
    found = {}

    def add(name):
        if name not in found:
            for below in listed[name].below:
                add(below)
            found[name] = None

    for name in wanted:
        add(name)
    return list(found)


def copy_sources(listed, names, to):
    """Makes a folder a repository of these crates' sources; what `rt` keeps there stays."""
    os.makedirs(f"{to}/crates", exist_ok=True)
    for name in names:
        for part in PARTS:
            own, copy = f"{listed[name].folder()}/{part}", f"{listed[name].folder(to)}/{part}"
            shutil.rmtree(copy, ignore_errors=True)
            if os.path.isdir(own):
                shutil.copytree(own, copy)
    with open(f"{to}/crates.txt", "w", encoding="utf-8") as it:
        it.writelines(listed[name].line for name in names)
    shutil.copyfile(f"{ROOT}/HANDLES", f"{to}/HANDLES")


def add_crate(root, name, stands_on, files):
    """Adds a crate to a copy of the sources, and answers its folder."""
    folder = f"{root}/crates/{name}"
    for path, text in files.items():
        os.makedirs(os.path.dirname(f"{folder}/{path}"), exist_ok=True)
        with open(f"{folder}/{path}", "w", encoding="utf-8") as it:
            it.write(text)
    with open(f"{root}/crates.txt", "a", encoding="utf-8") as it:
        it.write(f"{name}: {' '.join(stands_on)}\n")
    return folder


def free_memory():
    """The bytes that a further program can have."""
    with open("/proc/meminfo", encoding="ascii") as it:
        return 1024 * int(re.search(r"MemAvailable:\s+(\d+)", it.read())[1])
