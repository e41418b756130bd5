"""The examples: what the program is asked for each of them, from the folder that it lies in, and how it ends. What it then prints stands
beside each, in examples/NAME.out."""
import os

# The exit status of each script that `replay` runs.
SCRIPTS = {
    "descending": 0,
    "key_held": 0,
    "partial": 0,
    "rollback": 0,
    "three_rows": 0,
    "two_indexes": 0,
    "two_workers": 0,
    "unique_refused": 1,
    "while_in_use": 0,
}
# Callers of the library for C programs, which tools/try/callers and tools/try/sqlite-example try: the files of each folder.
CALLERS = {
    "c": ["caller.c", "caller.out", "events.c", "events.out", "first.c", "first.out", "steady.c", "steady.out"],
    "rust": ["caller.out", "caller.rs"],
    "sqlite": ["README.md", "building.c", "example.out", "example.sql", "functions.c", "reading.c", "sfbuild.c", "table.h", "tables.c", "transaction.c", "writing.c"],
}
# The words that tools/program answers at once, until the program is proved, from files of tools/help.
HELP = {
    "sfbuild": {"--help": "help.txt", "-h": "help.txt", "help": "help.txt", "--version": "version.txt", "-V": "version.txt"},
    "sfbench": {"--help": "help.txt", "-h": "help.txt", "--version": "version.txt", "-V": "version.txt"},
}
INDEX_WORDS = ["--columns", "id:int,city:text,people:int", "--on", "people:desc,city", "--on", "city", "--unique", "id", "--range", ".."]


def asked():
    """The file of each example, with the words of its command and the exit status."""
    found = {f"{name}.csv": (["./sfbuild", "replay", f"examples/{name}.csv"], status) for name, status in SCRIPTS.items()}
    found["race.csv"] = ["./sfbuild", "race", "examples/race.csv", "--workers", "2"], 0
    found["cities.csv"] = ["./sfbuild", "index", "examples/cities.csv", *INDEX_WORDS], 0
    found["shell.py"] = ["python3", "examples/shell.py"], 0
    return found


def answer_of(name):
    """The file that has what is printed for an example."""
    return f"examples/{os.path.splitext(name)[0]}.out"


def strangers(folder):
    """The files of a folder's examples/ that belong to none of them, and those of the examples that aren't there."""
    wanted = {"examples/README.md"} | {f"examples/{name}" for name in asked()} | {answer_of(name) for name in asked()}
    wanted |= {f"examples/{of}/{name}" for of, names in CALLERS.items() for name in names}
    found = {
        os.path.relpath(f"{at}/{name}", folder)
        for at, _, names in os.walk(f"{folder}/examples")
        for name in names
        if os.path.basename(at) != "__pycache__"
    }
    return sorted(wanted ^ found)
