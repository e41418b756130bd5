"""The kinds of short races that `tools/try/soak` makes: each takes less than a second."""
import dataclasses
import typing


@dataclasses.dataclass(frozen=True)
class Kind:
    """A kind of races: how many workers their build has, what makes a script out of draws (and of a size, where the kind is a backlog), and for
    which faults it may be given up."""

    workers: int
    make: typing.Callable
    faults: frozenset = frozenset()
    # Whether nothing else may happen than that the build is given up.
    is_always_given_up: bool = False
    # Whether its sessions write so much that the build has to catch up with them in turns.
    is_backlog: bool = False


NO_PAGE = frozenset({"51,NoPage"})


def transactions(draw, session, count, row, pages, undone):
    """What a session does: transactions that insert, update and delete, some of which are undone; now and then one is left open."""
    steps = []
    for number in range(count):
        label = f"T{number}"
        steps.append(f"begin,{label}")
        for _ in range(draw.randint(1, 3)):
            place = f"{draw.randint(0, pages)}.{draw.randint(0, 3)}"
            steps.append(draw.choice([f"insert,{label},{row()}", f"update,{label},{place},{row()}", f"delete,{label},{place}"]))
        ending = draw.random()
        if ending < undone:
            steps.extend([f"undo,{label}"] * draw.randint(1, 2))
        elif ending < 0.98:
            steps.append(f"commit,{label}")
    return [f"in,{session},{step}" for step in steps]


def script_of(draw, *, slots=4, kinds="int", rows=40, build="build,64,even:4,n:0", sessions=4, count=30, keys=1000, undone=0.15, text=False, flags=False):
    """The script of a race."""

    def row(key=None):
        key = draw.randint(0, keys) if key is None else key
        if flags:
            return f"{key},{draw.choice(['true', 'false', '~'])}"
        return f"={'x' * draw.randint(0, 80)}{key},{key}" if text else str(key)

    lines = [f"table,{slots},{kinds}"] + [f"row,{row(number)}" for number in range(rows)]
    lines += draw.choice([[], ["spools,prefix"], ["spools,mixed"]]) + [build, "go"]
    parts = [transactions(draw, number + 1, count, row, rows // slots, undone) for number in range(sessions)]
    while any(parts):
        lines.append(draw.choice([part for part in parts if part]).pop(0))
    return "\n".join(lines) + "\n"


# Indexes of which some take only some of the rows.
PARTIAL = ["n:0?1=true,n:0", "u:0?1=true,u:0?1~", "n:0d?0<30,u:1;0?1=false,n:0?1~"]
SHORT = {
    "clashing writers": Kind(2, lambda draw: script_of(draw, rows=8, count=60)),
    "unique keys": Kind(2, lambda draw: script_of(draw, build="build,64,even:4,u:0", keys=draw.choice([30, 3000]), rows=10, count=40)),
    "one page": Kind(2, lambda draw: script_of(draw, slots=255, rows=20, build="build,64,even:1,n:0")),
    "256 ranges": Kind(4, lambda draw: script_of(draw, slots=1, rows=300, build="build,64,even:256,n:0")),
    "16 workers": Kind(16, lambda draw: script_of(draw, rows=200, build="build,16,even:32,n:0")),
    "several indexes": Kind(4, lambda draw: script_of(draw, build="build,64,even:6,n:0,u:0,n:0", keys=100_000)),
    "a quota that is too small": Kind(2, lambda draw: script_of(draw, slots=255, rows=2_000, build="build,1,even:2,n:0"), NO_PAGE),
    "texts": Kind(4, lambda draw: script_of(draw, kinds="text,int", text=True, build="build,64,even:4,n:0;1,n:1")),
    "rollbacks": Kind(2, lambda draw: script_of(draw, undone=0.9, count=60)),
    "eight sessions": Kind(4, lambda draw: script_of(draw, sessions=8, count=40, build="build,64,even:8,u:0,n:0", keys=200)),
    "partial indexes": Kind(
        4, lambda draw: script_of(draw, kinds="int,flag", flags=True, build=f"build,64,even:4,{draw.choice(PARTIAL)}", keys=draw.choice([60, 3000]))
    ),
    "columns that descend": Kind(2, lambda draw: script_of(draw, build="build,64,even:4,u:0d,n:0d", keys=draw.choice([60, 3000]))),
}
