"""The kinds of races in which sessions write thousands of rows without a pause while a build scans, loads and catches up.

When the build begins to catch up more entries wait than the 1,024 that a switch takes. It catches up in turns then, and sessions that write
faster than it follows wait until it has taken more. What is looked for is a session that waits for ever, of a build that has ended or of one
that waits for this very session.
"""
from race_kinds import NO_PAGE, Kind

# So many keys that hardly any two rows share one.
GREAT = 2**60
# A spool may lease no more pages.
QUOTA_MOST = 1024


class Shape:
    """What the races of a kind have in common; each number may be drawn anew for each race."""

    def __init__(
        self, specs, *, keys=GREAT, rows=12_000, sessions=4, lines=100_000, quota=QUOTA_MOST, ranges=None, columns="int", undone=0.15, long=0.0, first=()
    ):
        self.specs, self.keys, self.rows, self.sessions, self.lines = specs, keys, rows, sessions, lines
        self.quota, self.ranges, self.columns, self.undone, self.long, self.first = quota, ranges, columns, undone, long, first
        # (one that is too small for a race of that size has to go with it)
        self.is_quota_small = quota <= QUOTA_MOST // 2

    def script(self, draw, size):
        """The script of a race of this shape, of which a whole one has the size 100."""
        slots, rows = draw.choice([4, 60, 255 if self.columns == "int" else 100]), draw.randint(self.rows // 3, self.rows) * size // 100
        quota = self.quota * size // 100 if self.is_quota_small else self.quota
        row = maker_of_rows(draw, self.columns.split(","), self.keys)
        lines = [f"table,{slots},{self.columns}", *(f"row,{it}" for it in self.first), *(f"row,{row()}" for _ in range(rows))]
        dealing = self.ranges or f"even:{draw.choice([1, 2, 7, 64, 256])}"
        lines += [*draw.choice([[], ["spools,prefix"], ["spools,mixed"]]), f"build,{quota},{dealing},{self.specs}", "go"]
        # (the rows that come first keep their keys: no session is given them)
        places = [f"{number // slots}.{number % slots}" for number in range(len(self.first), len(self.first) + rows)]
        for number in range(self.sessions):
            session = Session(draw, number + 1, places[number :: self.sessions], places, row, self.undone, self.long)
            lines += session.lines(self.lines * size // 100 // self.sessions)
        return "\n".join(lines) + "\n"


def maker_of_rows(draw, columns, keys):
    """What draws a row: its first column is below `keys`."""
    drawn = {
        "int": lambda: str(int(draw.random() * keys)),
        "flag": lambda: draw.choice(("true", "false", "~")),
        "text": lambda: f"=some{'x' * int(draw.random() * 20)}{int(draw.random() * keys)}",
    }
    parts = [drawn[it] for it in columns]
    return parts[0] if len(parts) == 1 else lambda: ",".join(part() for part in parts)


class Session:
    """What one session does: it writes mostly to rows of its own, so that most of it is accepted."""

    def __init__(self, draw, number, own, all_places, row, undone, long):
        self.draw, self.number, self.own, self.all, self.row, self.undone, self.long = draw, number, own, all_places, row, undone, long
        self.told = []

    def say(self, *words):
        self.told.append(f"in,{self.number},{','.join(words)}")

    def write(self, label):
        """A write: an update takes two entries of an index, and so comes most often."""
        kind = self.draw.random()
        places = self.own if self.draw.random() < 0.97 else self.all
        place = places[int(self.draw.random() * len(places))]
        if kind < 0.25:
            self.say("insert", label, self.row())
        elif kind < 0.8:
            self.say("update", label, place, self.row())
        else:
            self.say("delete", label, place)

    def end(self, label, writes):
        """The end of a transaction of so many writes: it is undone, whole or in part, or committed, or seldom left open."""
        ending = self.draw.random()
        if ending < self.undone:
            steps = writes if self.draw.random() < 0.95 else self.draw.randint(1, writes)
            for _ in range(steps):
                self.say("undo", label)
        elif ending < 0.999 or label == "L":
            self.say("commit", label)

    def short(self):
        """A transaction of a few writes."""
        self.say("begin", "A")
        writes = self.draw.choice((1, 3, 3, 12))
        for _ in range(writes):
            self.write("A")
        self.end("A", writes)

    def lines(self, count):
        """So many records, in which with the chance `long` one long transaction stands at a time, to which short ones are written beside."""
        writes = 0
        while len(self.told) < count:
            if self.long and not writes and self.draw.random() < self.long:
                self.say("begin", "L")
                left = writes = self.draw.randint(200, max(count // 2, 200))
            if not writes:
                self.short()
                continue
            self.write("L")
            left -= 1
            if self.draw.random() < 0.01:
                self.short()
            if left == 0:
                self.end("L", writes)
                writes = 0
        # (a long transaction that is open here is undone when the session ends)
        return self.told


def backlog(workers, shape, **others):
    return Kind(workers, lambda draw, size: shape(draw).script(draw, size), is_backlog=True, **others)


def is_not_started(draw):
    """A build that is refused at once, while sessions write: its quota is too great, or its columns or its ranges aren't there."""
    quota, ranges, specs = draw.choice([(QUOTA_MOST + 1, None, "n:0"), (64, None, "n:0,n:3"), (64, "3;999999", "n:0"), (64, "9;4", "n:0")])
    return Shape(specs, quota=quota, ranges=ranges, rows=2_000, lines=8_000)


NOT_STARTED = frozenset({"10,BadColumn", "42,BadRanges", "43,BadCount"})
SEVERAL = "n:0,n:0d,n:1;0,n:1"
EIGHT = "n:0,n:0d,n:1,n:1d,n:0;1,n:1;0,n:0d;1,n:1d;0d"
BACKLOGS = {
    "a backlog": backlog(1, lambda draw: Shape("n:0", keys=draw.choice([30, 3000, GREAT]), sessions=draw.choice([1, 2, 3, 4]))),
    "a backlog, four workers": backlog(4, lambda draw: Shape("n:0", sessions=draw.choice([2, 4]), rows=24_000)),
    "a backlog of four indexes": backlog(2, lambda draw: Shape(SEVERAL, columns="int,int", rows=6_000, lines=60_000)),
    "a backlog of eight indexes": backlog(1, lambda draw: Shape(EIGHT, columns="int,int", rows=3_000, lines=50_000, sessions=8)),
    "a backlog of eight sessions": backlog(16, lambda draw: Shape("n:0,n:0d", sessions=8)),
    "a backlog of texts": backlog(2, lambda draw: Shape("n:0;1,n:1", columns="text,int", rows=6_000, lines=60_000)),
    "a backlog of partial indexes": backlog(2, lambda draw: Shape("n:0?1=true,u:0?1~,n:0d", columns="int,flag", lines=80_000)),
    "a backlog that is undone": backlog(1, lambda draw: Shape("n:0,n:0d", undone=0.9, long=draw.choice([0.0, 0.1]))),
    "a backlog of long transactions": backlog(2, lambda draw: Shape("n:0", long=0.2, undone=0.4, sessions=draw.choice([2, 4, 8]))),
    "a backlog, a unique index": backlog(2, lambda draw: Shape("u:0", sessions=draw.choice([2, 4]))),
    "a backlog, a unique index, open transactions": backlog(1, lambda draw: Shape("u:0,n:0", long=0.3, sessions=draw.choice([1, 2, 8]))),
    "a backlog, a unique index that is refused": backlog(2, lambda draw: Shape("n:0,u:0d", first=("7", "7"), keys=draw.choice([3000, GREAT]))),
    "a backlog, spools that are full": backlog(2, lambda draw: Shape("n:0,n:0", quota=draw.randint(0, 50), lines=60_000), faults=NO_PAGE),
    "a backlog, one spool that is full": backlog(4, lambda draw: Shape("n:0", quota=draw.randint(20, 40), rows=24_000, lines=60_000), faults=NO_PAGE),
    "a build that isn't started": backlog(2, is_not_started, faults=NOT_STARTED, is_always_given_up=True),
}
