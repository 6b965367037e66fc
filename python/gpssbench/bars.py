"""Bar charts of tables in plain text.

    tools/bars [--pool] class.csv [TITLE=VALUE ..]

class.csv is the one that tools/to_csv wrote; `TABLE=WAITS` takes that table, and `version=8`, `scenario=two doctors`,
`replication=2` or `START=2` the runs of one of these. For each table and report it writes a line for each class: its
limits, how many values lie in it, the percentage up to its upper limit, and a bar, of which the longest has 40 marks. A
class with few values has a mark at least.

With --pool the values of all replications, and of all sessions, are one histogram for each scenario and START."""
from itertools import groupby

from .command import Problem, Words, warn
from .figures import Table, point_of
from .intervals import once, warn_of

LONGEST = 40


def chart(rows: list[dict[str, str]]):
    """The lines of a table's classes."""
    most = max(int(row["FREQUENCY"]) for row in rows)
    for row in rows:
        count = int(row["FREQUENCY"])
        limits = f"{row['ABOVE'] or '_'} - {row['TO'] or '_'}"
        bar = "#" * (max(1, count * LONGEST // most) if count else 0)
        yield f"{limits:>25} {count:>9} {row['CUM.%']:>7} {bar}".rstrip()


def pooled(charts: list[list[dict[str, str]]]) -> list[dict[str, str]]:
    """The classes of several runs as one: counts add up, and the percentages are of the sum, cut off as a report's."""
    limits = [[(row["ABOVE"], row["TO"]) for row in rows] for rows in charts]
    if any(it != limits[0] for it in limits):
        raise Problem("the classes of the runs differ: take one version or session")
    counts = [sum(int(rows[at]["FREQUENCY"]) for rows in charts) for at in range(len(limits[0]))]
    total, sofar, found = sum(counts), 0, []
    for (above, to), count in zip(limits[0], counts):
        sofar += count
        thousandths = sofar * 100_000 // total if total else 0
        share = f"{thousandths // 1000}.{thousandths % 1000:03}"
        found.append({"ABOVE": above, "TO": to, "FREQUENCY": str(count), "CUM.%": share})
    return found


def main(words: list[str]) -> None:
    read = Words(words, flags="--pool --with-errors")
    if not read.rest:
        raise Problem("a class.csv is wanted; --help shows how")
    path, *rest = read.rest
    table = Table(path)
    for title in ("TABLE", "ABOVE", "TO", "FREQUENCY", "CUM.%"):
        table.wants(title)
    points, rows = table.select([word.partition("=")[::2] for word in rest])
    keyed = [(point_of(row, path), row) for row in rows]
    charts = [
        (name, point, [row for _, row in group])
        for (name, point), group in groupby(keyed, lambda it: (it[1]["TABLE"], it[0]))
    ]
    if "--pool" not in read.flags:
        several = len({point.session for _, point, _ in charts}) > 1
        for name, point, classes in charts:
            session = f"session {point.session}, " if several else ""
            print(f"{name}, {session}{point.scenario}, replication {point.replication}, START {point.start}")
            print("\n".join(chart(classes)))
        return
    warn_of(points, "--with-errors" in read.flags)
    if "--with-errors" not in read.flags:
        points = [point for point in points if not point.outcome.startswith("ERROR")]
    made = {(name, point.key()): classes for name, point, classes in charts}
    for name in dict.fromkeys(name for name, _, _ in charts):
        values = {it.key(): str(made.get((name, it.key()))) for it in points}
        groups: dict[tuple, list] = {}
        for point in once(points, values):
            groups.setdefault((point.start, point.scenario), []).append(made.get((name, point.key()), []))
        for (start, scenario), runs in groups.items():
            filled = [classes for classes in runs if classes]
            if filled:
                without = f", {len(runs) - len(filled)} of them without values" if len(filled) < len(runs) else ""
                print(f"{name}, {scenario}, {len(runs)} runs{without}, START {start}")
                print("\n".join(chart(pooled(filled))))
