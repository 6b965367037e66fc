"""Means with their intervals over replications.

    tools/intervals [--level 95] [--batches FIRST] [--with-errors] FILE.csv COLUMN [TITLE=VALUE ..]

FILE.csv is one that tools/to_csv wrote, COLUMN one of its titles; `QUEUE=LINE` takes the rows whose QUEUE is LINE, and
`version=8`, `scenario=two doctors`, `session=1` or `START=2` the runs of one of these. For each scenario and START it
shows over how many replications the mean is taken, the mean, and its interval (by Student's t; the half of its width is
the half-width). Where there are several scenarios, it shows the paired difference of each to the first, replication by
replication, over those that both have.

The head.csv beside FILE.csv says which runs there are. One that did not use the entity counts with 0 for contents,
counts and utilizations, and with nothing for times and means: `of 17 of 32` says that 17 of 32 runs have a figure. Runs
that ended in an ERROR are left out without --with-errors. Several sessions are pooled; a seed that two of them share
counts once.

Without --batches, means are over replications, START by START. With `--batches FIRST` each START from FIRST on is a
batch, and means are over the batches of all replications."""
from .command import Problem, Words, warn
from .figures import WITHOUT, Point, Table
from .stats import Estimate, differences, estimate, fixed
from .tables import outcomes

WIDTH = 16


def line(what: str, start: str, found: Estimate, width: int = WIDTH) -> str:
    """A line on some values: their number, mean and interval."""
    text = f"{what:<{width}} {start:>5} {found.n:>4} {fixed(found.mean):>14}"
    if found.interval:
        text += "".join(f" {fixed(bound):>14}" for bound in found.interval)
    return text + (f"  of {found.n} of {found.of}" if found.n < found.of else "")


def warn_of(points: list[Point], with_errors: bool) -> None:
    """A line for each way in which runs ended but for COMPLETE."""
    for outcome, text in outcomes(point.outcome for point in points):
        if outcome == "TOOLONG":
            text += ": they have no figures; the long runs are the missing ones, so means may be far off"
        elif outcome in WITHOUT:
            text += ": they have no figures"
        elif outcome.startswith("ERROR") and not with_errors:
            text += ": left out (--with-errors takes them in)"
        warn(text)


def once(points: list[Point], values: dict) -> list[Point]:
    """The runs without those that an earlier session has, too: same seed, same figure. With another figure they are runs
    of another model, which one cannot pool."""
    first: dict[tuple, Point] = {}
    kept = []
    for point in points:
        other = first.setdefault((point.scenario, point.start, point.seed), point) if point.seed else point
        if other.session == point.session:
            kept.append(point)
        elif values[other.key()] != values[point.key()]:
            both = f"sessions {other.session} and {point.session}"
            raise Problem(f"{both} have the seed {point.seed} and other figures: one model? Take one, as session=1 does")
    if len(kept) < len(points):
        warn(f"{len(points) - len(kept)} runs are in two sessions, with the same seed: they count once")
    return kept


def main(words: list[str]) -> None:
    read = Words(words, "--batches --level", "--with-errors")
    if len(read.rest) < 2:
        raise Problem("a FILE.csv and a COLUMN are wanted; --help shows how")
    batches, level = read.number("--batches", None, 1, 10**9), read.level()
    path, column, *rest = read.rest
    if not all("=" in word for word in rest):
        raise Problem(f"`{next(word for word in rest if '=' not in word)}`: write what is wanted as QUEUE=LINE")
    table = Table(path)
    if not table.has_head:
        warn(f"no head.csv beside {path}: runs without a row in it are not known")
    points, values = table.figures(column, [word.partition("=")[::2] for word in rest])
    points = [point for point in points if batches is None or point.start == "" or int(point.start) >= batches]
    warn_of(points, "--with-errors" in read.flags)
    if "--with-errors" not in read.flags:
        points = [point for point in points if not point.outcome.startswith("ERROR")]
    groups: dict[str, dict[str, dict]] = {}
    for point in once(points, values):
        start = point.start if batches is None else str(batches)
        run = (point.session, point.replication, point.start if batches is not None else "")
        groups.setdefault(start, {}).setdefault(point.scenario, {})[run] = values[point.key()]
    if not groups:
        raise Problem("no such run")
    short = {name: name.removeprefix("version ") for scenarios in groups.values() for name in scenarios}
    lines = [(f"{column}", "START", "n", "mean", "from", "to")]
    shown = []
    for start in sorted(groups, key=lambda it: int(it or 0)):
        scenarios = groups[start]
        base = next(iter(scenarios))
        shown += [(name, start, list(runs.values())) for name, runs in scenarios.items()]
        for name in list(scenarios)[1:]:
            names = short[name], short[base]
            if not (names[0].isdecimal() and names[1].isdecimal()):
                names = name, base
            shown.append((f"{names[0]} less {names[1]}", start, differences(scenarios[base], scenarios[name])))
    width = max(WIDTH, *(len(what) for what, _, _ in shown))
    what, start, n, *rest = lines[0]
    print(f"{what:<{width}} {start:>5} {n:>4} " + " ".join(f"{it:>14}" for it in rest))
    for what, start, runs in shown:
        found = estimate(runs, level)
        if found is not None:
            print(line(what, start, found, width))
        elif runs:
            print(f"{what:<{width}} {start:>5} {0:>4}  of 0 of {len(runs)}")
