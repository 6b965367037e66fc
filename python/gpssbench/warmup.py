"""How long a warm-up must be: Welch's curve, and a cut by MSER-5.

    tools/warmup MODEL MEASURE --every TICKS --until TICKS [--replications N] [--window W] [--seed S] [--csv FILE]

MEASURE is `queue LINE CONT.` or another figure of a report. The model is run once in N replications (8 without
--replications) up to --until, and asked every --every ticks: its STARTs and RESETs are put aside. A content is that of
the moment, an average that of the time since the moment before. For each moment it prints the mean over the
replications and the moving average over W moments on either side (5 without --window); where that no longer rises or
falls, the model is warm. The last line says how much to cut by MSER-5: the cut after which the rest has the least
standard error. With --csv the curve is a table, too."""
import csv

from .answers import figure
from .bench import Bench, Measure, NoReport, Refused, Report
from .command import Problem, Words
from .plan import of_nothing
from .program import Ended
from .stats import estimate, fixed, moving_average, mser

# What an average is over: the time, or a count of the same row.
OVER_TIME = {("facility", "UTIL."), ("queue", "AVE.CONT."), ("storage", "AVE.C."), ("storage", "UTIL.")}
OVER_COUNT = {("facility", "AVE. TIME"): "ENTRIES", ("queue", "AVE.TIME"): "ENTRY", ("table", "MEAN"): "VALUES"}


def weighed(measure: Measure, report: Report) -> tuple[float, float] | None:
    """A measure as a sum and what it is divided by; None where there is no row yet."""
    rows = report.kinds.get(measure.kind, [])
    row = next(filter(measure.is_of, rows), None)
    value = figure(measure.kind, measure.column, row)
    if value is None:
        return None
    key = measure.kind, measure.column
    if key in OVER_TIME:
        time = float(report.head["END TIME"])
        return value * time, time
    if key in OVER_COUNT and row is not None:
        count = float(row[OVER_COUNT[key]])
        return value * count, count
    return value, 0.0


def since(before: tuple[float, float] | None, now: tuple[float, float] | None) -> float | None:
    """The value between two moments."""
    if now is None:
        return None
    if now[1] == 0.0:
        return now[0]
    total, weight = (now[0] - before[0], now[1] - before[1]) if before else now
    return total / weight if weight > 0 else None


def put_aside(bench: Bench) -> None:
    """Leaves one START, which is never complete."""
    commands = [
        (place, text) for place, text in enumerate(bench.list(), 1) if text.split()[0] in ("START", "RESET", "CLEAR")
    ]
    starts = [place for place, text in commands if text.startswith("START")]
    if not starts:
        raise Problem("the model has no START")
    for place, _ in reversed(commands):
        if place != starts[0]:
            bench.delete(place)
    at = next(place for place, text in enumerate(bench.list(), 1) if text.startswith("START"))
    bench.change(at, "START 1000000000")


def curve(model: str, measure: Measure, every: int, until: int, replications: int, seed: int) -> list[list[float | None]]:
    """The values of the replications, moment by moment."""
    with Bench(model, seed=seed) as bench:
        if why := of_nothing(measure, [bench.list()]):
            raise Problem(why)
        put_aside(bench)
        bench.replicate(replications)
        found, before = [], {}
        for moment in range(every, until + 1, every):
            bench.horizon(moment)
            values = []
            for report in bench.reports():
                if report.outcome not in ("HORIZON", "DRY"):
                    raise Problem(f"a run ended {report.outcome} before tick {moment}")
                now = weighed(measure, report)
                values.append(since(before.get(report.replication), now))
                before[report.replication] = now
            found.append(values)
    return found


def main(words: list[str]) -> None:
    read = Words(words, "--every --until --replications --window --seed --csv")
    if len(read.rest) < 2:
        raise Problem("a MODEL and a MEASURE are wanted; --help shows how")
    measure = Measure.read(" ".join(read.rest[1:]))
    every, until = (read.number(name, None, 1, 10**12) for name in ("--every", "--until"))
    if every is None or until is None or until < 10 * every:
        raise Problem("--every and --until are wanted, and at least ten moments up to --until")
    if until // every > 2000:
        raise Problem("more than 2,000 moments: take a greater --every")
    count = read.number("--replications", 8, 1, 32)
    window = read.number("--window", 5, 0, 1000)
    seed = read.number("--seed", 1945846388, 1, 2147483646)
    with open(read.rest[0], "rb"):
        pass  # a file that is not there is bad input
    try:
        values = curve(read.rest[0], measure, every, until, count, seed)
    except Refused as why:
        raise Problem(f"{read.rest[0]} is refused: {why}") from None
    except (NoReport, Ended) as why:
        raise Problem(f"{read.rest[0]}: {why}") from None
    found = [estimate(listed) for listed in values]
    if any(it is None for it in found):
        first = next((at for at, it in enumerate(found) if it is not None), len(found))
        found = found[first:]
        if not found or any(it is None for it in found):
            raise Problem(f"there are moments without a figure of {measure}: take a greater --every")
    else:
        first = 0
    means = [it.mean for it in found]
    smooth = moving_average(means, window)
    rows = [
        [str((first + at + 1) * every), fixed(mean), fixed(smooth[at]) if at < len(smooth) else ""]
        for at, mean in enumerate(means)
    ]
    print(f"{'tick':>12} {'mean':>12} {'moving':>12}")
    for tick, mean, moving in rows:
        print(f"{tick:>12} {mean:>12} {moving:>12}".rstrip())
    if "--csv" in read.options:
        with open(read.options["--csv"], "w", newline="", encoding="utf-8") as file:
            csv.writer(file).writerows([["tick", "mean", "moving"], *rows])
    batch = 5 if len(means) >= 50 else 1
    cut = mser(means, batch)
    name = "MSER-5" if batch == 5 else "MSER"
    if cut + batch > len(means) // 2:
        print(f"no cut by {name} within the first half: run longer, to {2 * until:,} ticks")
    else:
        print(f"cut {(first + cut) * every:,} ticks, by {name} over the mean of {count} replications of {measure}")
