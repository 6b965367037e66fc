"""What a study writes: each run, each scenario's means, and the differences of scenarios."""
import csv
import itertools
import os
from collections.abc import Iterator

from . import codes, statements
from .answers import KINDS, figure
from .bench import Measure
from .stats import Estimate, differences, estimate

# The kinds of sections whose entities each run is asked for, whether it used them or not.
OF_ENTITIES = ("facility", "queue", "storage", "table")
# What a run is left out of the means for: it has no figures, or stopped in an error.
LEFT_OUT = ("TOOLONG", "NOSTART", "MEMORY", "ERROR")


def is_whole(level: str) -> bool:
    """Whether a level of a factor is a whole number, as a column of these has them."""
    return level.removeprefix("-").isdecimal() and len(level) < 19


def row_of(kind: str, cells: list[str]) -> dict[str, str]:
    return dict(zip(KINDS[kind], cells))


def measured(measure: Measure, outcome: str, kept: dict[str, list[list[str]]]) -> float | None:
    """A measure of a run; None where it has no figure."""
    if outcome.startswith(LEFT_OUT):
        return None
    return measure.among(row_of(measure.kind, cells) for cells in kept.get(measure.kind, []))


def short(value: float | None) -> str:
    """A figure as a cell: nothing where there is none, and no more digits than it has."""
    if value is None:
        return ""
    text = f"{value:.6f}".rstrip("0").rstrip(".")
    return "0" if text in ("-0", "") else text


def entities_of(study) -> dict[str, list[str]]:
    """The entities that any run of the study used, by kind."""
    found: dict[str, dict[str, None]] = {kind: {} for kind in OF_ENTITIES}
    for at, cell in enumerate(study.plan.cells):
        for part in study.parts_of(at, study.counts[cell.name]):
            for _, _, _, kept in part["runs"]:
                for kind in OF_ENTITIES:
                    found[kind].update((row[0], None) for row in kept.get(kind, []))
    return {kind: sorted(names) for kind, names in found.items()}


def figures_of(entities: dict[str, list[str]], outcome: str, kept: dict) -> Iterator[tuple[str, str, str, str]]:
    """The figures of a run: its section, entity, column and value."""
    if "head" in kept:
        yield "head", "", "END TIME", row_of("head", kept["head"][0])["END TIME"]
    for kind in OF_ENTITIES:
        rows = {row[0]: row for row in kept.get(kind, [])}
        for name in entities[kind]:
            own = rows.get(name)
            cells = None if own is None else row_of(kind, own)
            for column in KINDS[kind][1:]:
                if not kept:
                    yield kind, name, column, ""
                else:
                    yield kind, name, column, short(figure(kind, column, cells))


def write_rows(folder: str, name: str, titles: list[str], rows) -> None:
    path = os.path.join(folder, name)
    with open(path + ".new", "w", newline="", encoding="utf-8") as file:
        writer = csv.writer(file)
        writer.writerow(titles)
        writer.writerows(rows)
    os.replace(path + ".new", path)


def estimate_cells(found: Estimate | None, of: int) -> list[str]:
    if found is None:
        return ["0", str(of), "", "", "", ""]
    return [str(found.n), str(found.of), *map(short, (found.mean, found.half, found.least, found.greatest))]


def neighbours(study) -> list[tuple[int, int]]:
    """The pairs of scenarios that differ by one step: of one factor, or the one listed before."""
    plan, found = study.plan, []
    for (at, one), (other_at, other) in itertools.combinations(enumerate(plan.cells), 2):
        if not one.levels and not other.levels:
            if not any(not cell.levels for cell in plan.cells[at + 1 : other_at]):
                found.append((at, other_at))
            continue
        if set(one.levels) != set(other.levels):
            continue
        differ = [name for name in one.levels if one.levels[name] != other.levels[name]]
        places = [plan.factors[name].index(levels[name]) for name in differ[:1] for levels in (one.levels, other.levels)]
        if len(differ) == 1 and places[1] - places[0] == 1:
            found.append((at, other_at))
    return found


def pairs_of(study, values: dict[str, list[list[float | None]]]) -> Iterator[list[str]]:
    """The paired differences: each scenario to the base, to its neighbour, and all pairs, by Bonferroni."""
    plan = study.plan
    names = [cell.name for cell in plan.cells]
    base = names.index(plan.base)
    count = len(names)
    kinds = [
        ("base", [(base, at) for at in range(count) if at != base], 1),
        ("neighbour", neighbours(study), 1),
        ("all", list(itertools.combinations(range(count), 2)), count * (count - 1) // 2),
    ]
    for name in plan.measures:
        for kind, pairs, comparisons in kinds:
            for one, other in pairs:
                runs = [dict(enumerate(values[name][at])) for at in (one, other)]
                listed = differences(*runs)
                found = estimate(listed, plan.level, max(1, comparisons))
                cells = estimate_cells(found, len(listed))
                apart = ""
                if found is not None and found.interval:
                    apart = "" if found.interval[0] <= 0 <= found.interval[1] else "yes"
                yield [kind, name, names[other], names[one], *cells, apart]


def write(study, folder: str) -> tuple[int, int, list[str]]:
    """Writes all that a study has to say: how many runs there are, how many failed, and the measures without a figure."""
    plan = study.plan
    factors = list(plan.factors)
    entities = entities_of(study)
    failed: list[list[str]] = []
    runs = 0

    def all_runs() -> Iterator[list[str]]:
        nonlocal runs
        for at, cell in enumerate(plan.cells):
            levels = [cell.levels.get(name, "") for name in factors]
            for part in study.parts_of(at, study.counts[cell.name]):
                for number, seed, outcome, kept in part["runs"]:
                    runs += 1
                    if not plan.is_whole(outcome):
                        failed.append([cell.name, *levels, str(number), str(seed), outcome])
                    front = [cell.name, *levels, str(number), str(seed), outcome]
                    for row in figures_of(entities, outcome, kept):
                        yield [*front, *row]

    front = ["cell", *factors, "replication", "seed", "outcome"]
    write_rows(folder, "runs.csv", [*front, "section", "entity", "column", "value"], all_runs())
    write_rows(folder, "failed.csv", front, failed)
    values = {
        name: [study.values(at, study.counts[cell.name], measure) for at, cell in enumerate(plan.cells)]
        for name, measure in plan.measures.items()
    }
    cells, without = [], []
    for name, measure in plan.measures.items():
        if all(value is None for listed in values[name] for value in listed):
            without.append(name)
        for cell, listed in zip(plan.cells, values[name]):
            levels = [cell.levels.get(it, "") for it in factors]
            cells.append([cell.name, *levels, name, str(measure), *estimate_cells(estimate(listed, plan.level), len(listed))])
    of = ["n", "of", "mean", "half", "least", "greatest"]
    write_rows(folder, "cells.csv", ["cell", *factors, "measure", "figure", *of], cells)
    write_rows(folder, "pairs.csv", ["kind", "measure", "cell", "less", *of, "apart"], pairs_of(study, values))
    titles = ["cell", "place", "LOC", "statement", "entries", "current"]
    write_rows(folder, "statements.csv", titles, statements_of(study))
    write_rows(folder, "classes.csv", ["cell", "TABLE", "ABOVE", "TO", "FREQUENCY"], classes_of(study))
    most = max(study.counts.values())
    write_rows(folder, "seeds.csv", ["replication", "seed"], list(enumerate(study.seeds[:most], 1)))
    with open(os.path.join(folder, "plan.toml"), "w", encoding="utf-8") as file:
        file.write(plan.text)
    with open(os.path.join(folder, "model.gps"), "w", encoding="latin-1", newline="") as file:
        file.write(study.model)
    return runs, len(failed), without


def statements_of(study) -> Iterator[list[str]]:
    """The statements of each scenario, and of blocks how many entered them and stand in them at the end, on average."""
    for at, cell in enumerate(study.plan.cells):
        sums: dict[int, list[int]] = {}
        count = 0
        for part in study.parts_of(at, study.counts[cell.name]):
            count += sum(1 for run in part["runs"] if run[3])
            for position, (_, _, entries, current) in part["blocks"].items():
                own = sums.setdefault(int(position), [0, 0])
                own[0] += entries
                own[1] += current
        position = 0
        for place, (text, it) in enumerate(zip(cell.texts, codes.read(cell.texts)), 1):
            if it.verb not in statements.BLOCKS:
                yield [cell.name, str(place), "", text, "", ""]
                continue
            position += 1
            means = [short(total / count) for total in sums[position]] if position in sums else ["", ""]
            yield [cell.name, str(place), str(position), text, *means]


def classes_of(study) -> Iterator[list[str]]:
    """The classes of each scenario's tables, over all of its runs."""
    for at, cell in enumerate(study.plan.cells):
        sums: dict[str, int] = {}
        for part in study.parts_of(at, study.counts[cell.name]):
            for key, count in part["classes"].items():
                sums[key] = sums.get(key, 0) + count
        for key, count in sums.items():
            name, above, to = key.split(" ")
            yield [cell.name, name, above.strip("_"), to.strip("_"), str(count)]


def write_parquet(folder: str, factors: dict[str, list[str]]) -> None:
    """runs.csv as runs.parquet. Each column has its type from the plan, and not by the rows that come first."""
    import pyarrow
    import pyarrow.csv
    import pyarrow.parquet

    whole, text = pyarrow.int64(), pyarrow.string()
    types = {name: whole if all(map(is_whole, levels)) else text for name, levels in factors.items()}
    types |= dict.fromkeys(("cell", "outcome", "section", "entity", "column"), text)
    types |= {"replication": whole, "seed": whole, "value": pyarrow.float64()}
    options = pyarrow.csv.ConvertOptions(column_types=types)
    table = pyarrow.csv.read_csv(os.path.join(folder, "runs.csv"), convert_options=options)
    pyarrow.parquet.write_table(table, os.path.join(folder, "runs.parquet"))
