"""The figures of tables that tools/to_csv wrote: which runs there are, and what each has in a column."""
import csv
import os
from dataclasses import dataclass

from .answers import KIND_OF, KINDS, NoAnswer, figure
from .command import Problem
from .tables import OF_RUN, POINT

# How a run without a report ended.
WITHOUT = ("TOOLONG", "NOSTART", "MEMORY")


@dataclass(frozen=True)
class Point:
    """A run up to one START, as head.csv has it."""

    session: str
    version: int
    scenario: str
    replication: str
    start: str
    seed: str = ""
    outcome: str = "COMPLETE"

    def key(self) -> tuple[str, int, str, str]:
        return self.session, self.version, self.replication, self.start

    def cell(self, title: str) -> str:
        return str(getattr(self, title.lower()))


def read_table(path: str) -> tuple[list[str], list[dict[str, str]]]:
    """The titles and rows of a CSV file."""
    try:
        with open(path, newline="", encoding="utf-8") as file:
            reader = csv.DictReader(file)
            if not reader.fieldnames:
                raise Problem(f"{path} is empty")
            return list(reader.fieldnames), list(reader)
    except (csv.Error, UnicodeDecodeError) as why:
        raise Problem(f"{path} is no CSV: {why}") from None


def point_of(row: dict[str, str], path: str) -> Point:
    try:
        version = int(row["version"])
        return Point(
            row.get("session", "1"), version, row.get("scenario") or f"version {version}", row["replication"],
            row["START"], row.get("seed", ""), row.get("outcome", "COMPLETE"),
        )
    except (KeyError, TypeError, ValueError):
        raise Problem(f"{path} is no table of tools/to_csv: version, replication and START are missing") from None


class Table:
    """A table with its runs, which the head.csv beside it lists; those without a row did not use the entity."""

    def __init__(self, path: str):
        self.path = path
        self.titles, self.rows = read_table(path)
        self.kind = KIND_OF.get(tuple(title for title in self.titles if title not in [*POINT, *OF_RUN]), "")
        head = os.path.join(os.path.dirname(path), "head.csv")
        self.has_head = os.path.exists(head)
        listed = read_table(head)[1] if self.has_head else self.rows
        self.points = {point.key(): point for point in (point_of(row, path) for row in listed)}

    def wants(self, title: str) -> None:
        if title not in self.titles:
            raise Problem(f"no column {title} in {self.path}, but {', '.join(self.titles)}")

    def select(self, wanted: list[tuple[str, str]]) -> tuple[list[Point], list[dict[str, str]]]:
        """The runs and the rows that have the cells which are wanted. A cell of a run chooses runs, any other rows."""
        is_met = lambda cell, value: cell.upper() == value.upper()
        of_run = [it for it in wanted if it[0] in [*POINT, *OF_RUN]]
        for title, _ in wanted:
            if title not in [*POINT, *OF_RUN]:
                self.wants(title)
        points = [it for it in self.points.values() if all(is_met(it.cell(title), value) for title, value in of_run)]
        if not points and of_run:
            cells = lambda title: list(dict.fromkeys(point.cell(title) for point in self.points.values()))
            none = (title for title, value in of_run if not any(is_met(cell, value) for cell in cells(title)))
            title = next(none, of_run[0][0])
            there = cells(title)
            raise Problem(f"no such run: {title} is one of {', '.join(there[:12])}{', ..' if len(there) > 12 else ''}")
        keys = {point.key() for point in points}
        rows = [row for row in self.rows if point_of(row, self.path).key() in keys]
        of_row = [it for it in wanted if it not in of_run]
        found = [row for row in rows if all(is_met(row[title] or "", value) for title, value in of_row)]
        if not found and of_row:
            title = of_row[0][0]
            there = sorted({row[title] or "" for row in self.rows})
            raise Problem(f"no such row: {title} is one of {', '.join(there[:12])}{', ..' if len(there) > 12 else ''}")
        if not found:
            raise Problem("no such row")
        return points, found

    def figures(self, column: str, wanted: list[tuple[str, str]]) -> tuple[list[Point], dict[tuple, float | None]]:
        """The runs that are wanted, and the figure of each in a column; None where a run has none."""
        self.wants(column)
        points, rows = self.select(wanted)
        found: dict[tuple, dict[str, str]] = {}
        for row in rows:
            key = point_of(row, self.path).key()
            if key in found:
                title = KINDS.get(self.kind, self.titles[len(POINT) :])[0]
                names = sorted({it[title] for it in rows})
                raise Problem(f"more than one row of a replication: name one, as {title}={names[0]} does")
            found[key] = row
        try:
            values = {
                point.key(): None if point.outcome in WITHOUT else figure(self.kind, column, found.get(point.key()))
                for point in points
            }
        except NoAnswer as why:
            raise Problem(f"{self.path}: {why}") from None
        return points, values
