"""A model that is kept open: edits, replications and reports as Python has them.

    from gpssbench import Bench

    with Bench("clinic.gps", seed=1945846388) as bench:
        bench.replicate(8)
        base = bench.reports()
        bench.capacity("Docs", 4)
        more = bench.reports()
        print(more.queues["LINE"].ave_time)
        print(more.compare(base, "queue LINE AVE.TIME"))
"""
import html
import re
from collections.abc import Callable, Iterable, Iterator, Sequence
from dataclasses import dataclass

from . import codes, script
from .answers import KIND_OF, KINDS, figure, rows
from .command import Problem
from .program import Ended, Model, Session
from .seeds import RECOMMENDED
from .stats import Estimate, differences, estimate, fixed

# What stands in front of a row of a report where it stands alone, and the columns that hold names.
FRONT = ["version", "replication", "seed", "outcome"]
ENTITIES = ["NAME", "LABEL", "FACILITY", "QUEUE", "STORAGE", "TABLE"]
# The columns that hold no figure.
NO_NUMBERS = ("BLOCK TYPE", "ABOVE", "TO")
PLURALS = {"facilities": "facility", "queues": "queue", "storages": "storage", "tables": "table", "blocks": "block"}


class Refused(Exception):
    """An edit that the program refused: its codes (`E3 M2`) and sentences on what is wrong and what to do."""

    def __init__(self, code: str, sentence: str):
        # the sentence of a code that has no line of its own begins with it
        begins = re.fullmatch(r"(?:\? n \w+|[A-Z]\d+(?: \d+)?): (.*)", sentence, re.DOTALL)
        super().__init__(f"{code}: {begins[1] if begins else sentence}")
        self.code, self.sentence = code, sentence


class NoReport(Exception):
    """A query that has no report: its answer, and what it means."""

    answer = ""

    def __init__(self):
        self.sentence = ". ".join(codes.meaning(self.answer))
        super().__init__(f"{self.answer}: {self.sentence}")


class TooLong(NoReport):
    """The step limit comes before the end of the START."""

    answer = "toolong"


class NoStart(NoReport):
    """There is no such START, or the run ends before it."""

    answer = "nostart"


class NoReplication(NoReport):
    """There is no such replication."""

    answer = "noreplication"


class NoMemory(NoReport):
    """The system refused memory."""

    answer = "memory"


NO_REPORT = {it.answer: it for it in (TooLong, NoStart, NoReplication, NoMemory)}


def column_name(title: str) -> str:
    """A column's name as Python has it: AVE.TIME is ave_time, ENTRY(0) is entry_0, AVE.(-0) is ave_0, CUM.% is cum."""
    return re.sub(r"[^a-z0-9]+", "_", title.lower()).strip("_")


def value_of(cell: str) -> int | float | str | None:
    """A cell as a number where it is one; None where it is empty."""
    if re.fullmatch(r"-?\d+", cell):
        return int(cell)
    if re.fullmatch(r"-?\d+\.\d+", cell):
        return float(cell)
    return cell or None


@dataclass(frozen=True)
class Measure:
    """What is measured: a kind of section, an entity of it, and a column; `queue LINE AVE.TIME`, `head END TIME`,
    `class WAITS 300 CUM.%`, the values up to 300."""

    kind: str
    entity: str
    column: str
    limit: str = ""

    @classmethod
    def read(cls, text: str) -> "Measure":
        words = text.split()
        kind = words[0].lower() if words else ""
        if kind not in KINDS or kind in ("name", "current", "future"):
            kinds = ", ".join(it for it in KINDS if it not in ("name", "current", "future"))
            raise Problem(f"`{text}` is no measure: it begins with one of {kinds}")
        own = 0 if kind == "head" else 2 if kind == "class" else 1
        if len(words) < own + 2:
            raise Problem(f"`{text}` is no measure: written as `queue LINE AVE.TIME`, `head END TIME` or `class WAITS 300 CUM.%`")
        entity = words[1].upper() if own else ""
        wanted = "".join(words[own + 1 :]).upper()
        columns = [it for it in KINDS[kind][own > 0 :] if it not in NO_NUMBERS]
        column = next((it for it in columns if it.replace(" ", "").upper() == wanted), None)
        if column is None:
            raise Problem(f"`{text}`: a {kind} has no column {' '.join(words[own + 1 :])}, but {', '.join(columns)}")
        return cls(kind, entity, column, words[2] if own == 2 else "")

    def __str__(self) -> str:
        return " ".join(it for it in (self.kind, self.entity, self.limit, self.column) if it)

    def is_of(self, row: dict[str, str]) -> bool:
        """Whether a row of the kind is of the entity."""
        if self.kind == "class":
            return row["TABLE"] == self.entity and row["TO"] == self.limit
        if self.kind == "block":
            return self.entity in (row["LABEL"], row["LOC"])
        return self.kind == "head" or row[KINDS[self.kind][0]] == self.entity

    def among(self, rows: Iterable[dict[str, str]]) -> float | None:
        """The measure among the rows of its kind; None where the run has no figure."""
        return figure(self.kind, self.column, next(filter(self.is_of, rows), None))

    def of(self, report: "Report") -> float | None:
        """The measure in a report; None where the run has no figure."""
        rows = report.kinds.get(self.kind, [])
        if self.kind == "class" and not any(map(self.is_of, rows)):
            if limits := [row["TO"] for row in rows if row["TABLE"] == self.entity and row["TO"]]:
                raise Problem(f"no class of {self.entity} goes up to {self.limit}, but to {', '.join(limits)}")
        return self.among(rows)


class Row:
    """A row of a report: `row.ave_time`, or `row["AVE.TIME"]`."""

    def __init__(self, cells: dict[str, str]):
        self.cells = cells
        self.names = {column_name(title): title for title in cells}

    def __getattr__(self, name: str):
        names = self.__dict__.get("names", {})
        if name in names:
            return value_of(self.cells[names[name]])
        raise AttributeError(f"no column {name}, but {', '.join(names)}")

    def __getitem__(self, title: str):
        return value_of(self.cells[title])

    def __repr__(self) -> str:
        return f"Row({', '.join(f'{name}={value_of(self.cells[title])!r}' for name, title in self.names.items())})"


class Report:
    """A report: its text, who it is of, and its sections as rows."""

    def __init__(self, text: str, version: int = 0):
        self.text, self.version = text, version
        (replication, seed, start, self.outcome), sections = rows(text)
        self.replication, self.seed, self.start = int(replication), int(seed), int(start)
        self.kinds = {KIND_OF[tuple(titles)]: [dict(zip(titles, row)) for row in cells] for titles, cells in sections}

    def of_kind(self, kind: str) -> dict[str, Row]:
        return {row[KINDS[kind][0]] or row["LOC"]: Row(row) for row in self.kinds.get(kind, [])}

    def __getattr__(self, name: str) -> dict[str, Row]:
        if name in PLURALS:
            return self.of_kind(PLURALS[name])
        raise AttributeError(name)

    @property
    def head(self) -> Row:
        return Row(self.kinds["head"][0])

    def measure(self, text: str) -> float | None:
        """A measure, as `queue LINE AVE.TIME`."""
        return Measure.read(text).of(self)

    def __repr__(self) -> str:
        return f"<Report of replication {self.replication}, START {self.start}: {self.outcome}>"

    def _repr_html_(self) -> str:
        parts = [f"<p>Replication {self.replication}, seed {self.seed}, START {self.start}: {html.escape(self.outcome)}</p>"]
        for kind, listed in self.kinds.items():
            if listed:
                parts.append(html_table(list(listed[0]), [list(row.values()) for row in listed]))
        return "\n".join(parts)


def html_table(titles: Sequence[str], cells: Sequence[Sequence[str]]) -> str:
    """A table of HTML, in which nothing of a model is read as HTML."""
    row = lambda tag, values: "<tr>" + "".join(f"<{tag}>{html.escape(str(it))}</{tag}>" for it in values) + "</tr>"
    body = "".join(row("td", values) for values in cells)
    return f"<table><thead>{row('th', titles)}</thead><tbody>{body}</tbody></table>"


class Values(list):
    """One number a replication, None where a run has no figure."""

    def estimate(self, level: float = 0.95) -> Estimate | None:
        return estimate(self, level)

    @property
    def mean(self) -> float | None:
        found = estimate(self)
        return found and found.mean

    @property
    def half_width(self) -> float | None:
        found = estimate(self)
        return found and found.half


class Column:
    """An entity over all replications: `reports.queues["LINE"].ave_time`."""

    def __init__(self, reports: "Reports", kind: str, entity: str):
        self.reports, self.kind, self.entity = reports, kind, entity
        self.names = {column_name(title): title for title in KINDS[kind]}

    def __getitem__(self, title: str) -> Values:
        return self.reports.values(Measure(self.kind, self.entity, title))

    def __getattr__(self, name: str) -> Values:
        names = self.__dict__.get("names", {})
        if name in names:
            return self[names[name]]
        raise AttributeError(f"no column {name}, but {', '.join(names)}")


class OfKind:
    """The entities of a kind over all replications."""

    def __init__(self, reports: "Reports", kind: str):
        self.reports, self.kind = reports, kind

    def __iter__(self) -> Iterator[str]:
        return iter(dict.fromkeys(name for report in self.reports for name in report.of_kind(self.kind)))

    def __getitem__(self, entity: str) -> Column:
        if entity.upper() not in list(self):
            known = ", ".join(self)
            raise KeyError(f"no {self.kind} {entity}{', but ' + known if known else ': the runs used none'}")
        return Column(self.reports, self.kind, entity.upper())


class Reports(list):
    """The reports of all replications of one version, with what has none in `missing`."""

    def __init__(self, reports: Sequence[Report], missing: dict[int, str] | None = None, name: str = ""):
        super().__init__(reports)
        self.missing, self.name = missing or {}, name

    def __getattr__(self, name: str) -> OfKind:
        if name in PLURALS:
            return OfKind(self, PLURALS[name])
        raise AttributeError(name)

    def values(self, measure: Measure | str) -> Values:
        """One number a replication."""
        wanted = Measure.read(measure) if isinstance(measure, str) else measure
        return Values(wanted.of(report) for report in self)

    def estimate(self, measure: Measure | str, level: float = 0.95) -> Estimate | None:
        return estimate(self.values(measure), level)

    def compare(self, base: "Reports", measure: Measure | str, level: float = 0.95) -> Estimate | None:
        """The mean of the paired differences, this less the base, over the replications that both have."""
        wanted = Measure.read(measure) if isinstance(measure, str) else measure
        by_run = lambda reports: {report.replication: wanted.of(report) for report in reports}
        return estimate(differences(by_run(base), by_run(self)), level)

    def rows(self, kind: str) -> list[dict[str, object]]:
        """The rows of a kind of section, each with its replication. Names of entities are text, also where they are `2`."""
        if kind not in KINDS:
            raise Problem(f"no kind {kind}, but {', '.join(KINDS)}")
        front = lambda it: dict(zip(FRONT, (it.version, it.replication, it.seed, it.outcome)))
        value = lambda title, cell: cell or None if title in ENTITIES else value_of(cell)
        return [
            {**front(report), **{title: value(title, cell) for title, cell in row.items()}}
            for report in self
            for row in report.kinds.get(kind, [])
        ]

    def frame(self, kind: str):
        """The same as a pandas DataFrame, where pandas is there."""
        try:
            import pandas
        except ImportError:
            raise Problem("pandas is not here; rows() has the same as a list") from None
        return pandas.DataFrame(self.rows(kind), columns=[*FRONT, *KINDS.get(kind, [])])

    def _repr_html_(self) -> str:
        titles = ["entity", "column", "n", "mean", "half-width", "least", "greatest"]
        cells = []
        for kind in ("facility", "queue", "storage", "table"):
            for entity in OfKind(self, kind):
                for column in KINDS[kind][1:]:
                    found = self.estimate(Measure(kind, entity, column))
                    if found is not None and found.greatest != found.least:
                        half = "" if found.half is None else fixed(found.half)
                        bounds = fixed(found.least), fixed(found.greatest)
                        cells.append([f"{kind} {entity}", column, found.n, fixed(found.mean), half, *bounds])
        return html_table(titles, cells)


def after(line: str, texts: list[str]) -> list[str]:
    """What the statements would be after an edit."""
    word, place, *text = line.split(" ", 2)
    if word not in ("insert", "delete", "change"):
        return texts
    at = int(place) - 1
    return texts[:at] + text + texts[at + (word != "insert") :]


def explained(end: Ended) -> Ended:
    """The end of a session, with what its code means."""
    stop = re.match(r"stopped: (F\d)", end.told)
    return Ended(f"{end.told}: {codes.meaning(stop[1])[0]}", end.status) if stop else end


class Bench:
    """A session that is kept open over one model."""

    def __init__(
        self, model: str, seed: int | None = None, horizon: int | None = None, every: int | None = None,
        limit: int | None = None, text: str | None = None, workers: int | None = None,
    ):
        """Opens the model of a file; with `text` that of a text, and `model` is its name alone. With `workers` so many
        threads simulate all replications meanwhile."""
        self.model = Model(model, b"") if text is None else Model("-", text.encode("latin-1").rstrip(b"\n") + b"\n")
        self.words = [
            word
            for name, value in (
                ("--seed", seed), ("--horizon", horizon), ("--every", every), ("--limit", limit), ("--workers", workers),
            )
            if value is not None
            for word in (name, str(value))
        ]
        self.version, self.script = 0, []
        self.replications = {1: seed or 1}
        self.session = Session(self.model, self.words)

    # ---- a line and its answer

    def ask(self, line: str) -> tuple[str, list]:
        """The answer to a script's line, as the program has it. A refused model is reported at the first one."""
        if "\n" in line or any(ord(it) > 255 for it in line):
            raise Problem("a line of a script is one line of plain letters, digits and signs")
        try:
            return self.session.ask(line)
        except Ended as end:
            raise self.model_refused(end) or explained(end) from None

    def model_refused(self, end: Ended) -> Refused | None:
        told = re.fullmatch(r"model refused: (.*)", end.told.split("\n")[0])
        if told is None:
            return None
        lines = (Model.read(self.model.path) if self.model.path != "-" else self.model).lines()
        if line := re.fullmatch(r"line (\d+) (L\d.*)", told[1]):
            return Refused(f"line {line[1]} {line[2]}", " ".join(codes.line_fault(line[2], lines[int(line[1]) - 1])))
        return Refused(told[1], " ".join(codes.model_fault(told[1], [text for _, text in codes.joined(lines)])))

    def edit(self, line: str) -> int:
        """Makes an edit, with places by label or text where one likes; the version that it makes. `Refused` else."""
        if script.is_by_place(line):
            line = script.resolved(line, self.list())
        first, _ = self.ask(line)
        if not first.startswith("ok "):
            raise self.refused(line, first)
        self.version += 1
        self.script.append(line)
        return self.version

    def refused(self, line: str, first: str) -> Refused:
        told = first.removeprefix("refused ")
        code, _, rest = told.partition(" ")
        if first.startswith("? "):
            return Refused(first, " ".join(codes.script_fault(first, line)))
        if rest.startswith("L") and not line.startswith("capacity"):
            return Refused(told, " ".join(codes.line_fault(rest, line.split(" ", 2)[2])))
        if rest.startswith("M"):
            return Refused(told, " ".join(codes.model_fault(rest, after(line, self.list()))))
        return Refused(told, " ".join(codes.edit_fault(code, line, self.list())))

    # ---- edits

    def change(self, place: int | str, text: str) -> int:
        """Replaces the statement at a place, a number or `@Label` or `@/text/`."""
        return self.edit(f"change {place} {text}")

    def insert(self, place: int | str, text: str) -> int:
        """Inserts a statement at a place, a number, `before @Label` or `after @Label`."""
        return self.edit(f"insert {place} {text}")

    def delete(self, place: int | str) -> int:
        return self.edit(f"delete {place}")

    def capacity(self, name: str, units: int) -> int:
        return self.edit(f"capacity {name} {units}")

    def horizon(self, tick: int) -> int:
        return self.edit(f"horizon {tick}")

    def seed(self, replication: int, seed: int) -> int:
        version = self.edit(f"seed {replication} {seed}")
        self.replications[replication] = seed
        return version

    def replicate(self, count: int, seeds: Sequence[int] | None = None) -> None:
        """Adds replications until there are `count`, with seeds from the recommended list, or with those that are given."""
        left = [it for it in (seeds or RECOMMENDED) if it not in self.replications.values()]
        while len(self.replications) < count:
            if not left:
                raise Problem(f"there are seeds for {len(self.replications)} replications, and not for {count}")
            number = max(self.replications) + 1
            self.edit(f"replicate {number} {left[0]}")
            self.replications[number] = left.pop(0)

    def drop(self, replication: int) -> int:
        version = self.edit(f"drop {replication}")
        self.replications.pop(replication, None)
        return version

    # ---- questions

    def list(self) -> "list[str]":
        """The statements as they are now, without their places."""
        return [line.partition(" ")[2] for line in self.ask("list")[1]]

    def report(self, replication: int = 1, start: int = 1) -> Report:
        first, parts = self.ask(f"report {replication} {start}")
        if first in NO_REPORT:
            raise NO_REPORT[first]()
        return Report(parts[0][1], self.version)

    def peek(self, replication: int = 1, start: int = 1) -> Report | int:
        """The report as far as the recorded steps decide it; else how many steps there are."""
        first, parts = self.ask(f"peek {replication} {start}")
        if first.startswith("unfinished "):
            return int(first.split(" ")[1])
        if first in NO_REPORT:
            raise NO_REPORT[first]()
        return Report(parts[0][1], self.version)

    def reports(self, start: int = 1, name: str = "", each: Callable[[int], None] | None = None) -> Reports:
        """The reports of all replications. Where some have none, `missing` says why; where none has, that is raised.
        `each` is called with how many are done."""
        found, missing = [], {}
        for done, replication in enumerate(self.replications, 1):
            try:
                found.append(self.report(replication, start))
            except NoReport as why:
                missing[replication] = why.answer
            if each:
                each(done)
        if missing and not found:
            raise NO_REPORT[next(iter(missing.values()))]()
        return Reports(found, missing, name)

    def close(self) -> None:
        self.session.close()

    def __enter__(self) -> "Bench":
        return self

    def __exit__(self, *_) -> None:
        self.close()
