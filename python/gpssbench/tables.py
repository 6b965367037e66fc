"""The reports of sessions as tables, one for each kind of section: what tools/to_csv writes."""
import csv
import os
from collections import Counter
from collections.abc import Iterable
from dataclasses import dataclass, field

from .answers import KIND_OF, KINDS, BrokenOff, answers, rows
from .command import Problem
from .script import EDITS, QUERIES, Line

# What each row begins with, and what each row of head.csv has besides.
POINT = ["session", "version", "scenario", "replication", "START"]
OF_RUN = ["seed", "outcome"]
# What a query is answered in place of a report, where a run has none.
NO_REPORT = {"toolong": "TOOLONG", "nostart": "NOSTART", "memory": "MEMORY"}


@dataclass
class Run:
    """A run up to one START: where it belongs, how it ended, and its sections, none where there is no report."""

    session: int
    version: int
    scenario: str
    replication: str
    start: str
    seed: str
    outcome: str
    sections: list = field(default_factory=list)

    def point(self) -> list[str]:
        return [str(self.session), str(self.version), self.scenario, self.replication, self.start]


class Reader:
    """Reads what one session wrote. With its script it knows which runs were asked and what versions are called; without
    one it knows what the answers tell."""

    def __init__(self, session: int = 1, script: list[Line] | None = None, seed: int | None = None):
        self.session, self.script = session, script
        self.version, self.name, self.names = 0, None, {}
        # the replications in the order in which they were added, each with its seed
        self.seeds = {"1": "" if seed is None else str(seed)} if script is not None else {}
        self.orders: dict[int, list[str]] = {}
        self.found: dict[tuple, Run] = {}
        self.untold = 0

    def read(self, written: bytes) -> list[Run]:
        """The runs of a session; where the last answer is broken off, `broken` has why."""
        self.broken = None
        lines = iter([line for line in self.script or [] if line.name or line.plain.strip(" \t")])
        try:
            for first, parts in answers(written):
                self.answer(self.asked(lines), first, parts)
        except BrokenOff as why:
            self.broken = str(why)
        for run in self.found.values():
            run.scenario = self.scenario(run.version)
        return list(self.found.values())

    def scenario(self, version: int) -> str:
        """What a version is called: its name, with a mark where an earlier version has the same."""
        name = self.names.get(version)
        if name is None:
            return f"version {version}"
        return f"{name} (version {version})" if name in (self.names[it] for it in self.names if it < version) else name

    def asked(self, lines) -> list[str]:
        """The words of the line that the next answer is of."""
        for line in lines:
            if line.plain.strip(" \t"):
                words = line.plain.split()
                if words[0] in QUERIES and self.name:
                    self.names[self.version], self.name = self.name, None
                return words
            self.name = line.name
        return []

    def answer(self, asked: list[str], first: str, parts: list) -> None:
        word = first.split(" ")[0]
        fits = {"ok": EDITS, "refused": EDITS, "all": ["all"], "report": ["report", "peek"], "list": ["list"]}.get(word)
        if asked and fits and asked[0] not in fits or word == "report" and asked[1:] not in ([], first.split(" ")[2:4]):
            raise Problem(f"the script is not the one that was answered: `{' '.join(asked)}`, and then `{first}`")
        if word == "ok":
            self.version = int(first.split(" ")[1])
            self.edited(asked)
        elif word == "all":
            self.all(asked, parts)
        elif word == "report":
            self.report(*parts[0])
        elif first in NO_REPORT:
            self.no_report(asked, first)

    def edited(self, asked: list[str]) -> None:
        if asked[:1] in (["replicate"], ["seed"]):
            self.seeds[asked[1]] = asked[2]
        elif asked[:1] == ["drop"]:
            self.seeds.pop(asked[1], None)

    def add(self, run: Run) -> None:
        key = (run.version, run.replication, run.start)
        if key not in self.found or self.found[key].outcome in NO_REPORT.values():
            self.found[key] = run

    def report(self, head: str, text: str) -> None:
        self.version = int(head.split(" ")[1])
        (replication, seed, start, outcome), sections = rows(text)
        self.add(Run(self.session, self.version, "", replication, start, seed, outcome, sections))

    def missing(self, replication: str, start: str, answer: str) -> None:
        if not replication or not start:
            self.untold += 1
            return
        seed = self.seeds.get(replication, "")
        self.add(Run(self.session, self.version, "", replication, start, seed, NO_REPORT[answer]))

    def all(self, asked: list[str], parts: list) -> None:
        """The answers of an `all`: one for each replication, in the order in which they were added."""
        told = [head.split(" ")[2:4] if head.startswith("report ") else None for head, _ in parts]
        start = asked[1] if asked else next((it[1] for it in told if it), "")
        order = list(self.seeds) if self.script is not None else self.order([it and it[0] for it in told])
        for at, (head, text) in enumerate(parts):
            if text:
                self.report(head, text)
            elif head in NO_REPORT:
                self.missing(order[at] if at < len(order) else "", start, head)

    def order(self, told: list[str | None]) -> list[str]:
        """Which replications an `all` without a script is of: as reports tell, here or in another `all` of as many; else
        1, 2, .. where all that are told fit."""
        known = self.orders.setdefault(len(told), [""] * len(told))
        if all(it is None or not old or it == old for it, old in zip(told, known)):
            known[:] = [it or old for it, old in zip(told, known)]
        else:
            known = self.orders[len(told)] = [it or "" for it in told]
        plain = [str(number) for number in range(1, len(told) + 1)]
        fits = all(not it or it == number for it, number in zip(known, plain))
        return plain if fits else known

    def no_report(self, asked: list[str], first: str) -> None:
        if asked[:1] == ["all"]:
            for replication in self.seeds:
                self.missing(replication, asked[1], first)
        elif len(asked) == 3 and asked[0] in QUERIES:
            self.missing(asked[1], asked[2], first)
        elif not asked:
            self.untold += 1


def of_runs(runs: list[Run]) -> dict[str, tuple[list[str], list[list[str]]]]:
    """The titles and the rows of each kind of table."""
    made = {"head": ([*POINT, *OF_RUN, *KINDS["head"]], [])}
    for run in runs:
        if not run.sections:
            made["head"][1].append([*run.point(), run.seed, run.outcome, *[""] * len(KINDS["head"])])
        for titles, cells in run.sections:
            kind = KIND_OF[tuple(titles)]
            front = [*run.point(), run.seed, run.outcome] if kind == "head" else run.point()
            table = made.setdefault(kind, ([*POINT, *titles], []))[1]
            table += [[*front, *row] for row in cells]
    return made


def write(folder: str, made: dict[str, tuple[list[str], list[list[str]]]]) -> None:
    """Writes the tables as CSV, and removes those of an earlier session that are not written anew."""
    os.makedirs(folder, exist_ok=True)
    for kind in KINDS:
        path = os.path.join(folder, kind + ".csv")
        if kind in made:
            titles, table = made[kind]
            with open(path + ".new", "w", newline="", encoding="utf-8") as file:
                csv.writer(file).writerows([titles, *table])
            os.replace(path + ".new", path)
        elif is_ours(path):
            os.remove(path)


def is_ours(path: str) -> bool:
    """Whether a file is a table that `write` wrote, or that the tools wrote before they had sessions."""
    try:
        with open(path, newline="", encoding="utf-8") as file:
            titles = next(csv.reader(file), [])
    except (OSError, UnicodeDecodeError, csv.Error):
        return False
    return titles[:3] in (POINT[:3], ["version", "replication", "START"])


def outcomes(ended: Iterable[str]) -> list[tuple[str, str]]:
    """Each outcome but COMPLETE, with a line on how many runs ended so."""
    listed = list(ended)
    return [(it, f"{it} in {n} of {len(listed)} runs") for it, n in Counter(listed).items() if it != "COMPLETE"]
