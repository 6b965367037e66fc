"""Runs a study: scenarios over common random numbers, as a plan says.

    tools/study PLAN.toml [--to DIR] [--jobs N] [--on tcp://HOST:8786] [--resume] [--parquet]

The plan names a model, what is varied (factors and alternatives), what is measured, and how many replications there are
or which precision is wanted; docs/studies.md has each key. All scenarios run with the same seeds, so that their
differences are paired. Any number of replications and scenarios is cut into sessions of 32, which run on N processes
(all cores without --jobs), or with --on on the workers of a dask cluster. What is written is the same, byte for byte,
wherever it ran.

Into DIR (`study` without --to) it writes runs.csv (each figure of each run in a row of its own), cells.csv (each measure
of each scenario: its mean, half-width, least and greatest), pairs.csv (paired differences to the base, to the neighbour,
and of all pairs, by Bonferroni), failed.csv, seeds.csv, statements.csv, classes.csv, model.gps and plan.toml; with
--parquet runs.parquet, too. A study that was stopped goes on with --resume.

Status 0: all is well. 1: a run did not end as it should (failed.csv has it), or the precision was not reached. 2: bad
input, which is found before anything runs where that is possible."""
import hashlib
import json
import math
import os
import shutil
import sys
import time
from collections import Counter
from collections.abc import Callable, Iterable

from . import results
from .bench import Measure
from .command import Problem, Words, warn, with_packages
from .engine import MOST, engine
from .plan import Cell, Plan, draws_of, prepare, read, streams_of
from .seeds import PERIOD, RECOMMENDED, far_apart, least_gap
from .stats import estimate

# How far streams are kept apart, the greatest first; the seeds must leave nine tenths of the generator free.
DRAWS = (1_000_000, 500_000, 200_000, 100_000, 50_000, 20_000, 10_000, 5_000, 2_000, 1_000)
# Of streams of which a run draws fewer numbers, the first draws matter.
FEW = 10


class Progress:
    """A line on standard error while that is a terminal: how many cells are done, how long it took and how long it may take
    yet. A cell is done with its last session, and the time to go is by sessions."""

    def __init__(self, cells: int, sessions: Iterable[str]):
        self.cells, self.left = cells, Counter(sessions)
        self.of, self.done, self.began, self.shown = self.left.total(), 0, time.monotonic(), 0.0
        self.is_shown = sys.stderr.isatty()

    def step(self, cell: str) -> None:
        """A session of a cell is done."""
        self.done += 1
        self.left -= Counter([cell])
        now = time.monotonic()
        if self.is_shown and (now - self.shown > 0.2 or self.done == self.of):
            took = now - self.began
            to_go = took / self.done * (self.of - self.done)
            cells = f"{self.cells - len(self.left)}/{self.cells} cells"
            print(f"\r{cells}  {took:.0f} s, {to_go:.0f} s to go  ", end="", file=sys.stderr, flush=True)
            self.shown = now

    def end(self) -> None:
        if self.is_shown:
            print("\r\x1b[K", end="", file=sys.stderr, flush=True)


class Parts:
    """The chunks that are done, a file each, so that a study that was stopped goes on."""

    def __init__(self, folder: str, key: str, goes_on: bool):
        self.folder = os.path.join(folder, "parts")
        os.makedirs(self.folder, exist_ok=True)
        mark = os.path.join(self.folder, "key")
        if os.path.exists(mark):
            with open(mark) as file:
                same = file.read().strip() == key
            if not goes_on:
                raise Problem(f"{self.folder} is of a study that was stopped: --resume goes on with it; or remove it")
            if not same:
                raise Problem(f"{self.folder} is of another plan or model: remove it, and begin anew")
        else:
            with open(mark, "w") as file:
                file.write(key + "\n")

    def path(self, cell: int, first: int) -> str:
        return os.path.join(self.folder, f"{cell}-{first}.json")

    def has(self, cell: int, first: int) -> bool:
        return os.path.exists(self.path(cell, first))

    def put(self, cell: int, part: dict) -> None:
        path = self.path(cell, part["first"])
        with open(path + ".new", "w") as file:
            file.write(json.dumps(part, separators=(",", ":")))
        os.replace(path + ".new", path)

    def get(self, cell: int, first: int) -> dict:
        with open(self.path(cell, first)) as file:
            return json.load(file)


class Study:
    def __init__(self, plan: Plan, model: str, folder: str, run: Callable, goes_on: bool):
        self.plan, self.model, self.folder, self.run = plan, model, folder, run
        most = plan.most if plan.precision is not None else plan.replications
        self.streams = streams_of(plan.cells[0].texts)
        self.seeds, self.gap = self.choose(most)
        key = hashlib.sha256(f"{plan.text}\0{model}".encode()).hexdigest()
        self.parts = Parts(folder, key, goes_on)
        self.counts = {cell.name: 0 for cell in plan.cells}

    def choose(self, count: int) -> tuple[list[int], int]:
        """Seeds for so many replications, and how far apart all their streams are."""
        if self.plan.draws is not None:
            seeds = far_apart(count, self.plan.draws, self.streams)
        elif count <= len(RECOMMENDED) and least_gap(RECOMMENDED[:count], self.streams) >= DRAWS[0]:
            seeds = list(RECOMMENDED[:count])
        else:
            draws = next((it for it in DRAWS if it * 7 * count <= PERIOD // 10), DRAWS[-1])
            seeds = far_apart(count, draws, self.streams)
        return seeds, least_gap(seeds, self.streams)

    def chunks(self, wanted: dict[str, int]) -> list[dict]:
        """The sessions that are still to run, for so many replications of each scenario."""
        found = []
        measured = sorted({measure.kind for measure in self.plan.measures.values()})
        for at, cell in enumerate(self.plan.cells):
            for first in range(0, wanted[cell.name], MOST):
                if not self.parts.has(at, first):
                    numbers = range(first, min(first + MOST, wanted[cell.name]))
                    found.append({
                        "cell": cell.name, "at": at, "first": first, "model": self.model, "edits": cell.plain,
                        "seeds": [[number + 1, self.seeds[number]] for number in numbers], "start": self.plan.start,
                        "words": self.plan.words(), "measured": measured,
                    })
        return found

    def make(self, wanted: dict[str, int]) -> None:
        """Runs what is not there yet."""
        chunks = self.chunks(wanted)
        places = {cell.name: at for at, cell in enumerate(self.plan.cells)}
        progress = Progress(len(self.plan.cells), (chunk["cell"] for chunk in chunks))
        try:
            for part in self.run(chunks):
                self.parts.put(places[part["cell"]], part)
                progress.step(part["cell"])
        finally:
            progress.end()
        self.counts = dict(wanted)

    def parts_of(self, at: int, count: int):
        for first in range(0, count, MOST):
            yield self.parts.get(at, first)

    def values(self, at: int, count: int, measure: Measure) -> list[float | None]:
        return [
            results.measured(measure, outcome, kept)
            for part in self.parts_of(at, count)
            for _, _, outcome, kept in part["runs"]
        ]

    def until_precise(self) -> list[str]:
        """Adds replications until each half-width is the wanted share of its mean; the scenarios in which none is."""
        plan = self.plan
        wanted = {cell.name: plan.replications for cell in plan.cells}
        while True:
            self.make(wanted)
            further, short = dict(wanted), []
            for at, cell in enumerate(plan.cells):
                need = 0
                for measure in plan.measures.values():
                    found = estimate(self.values(at, wanted[cell.name], measure), plan.level)
                    if found is None or found.half is None or found.half <= plan.precision * abs(found.mean):
                        continue
                    share = found.half / (plan.precision * abs(found.mean)) if found.mean else math.inf
                    need = max(need, plan.most if share > 100 else math.ceil(wanted[cell.name] * share * share))
                if need:
                    more = min(plan.most, MOST * math.ceil(max(need, wanted[cell.name] + 1) / MOST))
                    # by steps of no more than three times, since the first spread is a guess
                    further[cell.name] = min(more, 3 * MOST * math.ceil(wanted[cell.name] / MOST))
                    if wanted[cell.name] >= plan.most:
                        further[cell.name], short = wanted[cell.name], [*short, cell.name]
            # a chunk is whole once it has run, so that what was cut short is run anew
            for at, cell in enumerate(plan.cells):
                last = wanted[cell.name] // MOST * MOST
                if further[cell.name] > wanted[cell.name] and wanted[cell.name] % MOST and self.parts.has(at, last):
                    os.remove(self.parts.path(at, last))
            if further == wanted:
                return short
            wanted = further

    def warn_of_draws(self) -> None:
        """Says where runs draw so few numbers of a stream that first draws matter, or more than streams are apart."""
        cell = self.plan.cells[0]
        if any(" ".join(text.split()[:1]) == "RESET" for text in cell.texts):
            return
        part = self.parts.get(0, 0)
        entries = {int(position): sums[2] / len(part["runs"]) for position, sums in part["blocks"].items()}
        drawn = draws_of(cell.texts, entries)
        few = sorted(stream for stream, count in drawn.items() if 0 < count < FEW)
        if len(few) > 0 and len(drawn) > 1:
            which = f"stream {few[0]}" if len(few) == 1 else "streams " + ", ".join(map(str, few))
            warn(f"a run draws fewer than {FEW} numbers of {which}: burn some first (docs/seeds.md, First draws)")
        if drawn and max(drawn.values()) > self.gap:
            warn(f"a run draws {max(drawn.values()):,.0f} numbers of a stream, and streams are {self.gap:,} draws apart")


def model_of(plan: Plan, path: str) -> str:
    """The model's text; its path is seen from the plan."""
    at = os.path.join(os.path.dirname(path), plan.model)
    try:
        with open(at, encoding="latin-1", newline="") as file:
            return file.read().replace("\r\n", "\n")
    except OSError as why:
        raise Problem(f"the model {at}: {why.strerror}") from None


def text_of(written: bytes, path: str) -> str:
    """The text of a plan: TOML is UTF-8."""
    try:
        return written.decode("utf-8").replace("\r\n", "\n")
    except UnicodeDecodeError as why:
        raise Problem(f"{path} is no TOML: byte {why.start + 1} is no UTF-8") from None


def main(words: list[str]) -> int:
    read_words = Words(words, "--to --jobs --on", "--resume --parquet")
    if len(read_words.rest) != 1:
        raise Problem("one PLAN.toml is wanted; --help shows how")
    path, folder = read_words.rest[0], read_words.options.get("--to", "study")
    jobs = read_words.number("--jobs", os.cpu_count() or 1, 1, 1024)
    if "--on" in read_words.options:
        with_packages("distributed")
    if "--parquet" in read_words.flags:
        with_packages("pyarrow")
    with open(path, "rb") as file:
        plan = read(text_of(file.read(), path))
    model = model_of(plan, path)
    prepare(plan, model)
    os.makedirs(folder, exist_ok=True)
    goes_on = "--resume" in read_words.flags
    study = Study(plan, model, folder, engine(jobs, read_words.options.get("--on")), goes_on)
    try:
        if plan.precision is None:
            study.make({cell.name: plan.replications for cell in plan.cells})
            short = []
        else:
            short = study.until_precise()
    except KeyboardInterrupt:
        raise Problem(f"stopped; --resume goes on from {study.parts.folder}") from None
    study.warn_of_draws()
    runs, failed, without = results.write(study, folder)
    if "--parquet" in read_words.flags:
        results.write_parquet(folder, plan.factors)
    shutil.rmtree(study.parts.folder)
    for name in without:
        warn(f"no run has a figure of {name} = \"{plan.measures[name]}\"")
    for name in short:
        warn(f"scenario {name}: {plan.most} replications do not reach a half-width of {plan.precision:.0%}")
    failures = f", {failed} not COMPLETE (failed.csv)" if failed else ""
    cells = "1 scenario" if len(plan.cells) == 1 else f"{len(plan.cells)} scenarios"
    warn(
        f"{folder}: {cells}, {runs} runs{failures}; streams at least {study.gap:,} draws apart; "
        "cells.csv has the means, pairs.csv the differences, runs.csv each run"
    )
    return 1 if failed or short or without else 0
