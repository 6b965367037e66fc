"""A model that is kept open and edited: undo and redo, a baseline, what differs from it, and the model as a file.

It is what tools/ask and tools/workbench stand on."""
import os
import re
from collections.abc import Callable
from dataclasses import dataclass, field

from . import codes, offers, script, statements
from .answers import KINDS
from .bench import Bench, Measure, NoReport, Refused, Reports
from .command import Problem
from .program import Ended
from .seeds import RECOMMENDED
from .stats import Estimate, differences, estimate

# The figures that are shown of an entity where not all are wanted.
MAIN = {
    "facility": ["UTIL.", "AVE. TIME", "ENTRIES"],
    "queue": ["AVE.TIME", "AVE.CONT.", "MAX", "ENTRY"],
    "storage": ["UTIL.", "AVE.C.", "ENTRIES"],
    "table": ["MEAN", "STD.DEV."],
}


# The edits that change what `list` shows.
OF_STATEMENTS = ("change", "insert", "delete", "capacity")
# A number of steps of each replication; None where it is not known.
Steps = dict[int, int | None]


@dataclass
class Statement:
    """A statement as `list` shows it, and as the file has it: with the comments in front of it and after it."""

    text: str
    front: list[str] = field(default_factory=list)
    source: list[str] = field(default_factory=list)
    # as the file had it at first: its text and its lines
    first: tuple[str, list[str]] = ("", [])

    def become(self, text: str) -> None:
        """Takes another text; the one of the file has its lines, with their comments."""
        self.text, self.source = text, list(self.first[1]) if text == self.first[0] else laid_out(text)

    def lines(self) -> list[str]:
        return [*self.front, *self.source]


def laid_out(text: str) -> list[str]:
    """A statement's text as lines of a file: label, verb and operands in columns, and the pairs of a FUNCTION below."""
    first, *pairs = text.split("|")
    words = first.split(" ", 2)
    if words[0].upper() in statements.VERBS:
        words = ["", *first.split(" ", 1)]
    label, verb, *rest = words
    return [f"{label:<7} {verb:<8} {' '.join(rest)}".rstrip(), *pairs]


def of_file(lines: list[str], texts: list[str]) -> tuple[list[Statement], list[str]]:
    """The statements of a model's file, each with its lines, and the lines after the last one."""
    found, front, wanted = [], [], 0
    for line in lines:
        code = statements.code_of(line).strip()
        if wanted > 0 and found:
            found[-1].source.append(line)
            wanted -= code.strip("/").count("/") + 1 if code else 0
            continue
        if not code:
            front.append(line)
            continue
        found.append(Statement("", front, [line]))
        front = []
        told = re.search(r"(?i)\bFUNCTION\s+\S*,[CD](\d+)", code)
        wanted = int(told[1]) if told else 0
    if len(found) != len(texts):
        found = [Statement(text, [], laid_out(text)) for text in texts]
    for it, text in zip(found, texts):
        it.text, it.first = text, (text, list(it.source))
    return found, [line for line in front if line.strip()]


@dataclass
class Difference:
    """A figure before and now, and the paired difference."""

    kind: str
    entity: str
    column: str
    before: Estimate | None
    now: Estimate | None
    change: Estimate | None

    @property
    def is_apart(self) -> bool:
        return bool(self.change and self.change.interval and not self.change.interval[0] <= 0 <= self.change.interval[1])


class KeptModel:
    """A model with its session; `journal` is a file to which each accepted edit goes before anything is shown."""

    def __init__(
        self, path: str, seed: int = 1945846388, replications: int = 1, journal: str | None = None, text: str | None = None,
        words: dict[str, int] | None = None,
    ):
        self.path, self.seed, self.words = path, seed, words or {}
        if text is None:
            with open(path, encoding="latin-1", newline="") as file:
                text = file.read().replace("\r\n", "\n")
        self.text = text
        self.bench = Bench("-", text=text, seed=seed, **self.words)
        self.statements, self.tail = of_file(text.rstrip("\n").split("\n"), self.bench.list())
        self.undone: list[str] = []
        self.done: list[tuple[str, str]] = []
        # the horizon is no statement: it is kept beside them, None as it was opened
        self.horizon: int | None = None
        self.named: dict[str, tuple[list[str], int | None]] = {}
        self.base_texts, self.base_horizon = [it.text for it in self.statements], self.horizon
        self.known_baseline: tuple[tuple, Reports] | None = None
        self.opened = list(self.base_texts)
        self.pinned: str | None = None
        self.journal = journal
        self.replayed = self.replay() if journal and os.path.exists(journal) else 0
        self.add_replications(replications)

    # ---- edits

    def replay(self) -> int:
        """Makes the edits of the journal again; how many they are, replications apart. A last line that is broken off was shown to nobody, and
        is cut off, so that the next edit begins a line."""
        with open(self.journal, encoding="latin-1", newline="") as file:
            text = file.read()
        whole, ends, rest = text.rpartition("\n")
        if rest:
            os.truncate(self.journal, len(whole + ends))
        journal, self.journal, count = self.journal, None, 0
        for number, line in enumerate(whole.replace("\r", "").split("\n"), 1):
            try:
                if line.startswith("# "):
                    self.named[line[2:]] = self.texts(), self.horizon
                elif line.strip():
                    self.edit(line)
                    count += not line.startswith("replicate ")
            except (Refused, Problem) as why:
                raise Problem(f"{journal}, line {number}, `{line}`: {why}") from None
        self.journal = journal
        return count

    def add_replications(self, count: int) -> None:
        """Adds replications until there are so many, with the recommended seeds; no undo takes them back."""
        seeds = [it for it in RECOMMENDED if it not in self.bench.replications.values()]
        while len(self.bench.replications) < count:
            if not seeds:
                raise Problem("a session has 32 replications at most; tools/study takes any number")
            number, seed = max(self.bench.replications) + 1, seeds.pop(0)
            self.bench.edit(f"replicate {number} {seed}")
            self.bench.replications[number] = seed
            self.note(f"replicate {number} {seed}")

    def edit(self, line: str) -> str:
        """Makes an edit; what it replaced, in words. A `Refused` or a `Problem` says why it was not made."""
        said = self.make(line)
        self.undone.clear()
        return said

    def make(self, line: str) -> str:
        if script.is_by_place(line):
            line = script.resolved(line, self.texts())
        word, *rest = line.split(maxsplit=2)
        back = self.inverse(line)
        before = self.texts()
        self.bench.edit(line)
        if word in ("seed", "replicate"):
            self.bench.replications[int(rest[0])] = int(rest[1])
        elif word == "drop":
            self.bench.replications.pop(int(rest[0]), None)
        elif word == "horizon":
            self.horizon = int(rest[0])
        self.note(line)
        self.done.append((line, back))
        return self.follow(word, rest, before)

    def note(self, line: str) -> None:
        """Writes an accepted edit to the journal, down to the disk."""
        if self.journal:
            with open(self.journal, "a", encoding="latin-1") as file:
                file.write(line + "\n")
                file.flush()
                os.fsync(file.fileno())

    def inverse(self, line: str) -> str:
        """The edit that takes an edit back; nothing where there is none."""
        word, *rest = line.split(maxsplit=2)
        texts = self.texts()
        at = int(rest[0]) - 1 if rest and rest[0].isdecimal() else -1
        if word == "insert":
            return f"delete {at + 1}"
        if word == "delete" and 0 <= at < len(texts):
            return f"insert {at + 1} {texts[at]}"
        if word == "change" and 0 <= at < len(texts):
            return f"change {at + 1} {texts[at]}"
        if word == "capacity" and rest:
            it = next((it for it in codes.read(texts) if it.verb == "STORAGE" and it.label == rest[0].upper()), None)
            return f"capacity {rest[0]} {it.number(0)}" if it else ""
        if word == "seed" and at + 1 in self.bench.replications:
            return f"seed {at + 1} {self.bench.replications[at + 1]}"
        if word == "replicate":
            return f"drop {at + 1}"
        if word == "drop" and at + 1 in self.bench.replications:
            return f"replicate {at + 1} {self.bench.replications[at + 1]}"
        if word == "horizon":
            told = [line for line, _ in self.done if line.startswith("horizon ")]
            return told[-1] if told else f"horizon {self.words.get('horizon') or 10**9}"
        return ""

    def follow(self, word: str, rest: list[str], before: list[str]) -> str:
        """Brings the statements to what `list` shows now, and says what differs."""
        now = self.bench.list()
        at = int(rest[0]) - 1 if rest and rest[0].isdecimal() else 0
        if word == "insert":
            self.statements.insert(at, Statement(now[at], [], laid_out(now[at])))
            return f"{at + 1}: inserted {now[at]}"
        if word == "delete":
            gone = self.statements.pop(at)
            if at < len(self.statements):
                self.statements[at].front[:0] = gone.front
            else:
                self.tail[:0] = gone.front
            return f"{at + 1}: deleted {before[at]}"
        for at, (one, other) in enumerate(zip(before, now)):
            if one != other:
                self.statements[at].become(other)
                return f"{at + 1}: {one} -> {other}"
        return "" if word in ("seed", "replicate", "drop", "horizon") else "nothing differs: it stood there already"

    def undo(self) -> str:
        """Takes the last edit back; what it was."""
        if not self.done or not self.done[-1][1]:
            raise Problem("there is nothing to undo")
        line, back = self.done.pop()
        said = self.make(back)
        self.done.pop()
        self.undone.append(line)
        return said or f"undone: {line}"

    def redo(self) -> str:
        if not self.undone:
            raise Problem("there is nothing to redo")
        line = self.undone.pop()
        return self.make(line) or f"done again: {line}"

    # ---- what is there

    def texts(self) -> list[str]:
        return [it.text for it in self.statements]

    def changed(self) -> list[bool]:
        """Of each statement whether it differs from the baseline."""
        left: dict[str, int] = {}
        for text in self.base_texts:
            left[text] = left.get(text, 0) + 1
        found = []
        for text in self.texts():
            found.append(left.get(text, 0) == 0)
            left[text] = left.get(text, 0) - 1
        return found

    def model_text(self) -> str:
        """The model as a file, with the comments that it had."""
        return "\n".join([line for it in self.statements for line in it.lines()] + self.tail) + "\n"

    def starts(self) -> int:
        return sum(text.split()[0] == "START" for text in self.texts())

    def kept_steps(self, start: int) -> Steps:
        """Of each replication how many steps are recorded; None where its answer is known without another step."""
        found: Steps = {}
        for replication in self.bench.replications:
            try:
                answer = self.bench.peek(replication, start)
            except NoReport:
                answer = None
            found[replication] = answer if isinstance(answer, int) else None
        return found

    def recorded(self) -> Steps:
        """Of each replication how many steps are recorded; None where its run ended before the last START.

        The program counts them for a START that is not reached. One that is added at the end keeps all steps, and so does
        its deletion. Both are no edits of the script."""
        place = len(self.statements) + 1
        if not self.bench.ask(f"insert {place} START 1")[0].startswith("ok "):
            return dict.fromkeys(self.bench.replications)
        found = self.kept_steps(self.starts() + 1)
        if not self.bench.ask(f"delete {place}")[0].startswith("ok "):
            self.bench.close()
            raise Ended("a START that counts the steps could not be deleted")
        return found

    def trial(self, line: str, start: int) -> str:
        """What an edit of a statement would keep, in words. It is made on a copy that runs the first replication anew, without
        workers, and nothing changes here."""
        if line.split(" ", 1)[0] not in OF_STATEMENTS:
            raise Problem(f"what is tried begins with one of {', '.join(OF_STATEMENTS)}")
        number, seed = next(iter(self.bench.replications.items()))
        alone = {**self.words, "workers": None}
        copy = KeptModel(self.path, seed, 1, text=self.model_text(), words=alone)
        try:
            for told in [it for it in self.bench.script if it.startswith("horizon ")][-1:]:
                copy.edit(told)
            copy.bench.report(1, start)
            whole = copy.recorded()[1]
            copy.edit(line)
            kept = copy.recorded()[1]
        except Ended as why:
            raise Problem(f"the program of the trial ended: {why}") from None
        finally:
            copy.bench.close()
        if whole is None or kept is None:
            return "what it would keep is not counted, since the run does not reach the end of the last START"
        return f"it would keep {kept:,} of the {whole:,} steps of replication {number}"

    def reports(self, start: int, each: Callable[[int], None] | None = None) -> Reports:
        return self.bench.reports(start, each=each)

    def pin(self) -> None:
        """Takes the model as it is for the baseline."""
        self.base_texts, self.base_horizon = self.texts(), self.horizon
        self.known_baseline, self.pinned = None, f"version {self.bench.version}"

    def name_version(self, name: str) -> None:
        """Gives the model as it is now a name, which the journal keeps as a comment."""
        if not re.fullmatch(r"[\w .,=+-]{1,60}", name.strip(), re.ASCII):
            raise Problem("a name has up to 60 letters, digits, blanks and signs")
        self.named[name.strip()] = self.texts(), self.horizon
        self.note(f"# {name.strip()}")

    def compare_with(self, name: str) -> None:
        """Takes a version that has a name for the baseline; without a name the model as it was opened."""
        if name and name not in self.named:
            raise Problem(f"no version is called {name}")
        texts, self.base_horizon = self.named[name] if name else (self.opened, None)
        self.base_texts = list(texts)
        self.known_baseline, self.pinned = None, name or None

    def baseline(self, start: int, each: Callable[[int], None] | None = None) -> Reports:
        """The reports of the baseline over the replications that there are now, by a session of its own."""
        seeds = self.bench.replications
        key = tuple(seeds.items()), start
        if self.known_baseline is None or self.known_baseline[0] != key:
            text = "\n".join(it.replace("|", "\n") for it in self.base_texts) + "\n"
            words = self.words if self.base_horizon is None else {**self.words, "horizon": self.base_horizon}
            with Bench("-", text=text, seed=seeds.get(1, 1), **words) as other:
                for number, seed in seeds.items():
                    if number != 1:
                        other.edit(f"replicate {number} {seed}")
                other.replications = dict(seeds)
                self.known_baseline = key, other.reports(start, each=each)
        return self.known_baseline[1]

    def names(self) -> offers.Names:
        """The names that one may complete, by kind: labels and entities."""
        return offers.names_of(codes.read(self.texts()))


def cost(kept: Steps, recorded: Steps) -> str:
    """What an edit cost: how many steps stood before the reports were made, of those that are recorded after that."""
    counted = {replication: steps for replication, steps in recorded.items() if steps is not None}
    if not counted:
        return "the steps are not counted, since no run reaches the end of the last START"
    all_steps = sum(counted.values())
    stood = sum(steps if kept.get(it, 0) is None else kept.get(it, 0) for it, steps in counted.items())
    told = f"{stood:,} of {all_steps:,} steps were kept, and {all_steps - stood:,} made anew"
    of = "" if len(counted) == len(recorded) else f", in {len(counted)} of {len(recorded)} replications"
    return told + of


def figures(reports: Reports, everything: bool = False) -> list[tuple[Measure, Estimate | None]]:
    """The figures of all entities over the replications."""
    found = []
    for kind, main in MAIN.items():
        names = dict.fromkeys(name for report in reports for name in report.of_kind(kind))
        for name in names:
            for column in KINDS[kind][1:] if everything else main:
                measure = Measure(kind, name, column)
                found.append((measure, reports.estimate(measure)))
    return found


def compare(before: Reports, now: Reports, everything: bool = False) -> list[Difference]:
    """What changed: the figures of both, and the paired differences over the replications that both have."""
    measures = dict.fromkeys(it for reports in (before, now) for it, _ in figures(reports, everything))
    found = []
    for it in measures:
        values = [{report.replication: it.of(report) for report in reports} for reports in (before, now)]
        change = estimate(differences(*values))
        found.append(Difference(it.kind, it.entity, it.column, *(estimate(own.values()) for own in values), change))
    return found


__all__ = ["Difference", "KeptModel", "Refused", "compare", "cost", "figures"]
