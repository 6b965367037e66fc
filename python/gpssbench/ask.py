"""A prompt over a model that is kept open.

    tools/ask MODEL [--seed S] [--replications N]

    report [r [k]]          the report of replication r (1) at the end of START k (the last one)
    show [queue Line]       the figures over all replications: mean, half-width, least, greatest
    replicate N             replications until there are N; `replicate r s` as in a script
    change, insert, delete, capacity, seed, drop, horizon    edits, also by label: change @Serve ADVANCE 160,40
    undo, redo              take the last edit back, make it again
    base                    takes the model as it is now for the baseline
    compare [all]           what differs from the baseline, as paired differences
    list                    the statements with their places; `*` marks what differs from the baseline
    peek                    how many steps are kept, without a further one
    try EDIT                how many steps of the first replication an edit would keep; it is not made
    explain CODE            what a code means, as L5 1 or HORIZON
    save FILE.gps           the model as a file, its comments kept; `save FILE.script` the edits so far
    help, quit

The model as it was opened is the first baseline. On a terminal there are a history (~/.gpssbench_history) and completion by
the tabulator; otherwise it reads its lines from standard input."""
import os
import re
import sys

from . import codes, offers, script
from .bench import Measure, NoReport, Refused, Reports
from .command import Problem, Words
from .kept_model import MAIN, KeptModel, compare, figures
from .program import Ended
from .stats import Estimate, fixed

COMMANDS = [
    "report", "show", "replicate", "change", "insert", "delete", "capacity", "seed", "drop", "horizon", "undo", "redo", "base",
    "compare", "list", "peek", "try", "explain", "save", "help", "quit",
]
HISTORY = os.path.expanduser("~/.gpssbench_history")


def row(name: str, found: Estimate | None, count: int) -> str:
    if found is None:
        return f"{name:<32} {'-':>5}"
    half = "" if found.half is None else fixed(found.half)
    of = f"  of {found.n} of {count}" if found.n < count else ""
    return f"{name:<32} {found.n:>5} {fixed(found.mean):>12} {half:>12} {fixed(found.least):>12} {fixed(found.greatest):>12}{of}"


class Prompt:
    def __init__(self, kept: KeptModel):
        self.kept = kept
        self.known: tuple[int, int, Reports] | None = None

    def start(self) -> int:
        starts = self.kept.starts()
        if not starts:
            raise Problem("the model has no START: `insert` one at the end, as START 100")
        return starts

    def reports(self) -> Reports:
        """The reports of the last START of all replications, as the model is now."""
        start = self.start()
        version = self.kept.bench.version
        if self.known is None or self.known[:2] != (version, start):
            reports = self.kept.reports(start)
            self.known = version, start, reports
            for replication, why in reports.missing.items():
                print(f"replication {replication}: {why}; {codes.meaning(why)[0]}")
        return self.known[2]

    def do(self, line: str) -> bool:
        """Does a line; whether that was the end."""
        word, *rest = line.split()
        word = word.lower()
        if word in ("quit", "exit"):
            return True
        own = {
            "help": self.help, "report": self.report, "show": self.show, "undo": self.undo, "redo": self.redo,
            "base": self.base, "compare": self.compare, "list": self.listing, "peek": self.peek, "explain": self.explain,
            "save": self.save, "try": self.trial,
        }.get(word)
        if own:
            own(rest)
        elif word == "replicate" and len(rest) == 1 and rest[0].isdecimal():
            self.kept.add_replications(int(rest[0]))
            print(f"{len(self.kept.bench.replications)} replications")
        elif word in script.EDITS:
            print(self.kept.edit(line) or f"ok {self.kept.bench.version}")
        else:
            near = codes.difflib.get_close_matches(word, COMMANDS, 1, 0.5)
            raise Problem(f"no command {word}{f', {near[0]}?' if near else ''}; `help` shows them")
        return False

    def help(self, rest: list[str]) -> None:
        print(__doc__.split("\n\n", 2)[2].strip("\n"))

    def report(self, rest: list[str]) -> None:
        numbers = [int(it) for it in rest if it.isdecimal()]
        if len(numbers) != len(rest) or len(rest) > 2:
            raise Problem("report, report 2 or report 2 1: a replication and a START")
        replication, start = (*numbers, *[1, self.start()][len(numbers) :])
        print(self.kept.bench.report(replication, start).text, end="")
        self.reports()

    def show(self, rest: list[str]) -> None:
        reports = self.reports()
        if rest:
            kind = rest[0].lower()
            listed = [(it, found) for it, found in figures(reports, True) if it.kind == kind]
            if len(rest) > 1:
                listed = [(it, found) for it, found in listed if it.entity == rest[1].upper()]
            if len(rest) > 2:
                measure = Measure.read(" ".join(rest))
                listed = [(measure, reports.estimate(measure))]
            if not listed:
                raise Problem(f"no {' '.join(rest)}; kinds are facility, queue, storage and table")
        else:
            listed = figures(reports)
        print(f"{'':<32} {'n':>5} {'mean':>12} {'half-width':>12} {'least':>12} {'greatest':>12}")
        for it, found in listed:
            print(row(str(it), found, len(reports)))

    def undo(self, rest: list[str]) -> None:
        print(self.kept.undo())

    def redo(self, rest: list[str]) -> None:
        print(self.kept.redo())

    def base(self, rest: list[str]) -> None:
        self.kept.pin()
        print(f"version {self.kept.bench.version} is the baseline")

    def compare(self, rest: list[str]) -> None:
        shown, baseline = 0, self.kept.baseline(self.start())
        for it in compare(baseline, self.reports(), rest == ["all"]):
            if it.change is None or it.change.least == it.change.greatest == 0 and rest != ["all"]:
                continue
            if not shown:
                print(f"{'':<32} {'before':>12} {'now':>12} {'difference':>12} {'half-width':>12}")
            shown += 1
            mean = lambda found: "-" if found is None else fixed(found.mean)
            half = "" if it.change.half is None else fixed(it.change.half)
            name = f"{it.kind} {it.entity} {it.column}"
            mark = "  *" if it.is_apart else ""
            print(f"{name:<32} {mean(it.before):>12} {mean(it.now):>12} {fixed(it.change.mean):>12} {half:>12}{mark}")
        print("`*`: the interval of the difference does not hold 0" if shown else "nothing differs")

    def listing(self, rest: list[str]) -> None:
        for place, (text, differs) in enumerate(zip(self.kept.texts(), self.kept.changed()), 1):
            print(f"{place:>5} {'*' if differs else ' '} {text}")

    def peek(self, rest: list[str]) -> None:
        steps = self.kept.kept_steps(self.start())
        told = [f"{replication}: {'known' if it is None else it}" for replication, it in steps.items()]
        print("steps that are kept, by replication: " + ", ".join(told))

    def trial(self, rest: list[str]) -> None:
        print(self.kept.trial(" ".join(rest), self.start()))

    def explain(self, rest: list[str]) -> None:
        code = " ".join(rest)
        if not code:
            raise Problem("explain what? A code, as L5 1, M3, X5 or HORIZON")
        print("\n".join(codes.said(code if code in codes.MEANINGS else code.upper())))

    def save(self, rest: list[str]) -> None:
        if len(rest) != 1:
            raise Problem("save FILE.gps, or save FILE.script")
        text = "\n".join(self.kept.bench.script) + "\n" if rest[0].endswith(".script") else self.kept.model_text()
        with open(rest[0], "w", encoding="latin-1") as file:
            file.write(text)
        print(f"{rest[0]} is written")


def complete(prompt: Prompt):
    """The completion of a word: a command in front, and a name, a label or a kind after it."""

    def found(text: str, state: int) -> str | None:
        import readline

        near = words_for(prompt.kept, readline.get_line_buffer()[: readline.get_begidx()], text)
        return near[state] + " " if state < len(near) else None

    return found


def words_for(kept: KeptModel, front: str, text: str) -> list[str]:
    """The words that a text may become, after what stands in front of it."""
    before, names = front.lower().split(), kept.names()
    if statement := STATEMENT.match(front):
        return offers.offered(names, front[statement.end() :] + text)[1]
    if not before:
        words = COMMANDS
    elif text.startswith("@"):
        words = [f"@{label}" for it in kept.texts() if (label := script.label_of(it, VERBS))]
    elif before[0] == "show":
        words = list(MAIN) if len(before) == 1 else names.get(before[1], [])
    else:
        words = names.get(NAMED.get(before[0], ""), [])
    return [it for it in words if it.lower().startswith(text.lower())]


# What stands in front of the statement of an edit, and what other commands name.
STATEMENT = re.compile(r"(?i)\s*(?:try\s+)?(?:change|insert)\s+(?:(?:before|after)\s+)?(?:[0-9]+|@/.*?/|@\w+)\s+")
NAMED = {"capacity": "storage"}
VERBS = frozenset(codes.statements.VERBS)


def lines(prompt: Prompt):
    """The lines that are typed, or those of standard input."""
    if not sys.stdin.isatty():
        yield from (line.rstrip("\n") for line in sys.stdin)
        return
    try:
        import readline

        readline.set_completer(complete(prompt))
        readline.set_completer_delims(" \t,()+-#\\")
        readline.parse_and_bind("tab: complete")
        if os.path.exists(HISTORY):
            readline.read_history_file(HISTORY)
        readline.set_history_length(1000)
    except (ImportError, OSError):
        readline = None
    print(f"{prompt.kept.path} is open; `help` shows the commands, `quit` ends")
    while True:
        try:
            yield input("gpss> ")
        except EOFError:
            print()
            return
        except KeyboardInterrupt:
            print()
        finally:
            if readline:
                try:
                    readline.write_history_file(HISTORY)
                except OSError:
                    pass


def main(words: list[str]) -> int:
    read = Words(words, "--seed --replications --horizon --every --limit")
    if len(read.rest) != 1:
        raise Problem("a MODEL is wanted; --help shows how")
    seed = read.number("--seed", 1945846388, 1, 2147483646)
    most = {"--horizon": 10**12, "--every": 10**6, "--limit": 10**6}
    given = {name[2:]: read.number(name, None, 1, top) for name, top in most.items()}
    try:
        kept = KeptModel(read.rest[0], seed, read.number("--replications", 1, 1, 32), words=given)
    except Refused as why:
        raise Problem(f"{read.rest[0]} is refused: {why}") from None
    prompt = Prompt(kept)
    for line in lines(prompt):
        if not line.strip() or line.strip().startswith("#"):
            continue
        try:
            if prompt.do(line.strip()):
                break
        except (Refused, Problem, NoReport) as why:
            print(why)
        except Ended as why:
            raise Problem(f"the program ended: {why}; {len(kept.bench.script)} edits were made") from None
        except OSError as why:
            print(f"{why.filename}: {why.strerror}")
        sys.stdout.flush()
    kept.bench.close()
    return 0
