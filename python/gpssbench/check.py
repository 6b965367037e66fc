"""Finds what is lawful in a model and most likely not meant.

    tools/check MODEL [WORDS ..]

MODEL is a model's file, or `-` for standard input. It is read by the program, and nothing is simulated. Each finding is a
line `FILE:LINE: what stands there: why it is odd, and what to do`: a facility that is seized and never released, a queue
that is entered and never left or the other way, a switch or a savevalue that is asked and never set, a definition that
nothing uses, no START, no TERMINATE that counts, a half range above its mean, a number or a label after the operands that
is read as comment, a facility with the name of a storage, a wait that nothing ends, a block that no transaction reaches.

A model that is refused is explained: the line, the verb that was likely meant, what to write in place of a statement of
GPSS World or GPSS/H that is left out.

Status 0: nothing was found. 1: something was, or the model is refused. 2: bad input."""
import re
import sys
from collections.abc import Iterator
from dataclasses import dataclass

from . import codes, statements
from .answers import answers
from .command import Problem
from .program import Model, ran
from .script import name_of

# What wakes no transaction that waits at a TEST or a GATE.
NEVER_WAKES = ["C1", "AC1", "M1", "TG1", "RN", "P", "PR", "XN1"]


@dataclass
class Finding:
    place: int | None
    why: str


class Checker:
    """The findings of one model, over the statements that `list` shows."""

    def __init__(self, texts: list[str]):
        self.texts = texts
        self.all = [statements.statement_of_edit(text) for text in texts]
        self.numbers = {it.label: it.number(0) for it in self.all if it.verb == "EQU"}
        self.labels = {it.label: place for place, it in enumerate(self.all, 1) if it.label}

    def key(self, leaf):
        """Which entity a leaf names: a number, or a name without an EQU; None where a run computes it."""
        if leaf is None or leaf[0] not in ("entity", "number", "storage", "table"):
            return None
        return self.numbers.get(leaf[-1], leaf[-1])

    def named_by(self, *verbs: str) -> dict:
        """The entities that the first operand of some verbs names, each with its places; None for those computed."""
        found: dict = {}
        for place, it in enumerate(self.all, 1):
            if it.verb in verbs:
                found.setdefault(self.key(it.tree(0)), []).append(place)
        return found

    def asked(self, cls: str) -> dict:
        """The entities whose attribute of a class is read, each with its places."""
        found: dict = {}
        for place, it in enumerate(self.all, 1):
            for leaf in it.leaves("attribute"):
                if leaf[1] == cls:
                    found.setdefault(self.numbers.get(leaf[2], leaf[2]), []).append(place)
        return found

    def findings(self) -> list[Finding]:
        found = [
            *self.pairs(), *self.unset(), *self.unused(), *self.ends(), *self.ranges(), *self.of_storages(),
            *self.sleepers(), *self.ways(),
        ]
        return sorted(found, key=lambda it: it.place or len(self.all) + 1)

    # ---- what belongs together

    def one_way(self, doing: str, undoing: str, why: str, back: str) -> Iterator[Finding]:
        done, undone = self.named_by(doing), self.named_by(undoing)
        if None not in undone:
            for name in done:
                if name is not None and name not in undone:
                    yield Finding(done[name][0], why.format(name))
        if None not in done:
            for name in undone:
                if name is not None and name not in done:
                    yield Finding(undone[name][0], back.format(name))

    def pairs(self) -> Iterator[Finding]:
        yield from self.one_way(
            "SEIZE", "RELEASE", "no RELEASE of {}: the first that takes it keeps it, and all others wait for ever",
            "no SEIZE of {}: what comes here stops the run with X2",
        )
        yield from self.one_way(
            "LINK", "UNLINK", "no UNLINK of {}: what is linked stays for ever", "no LINK of {}: there is nothing to unlink"
        )
        entered, left = self.named_by("ENTER"), self.named_by("LEAVE")
        for name in entered:
            if name not in left and self.is_followed_by_more(entered[name][0]):
                yield Finding(entered[name][0], f"no LEAVE of {name}: its units are never given back")
        for name in left:
            if name not in entered:
                yield Finding(left[name][0], f"no ENTER of {name}: what comes here stops the run with X3")
        queued, departed = self.named_by("QUEUE"), self.named_by("DEPART")
        if None not in departed:
            for name, places in queued.items():
                if name is not None and name not in departed and any(map(self.waits_after, places)):
                    yield Finding(places[0], f"no DEPART of {name}: its content only grows")
        if None not in queued:
            for name, places in departed.items():
                if name is not None and name not in queued:
                    yield Finding(places[0], f"no QUEUE of {name}: what comes here stops the run with X4")

    def after(self, place: int) -> Iterator:
        """The blocks after a place, in the order of the text."""
        return (it for it in self.all[place:] if it.verb in statements.BLOCKS)

    def is_followed_by_more(self, place: int) -> bool:
        """Whether a transaction that took units goes on to other things than its end."""
        for it in self.after(place):
            if it.verb in ("ADVANCE", "SEIZE"):
                return True
            if it.verb in ("TERMINATE", "TRANSFER", "LINK"):
                return False
        return False

    def waits_after(self, place: int) -> bool:
        """Whether a transaction may be held up after a QUEUE: then it is a line, and not a counter of those that pass."""
        for it in self.after(place):
            waits = it.verb in ("SEIZE", "ENTER", "LINK") or it.verb in ("TEST", "GATE") and self.is_wait(it)
            if waits:
                return True
            if it.verb in ("TERMINATE", "TRANSFER", "GENERATE", "ADVANCE"):
                return False
        return False

    # ---- what is asked and never set, defined and never used

    def unset(self) -> Iterator[Finding]:
        for cls, verb, what, never in (
            ("LS", "LOGIC", "switch", "no LOGIC sets it"), ("X", "SAVEVALUE", "savevalue", "no SAVEVALUE sets it"),
            ("P", "ASSIGN", "parameter", "no ASSIGN gives it"),
        ):
            written = self.named_by(*(verb, "LOOP") if cls == "P" else (verb,))
            if None in written or cls == "P" and any(it.verb == "LOOP" for it in self.all) and None in written:
                continue
            read = self.asked(cls)
            if cls == "LS":
                for place, it in enumerate(self.all, 1):
                    if it.verb == "GATE" and it.auxiliary in ("LS", "LR") and self.key(it.tree(0)) is not None:
                        read.setdefault(self.key(it.tree(0)), []).append(place)
            for name, places in read.items():
                if name not in written:
                    near = codes.difflib.get_close_matches(str(name), [str(it) for it in written], 1, 0.6)
                    meant = f"; {near[0]}?" if near else ""
                    end = "what comes here stops the run with X5" if cls == "P" else "it stays as it was at first"
                    yield Finding(places[0], f"the {what} {name} is asked and {never}: {end}{meant}")

    def unused(self) -> Iterator[Finding]:
        used = {name for it in self.all for name in it.names()[1 if it.label else 0 :]}
        for place, it in enumerate(self.all, 1):
            if it.verb in statements.DEFINITIONS and it.label not in used:
                yield Finding(place, f"nothing uses {it.label}")

    # ---- ends, ranges, storages, waits

    def ends(self) -> Iterator[Finding]:
        starts = [place for place, it in enumerate(self.all, 1) if it.verb == "START"]
        counts = [it for it in self.all if it.verb == "TERMINATE" and it.tree(0) not in (None, ("number", 0))]
        if not starts:
            yield Finding(None, "there is no START, so there is no report: add `START 100` at the end")
        elif not any(it.verb == "GENERATE" for it in self.all):
            yield Finding(starts[0], "there is no GENERATE, so nothing ever comes")
        elif not counts:
            why = "no TERMINATE counts it down: write `TERMINATE 1` where a job is done, or the run is too long"
            yield Finding(starts[0], why)

    def value(self, tree):
        """The number that an operand is, in digits or by an EQU."""
        if tree and tree[0] == "number":
            return tree[1]
        return self.numbers.get(tree[1]) if tree and tree[0] == "name" else None

    def ranges(self) -> Iterator[Finding]:
        for place, it in enumerate(self.all, 1):
            if it.verb in ("GENERATE", "ADVANCE"):
                mean = 0 if it.tree(0) is None else self.value(it.tree(0))
                half = self.value(it.tree(1))
                if mean is not None and half is not None and half > mean:
                    yield Finding(place, f"the half range {half} is above {mean}: some times are below 0 (X1)")

    def of_storages(self) -> Iterator[Finding]:
        storages = {it.label for it in self.all if it.verb == "STORAGE"}
        for place, it in enumerate(self.all, 1):
            asks = it.verb == "GATE" and it.auxiliary in ("U", "NU")
            if (it.verb in ("SEIZE", "RELEASE") or asks) and self.key(it.tree(0)) in storages:
                name = self.key(it.tree(0))
                cure = f"`GATE S{it.auxiliary.replace('U', 'F')} {name}`" if asks else {
                    "SEIZE": f"`ENTER {name}`", "RELEASE": f"`LEAVE {name}`"
                }[it.verb]
                yield Finding(place, f"{name} is a STORAGE, and this a facility of that name, which holds one: {cure}?")

    def is_wait(self, it) -> bool:
        return it.verb == "TEST" and it.tree(2) is None or it.verb == "GATE" and it.tree(1) is None

    def sleepers(self) -> Iterator[Finding]:
        for place, it in enumerate(self.all, 1):
            if it.verb == "TEST" and self.is_wait(it):
                classes = [leaf[1] for leaf in it.leaves("attribute")]
                if all(cls in NEVER_WAKES for cls in classes):
                    why = "where it does not hold at once, a transaction waits for ever: the clock, a parameter and a draw wake"
                    yield Finding(place, f"{why} nothing. Give it a label, or hold it by an ADVANCE")

    # ---- ways

    def ways(self) -> Iterator[Finding]:
        blocks = [(place, it) for place, it in enumerate(self.all, 1) if it.verb in statements.BLOCKS]
        named = {leaf[-1] for it in self.all for leaf in it.leaves("label")}
        for (place, it), (next_place, following) in zip(blocks, blocks[1:]):
            goes_on = self.goes_on(it)
            if goes_on and following.verb == "GENERATE":
                yield Finding(place, "what leaves this block comes to a GENERATE and stops the run with X8: is a TERMINATE missing?")
            if not goes_on and following.verb != "GENERATE" and following.label not in named:
                yield Finding(next_place, "nothing comes here: no block goes on to it, and no label leads to it")
        if blocks and self.goes_on(blocks[-1][1]):
            yield Finding(blocks[-1][0], "no block follows this one (X8): is a TERMINATE missing?")

    def goes_on(self, it) -> bool:
        """Whether a transaction may go from a block to the next one."""
        if it.verb == "TRANSFER":
            return it.operand(0) is not None and it.operand(1) is None
        return it.verb not in ("TERMINATE", "LINK")


def comments(lines: list[str], checker: Checker) -> Iterator[tuple[int, str]]:
    """What reads as comment and most likely is an operand, by the lines of the file."""
    blocks = {it.label for it in checker.all if it.verb in statements.BLOCKS and it.label}
    for number, text in codes.joined(lines):
        code = statements.code_of(text.split("|")[0])
        try:
            _, verb, _, listed = statements.parts(code)
        except statements.Fault:
            continue
        start = re.search(rf"(?i)(^|[ \t]){verb}(?=[ \t]|$)", code)
        rest = code[start.end() :] if start else ""
        if verb in statements.AUXILIARIES:
            rest = re.sub(r"^[ \t]*\S+", "", rest)
        comment = rest[statements.operand_list(rest)[1] :].strip().upper() if listed else ""
        first = re.split(r"[ \t]", comment)[0]
        forms = [*statements.FORMS[verb].split(), ""][listed.count(",") + 1 :] or [""]
        takes_number = forms[0].rstrip("!") in ("value", "number", "count", "classes", "some")
        if takes_number and re.fullmatch(r"[-0-9.,]*[0-9]", comment):
            yield number, f"`{comment}` reads as comment, after the blank: write `{verb} {listed},{comment}`?"
        elif first in blocks and verb in ("TEST", "GATE", "TRANSFER", "SPLIT", "LOOP", "UNLINK") and not any(
            leaf == ("label", first) for it in codes.read([code]) for leaf in it.leaves("label")
        ) and comment == first:
            yield number, f"`{first}` reads as comment, after the blank: a comma in front makes it the label"


def findings(model: Model, texts: list[str]) -> list[tuple[int | None, str]]:
    """The findings of a model that was read, each with its line in the file."""
    checker, places = Checker(texts), codes.joined(model.lines())
    line = {place: number for place, (number, _) in enumerate(places, 1)}
    found = [
        (line.get(it.place), f"{f'`{texts[it.place - 1]}`: ' if it.place else ''}{it.why}") for it in checker.findings()
    ]
    return sorted([*found, *comments(model.lines(), checker)], key=lambda it: it[0] or 10**9)


def refused(model: Model, told: str) -> list[str]:
    """Why a model is refused."""
    lines = model.lines()
    if line := re.fullmatch(r"model refused: line (\d+) (L\d.*)", told):
        number = int(line[1])
        return [f"{model.path}:{number}: refused, {line[2]}", *codes.line_fault(line[2], lines[number - 1])]
    if whole := re.fullmatch(r"model refused: (M\d)", told):
        places = codes.joined(lines)
        users = [text for _, text in codes.misses([text for _, text in places]).get(whole[1], [])]
        number = next((number for number, text in places if text in users), None)
        return [f"{model.path}:{number or 1}: refused, {whole[1]}", *codes.model_fault(whole[1], [it for _, it in places])]
    return [f"{model.path}: {told}"]


def main(words: list[str]) -> int:
    if not words or words[0].startswith("--"):
        raise Problem("a MODEL is wanted; --help shows how" if not words else f"no option {words[0]}; --help shows how")
    model = Model.read(words[0], sys.stdin.buffer.read() if words[0] == "-" else None)
    if words[0] != "-":
        with open(words[0], "rb"):
            pass  # a file that is not there is bad input
    session = ran(model, words[1:], ["list"])
    told = session.stderr.decode("latin-1").strip().split("\n")[0]
    if told.startswith("model refused"):
        print("\n".join(name_of(line) for line in refused(model, told)))
        return 1
    if session.returncode:
        raise Problem(told or f"the program ended with status {session.returncode}")
    *_, last = answers(session.stdout)
    found = findings(model, [line.partition(" ")[2] for line in last[1]])
    for line, why in found:
        print(f"{model.path}:{line if line is not None else ''}{': ' if line is not None else ' '}{why}")
    if not found:
        print(f"{model.path}: nothing odd in {len(last[1])} statements")
    return 1 if found else 0
