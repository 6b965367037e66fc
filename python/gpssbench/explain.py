"""Runs a session and explains it.

    tools/explain MODEL SCRIPT [WORDS ..]

All that the program writes is shown, byte for byte and in the same order. In front of each answer is the script line
that it answers, after `> `. What this tool says comes after `# `: what an edit replaced and by what, a refusal in the
words of docs/codes.md, the line and the operand that are meant, the names that M2 and M3 miss, and the statement at
which a run stopped. To find these it runs the program again, with more lines; the session itself is not changed.

SCRIPT may name places by label or text (`change @Serve ADVANCE 160,40`, `delete @/ADVANCE 960/`, `insert before @Serve
QUEUE Line`) and versions by a comment (`# two doctors`). MODEL or SCRIPT may be `-`, standard input; where MODEL is `-`
and no SCRIPT follows, a line `end` parts the two. WORDS are the program's, as `--seed 1945846388`.

It ends with the program's status, or with 2 where it was asked for something that is not there. The program is that of
$GPSSBENCH, or `gpssbench` in the repository's root, or the one that was proved."""
import re
import sys

from . import script, statements
from .answers import BrokenOff, answers, as_written, rows
from .codes import MEANINGS, edit_fault, joined, line_fault, model_fault, read, said, script_fault
from .command import Problem, lines_of
from .program import Model, ran


def say(lines) -> None:
    for line in [lines] if isinstance(lines, str) else lines:
        print(f"# {line}")


class Explainer:
    def __init__(self, model: Model, words: list[str]):
        self.model, self.words, self.accepted = model, words, []
        self.texts: list[str] | None = None
        self.name, self.named = None, {}

    def run(self, lines: list[str]):
        return ran(self.model, self.words, lines)

    def listed(self) -> list[str]:
        """What `list` shows after the edits that were accepted so far."""
        if self.texts is None:
            *_, last = answers(self.run([*self.accepted, "list"]).stdout)
            self.texts = [line.partition(" ")[2] for line in last[1]]
        return self.texts

    def after(self, line: str) -> list[str]:
        """The statements that an edit's line would make."""
        word, place, text = (line.split(" ", 2) + ["", ""])[:3]
        texts, at = list(self.listed()), int(place) - 1 if place.isdecimal() else 0
        if word in ("insert", "change"):
            texts[at : at + (word == "change")] = [text]
        elif word == "delete":
            del texts[at : at + 1]
        return texts

    def took(self, line: str) -> None:
        """An edit that was accepted: what was there, and what is there now."""
        word = line.split(" ")[0]
        if word in ("insert", "delete", "change", "capacity"):
            before = list(self.listed())
            self.accepted.append(line)
            self.texts = None
            now = self.listed()
            at = next((at for at, (one, other) in enumerate(zip(before, now)) if one != other), min(len(before), len(now)))
            if word == "insert":
                at = int(line.split(" ")[1]) - 1
                where = f", in front of `{before[at]}`" if at < len(before) else ", at the end"
                say(f"{at + 1}: inserted `{now[at]}`{where}")
            elif word == "delete":
                at = int(line.split(" ")[1]) - 1
                say(f"{at + 1}: deleted `{before[at]}`")
            elif at < len(now):
                say(f"{at + 1}: {before[at]} -> {now[at]}")
            else:
                say("nothing differs: it stood there already")
        else:
            self.accepted.append(line)

    def refused(self, line: str, why: str) -> None:
        """Explains why an edit was refused."""
        code, _, rest = why.partition(" ")
        if rest.startswith("L") and not line.startswith("capacity"):
            say(line_fault(rest, line.split(" ", 2)[2]))
        elif rest.startswith("M"):
            say(model_fault(rest, self.after(line)))
        else:
            say(edit_fault(code, line, self.listed()))

    def stopped(self, text: str) -> None:
        """Explains where a run stands that cannot go on."""
        (replication, _, start, outcome), sections = rows(text)
        if outcome in ("DRY", "HORIZON"):
            say(said(outcome))
        if not outcome.startswith("ERROR "):
            return
        stop = outcome.split(" ")[1]
        current = next((cells for titles, cells in sections if titles[0] == "CEC XN"), [])
        texts = self.listed()
        places = [place for place, it in enumerate(read(texts), 1) if it.verb in statements.BLOCKS]
        blocks = {str(position): place for position, place in enumerate(places, 1)}
        if current:
            number, _, _, stands, sent = current[0]
            told = f"cannot enter block {sent}" if sent in blocks else f"has no block after block {stands}"
            place = blocks.get(sent) or blocks.get(stands)
            if place:
                say(f"Transaction {number} {told}: place {place} in `list`, `{texts[place - 1]}`.")
        else:
            self.primed(texts, replication, start, stop)
        say(said(stop))

    def primed(self, texts: list[str], replication: str, start: str, stop: str) -> None:
        """Which GENERATE it is whose first transaction cannot be made."""
        edits = list(self.accepted)
        for place, it in enumerate(read(texts), 1):
            if it.verb == "GENERATE":
                label = it.label + " " if it.label else ""
                edits.append(f"change {place} {label}GENERATE 1000")
                *_, last = answers(self.run([*edits, f"report {replication} {start}"]).stdout)
                if not (last[1] and rows(last[1][0][1])[0][3] == f"ERROR {stop}" and "XN " not in last[1][0][1]):
                    say(f"It stops before a transaction is there, at place {place} in `list`, `{texts[place - 1]}`.")
                    return

    def answered(self, line: str, first: str, parts: list) -> None:
        """Explains an answer after its line."""
        if first.startswith("refused "):
            self.refused(line, first.removeprefix("refused "))
        elif first.startswith("ok "):
            self.took(line)
        elif first.startswith("? "):
            say(script_fault(first, line))
        elif first.startswith("unfinished "):
            say(said("unfinished N"))
        elif first in ("nostart", "toolong", "noreplication", "memory"):
            say(said(first))
        seen: set[str] = set()
        for head, text in (part for part in parts if isinstance(part, tuple)):
            # what several replications have in common is said once
            outcome = text.split("\n", 1)[0].split(" ", 6)[-1] if text else head
            if outcome in seen:
                continue
            seen.add(outcome)
            if text:
                self.stopped(text)
            elif head in MEANINGS:
                say(said(head))

    def asked(self, line: script.Line) -> None:
        """Shows a script's line, as it stands, and where it lies elsewhere, as the program has it."""
        print(f"> {line.text}")
        if line.plain != line.text:
            say(line.plain)
        version = len(self.accepted)
        if line.word in script.QUERIES:
            if self.name:
                self.named[version], self.name = self.name, None
            if version in self.named:
                say(f"version {version}: {self.named[version]}".encode().decode("latin-1"))

    def explain(self, lines: list[script.Line]) -> int:
        session = self.run(script.plain(lines))
        say("Lines after `>` are the script's, lines after `#` this tool's; all others are as the program wrote them.")
        left = iter(lines)
        try:
            for first, parts in answers(session.stdout):
                line = self.next_line(left)
                self.asked(line)
                sys.stdout.write(as_written(first, parts))
                self.answered(line.plain, first, parts)
        except BrokenOff as why:
            say(f"The session ended: {why}.")
        told = session.stderr.decode("latin-1").rstrip("\n")
        if told:
            print(told)
            self.stopped_with(told.split("\n")[0])
        return session.returncode

    def next_line(self, left) -> script.Line:
        for line in left:
            if line.plain.strip(" \t"):
                return line
            if line.text.strip(" \t"):
                print(f"> {line.text}")
                self.name = line.name or self.name
        return script.Line(0, "", "")

    def stopped_with(self, told: str) -> None:
        """Explains why a model was refused, or why the session stopped, by what standard error said."""
        if line := re.fullmatch(r"model refused: line (\d+) (L\d.*)", told):
            say(line_fault(line[2], self.model.lines()[int(line[1]) - 1]))
        elif model := re.fullmatch(r"model refused: (M\d)", told):
            say(model_fault(model[1], [text for _, text in joined(self.model.lines())]))
        elif stop := re.fullmatch(r"stopped: (F\d)", told):
            say(said(stop[1]))


def session_of(words: list[str]) -> tuple[Model, list[str], list[str]]:
    """The model, the script's lines and the program's words."""
    if not words or words[0].startswith("--") or len(words) < 2 and words[0] != "-":
        raise Problem("a MODEL and a SCRIPT are wanted; --help shows how")
    path, *rest = words
    if path == "-":
        given = sys.stdin.buffer.read()
        if rest and not rest[0].startswith("--"):
            if rest[0] == "-":
                raise Problem("only one of the two can be standard input")
            return Model.read("-", given), lines_of(rest[0]), rest[1:]
        text, _, questions = (given.decode("latin-1") + "\n").partition("\nend\n")
        return Model.read("-", text.encode("latin-1")), questions.split("\n"), rest
    return Model.of_file(path), lines_of(rest[0]), rest[1:]


def main(words: list[str]) -> int:
    sys.stdout.reconfigure(encoding="latin-1", errors="replace")
    model, lines, asked = session_of(words)
    read_lines = script.read(lines)
    return Explainer(model, asked).explain(script.resolve(read_lines, model, asked))
