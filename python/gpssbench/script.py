"""Scripts for the tools: places by label or by text, and names of versions.

A script for the tools is one for the program, with two things more:

    # two doctors                                   names the version that the next query asks
    change @Serve ADVANCE 160,40                    the statement with the label Serve, which keeps its label
    delete @/ADVANCE 960/                           the one statement with this text
    insert before @Serve QUEUE Line                 and `insert after @Serve ..`

`resolve` looks the places up in what `list` shows at that moment, and refuses no hit and two hits with the candidates."""
import difflib
import re
from dataclasses import dataclass

from .command import Problem
from .program import Ended, Model, Session

QUERIES = ("report", "all", "peek")
EDITS = ("insert", "delete", "change", "capacity", "seed", "replicate", "drop", "horizon")
PLACE = re.compile(
    r"(?P<word>change|delete|insert)(?: +(?P<side>before|after))? +@(?:/(?P<text>.+?)/|(?P<label>[^ /][^ ]*))"
    r"(?: +(?P<rest>\S.*))? *"
)


@dataclass
class Line:
    """A line of a script: its number, its text, what the program is given for it, and the name that it gives."""

    number: int
    text: str
    plain: str
    name: str | None = None

    @property
    def word(self) -> str:
        return self.plain.split(" ", 1)[0]


class NoPlace(Problem):
    """Why a place by label or text is none."""


def read(lines: list[str]) -> list[Line]:
    """The lines of a script; what names a version is blank for the program, so that its own numbers stay right."""
    found = []
    for number, text in enumerate(lines, 1):
        comment = text.strip(" \t")
        if comment.startswith("#"):
            found.append(Line(number, text, "", name_of(comment[1:].strip()) or None))
        else:
            found.append(Line(number, text, text))
    return found


def name_of(text: str) -> str:
    """A name from a line whose bytes were read one by one; most files are UTF-8."""
    try:
        return text.encode("latin-1").decode("utf-8")
    except UnicodeError:
        return text


def has_places(lines: list[Line]) -> bool:
    """Whether a script names a place by label or text, so that the model must be asked."""
    return any(is_by_place(line.plain) for line in lines)


def is_by_place(text: str) -> bool:
    words = text.split(maxsplit=2)
    return len(words) > 1 and words[0] in ("insert", "delete", "change") and words[1].startswith(("@", "before", "after"))


def label_of(statement: str, verbs: frozenset[str]) -> str | None:
    """The label of a statement as `list` shows it."""
    first, _, rest = statement.partition(" ")
    return first if first not in verbs and rest.split(" ", 1)[0] in verbs else None


def hits(listed: list[str], label: str | None, text: str | None, verbs: frozenset[str]) -> list[int]:
    """The places, from 1 on, of the statements with a label, or with a text that begins and ends with a word."""
    if label is not None:
        return [place for place, it in enumerate(listed, 1) if label_of(it, verbs) == label.upper()]
    wanted = r"[ \t]+".join(map(re.escape, text.upper().split()))
    found = re.compile(rf"(?<![\w.$]){wanted}(?![\w.$])" if text.strip()[-1:].isalnum() else rf"(?<![\w.$]){wanted}")
    return [place for place, it in enumerate(listed, 1) if found.search(it)]


def resolved(text: str, listed: list[str]) -> str:
    """A line with a place by label or text as the program takes it."""
    from .statements import COMMANDS, VERBS

    verbs = frozenset(VERBS)
    parts = PLACE.fullmatch(text)
    if parts is None:
        raise NoPlace(f"`{text}`: a place is written `change @Label TEXT`, `delete @/text/` or `insert before @Label TEXT`")
    word, side, rest = parts["word"], parts["side"], parts["rest"]
    if (word == "insert") != (side is not None):
        which = "`insert before @..` or `insert after @..`" if word == "insert" else f"`{word} @..` without before or after"
        raise NoPlace(f"`{text}`: write {which}")
    if (word == "delete") == bool(rest):
        raise NoPlace(f"`{text}`: {'a delete has nothing after its place' if rest else 'the statement is missing'}")
    found = hits(listed, parts["label"], parts["text"], verbs)
    what = f"the label {parts['label'].upper()}" if parts["label"] else f"the text `{parts['text'].upper()}`"
    if not found:
        labels = {label_of(it, verbs): place for place, it in enumerate(listed, 1) if label_of(it, verbs)}
        names = labels if parts["label"] else {it: place for place, it in enumerate(listed, 1)}
        near = difflib.get_close_matches((parts["label"] or parts["text"]).upper(), list(names), 3, 0.5)
        meant = "; meant: " + ", ".join(f"{it} (place {names[it]})" for it in near) + "?" if near else ""
        raise NoPlace(f"no statement has {what}{meant}")
    if len(found) > 1:
        shown = "; ".join(f"{place} {listed[place - 1]}" for place in found[:8])
        raise NoPlace(f"{len(found)} statements have {what}: {shown}")
    place = found[0]
    if word == "delete":
        return f"delete {place}"
    if word == "insert":
        return f"insert {place + (side == 'after')} {rest}"
    own = label_of(listed[place - 1], verbs)
    first, second = (rest.upper().split() + ["", ""])[:2]
    has_label = second in verbs and first not in verbs
    keeps = own is not None and not has_label and first not in COMMANDS
    return f"change {place} {own + ' ' if keeps else ''}{rest}"


def listed(session: Session) -> list[str]:
    """The statements of an open session, without their places."""
    return [line.partition(" ")[2] for line in session.ask("list")[1]]


def resolve(lines: list[Line], model: Model, words: list[str]) -> list[Line]:
    """The lines as the program takes them. Only edits are made for it, and nothing is simulated. Where the program ends
    early, the lines after that stay as they are."""
    if not has_places(lines):
        return lines
    with Session(model, words) as session:
        try:
            for line in lines:
                if is_by_place(line.plain):
                    try:
                        line.plain = resolved(line.plain, listed(session))
                    except NoPlace as why:
                        raise NoPlace(f"line {line.number} of the script: {why}") from None
                if line.word in EDITS:
                    session.ask(line.plain)
                elif line.word == "quit":
                    break
        except Ended:
            pass
    return lines


def plain(lines: list[Line]) -> list[str]:
    """What the program is given."""
    return [line.plain for line in lines]
