"""What a session writes, cut into answers, and reports cut into sections."""
import io
import re
from collections.abc import Iterator
from typing import BinaryIO

# The columns of each section after its first title, which names the section. Titles may hold blanks.
SECTIONS = {
    "START TIME": ["END TIME", "BLOCKS", "FACILITIES", "STORAGES"],
    "NAME": ["VALUE"],
    "LABEL": ["LOC", "BLOCK TYPE", "ENTRY COUNT", "CURRENT COUNT", "RETRY"],
    "FACILITY": ["ENTRIES", "UTIL.", "AVE. TIME", "AVAIL.", "OWNER", "PEND", "INTER", "RETRY", "DELAY"],
    "QUEUE": ["MAX", "CONT.", "ENTRY", "ENTRY(0)", "AVE.CONT.", "AVE.TIME", "AVE.(-0)", "RETRY"],
    "STORAGE": ["CAP.", "REM.", "MIN.", "MAX.", "ENTRIES", "AVL.", "AVE.C.", "UTIL.", "RETRY", "DELAY"],
    "TABLE": ["MEAN", "STD.DEV.", "RANGE", "RETRY", "FREQUENCY", "CUM.%"],
    "CEC XN": ["PRI", "M1", "CURRENT", "NEXT"],
    "FEC XN": ["PRI", "BDT", "CURRENT", "NEXT"],
}

# What a section of tables is cut into: a row for each table, with how many values it has, and one for each class with
# its two limits.
TABLE = ["TABLE", "MEAN", "STD.DEV.", "RETRY", "VALUES"]
CLASS = ["TABLE", "ABOVE", "TO", "FREQUENCY", "CUM.%"]

# How each kind of section is called in files and measures, with its titles.
KINDS = {
    "head": ["START TIME", *SECTIONS["START TIME"]],
    "name": ["NAME", *SECTIONS["NAME"]],
    "block": ["LABEL", *SECTIONS["LABEL"]],
    "facility": ["FACILITY", *SECTIONS["FACILITY"]],
    "queue": ["QUEUE", *SECTIONS["QUEUE"]],
    "storage": ["STORAGE", *SECTIONS["STORAGE"]],
    "table": TABLE,
    "class": CLASS,
    "current": ["CEC XN", *SECTIONS["CEC XN"]],
    "future": ["FEC XN", *SECTIONS["FEC XN"]],
}
KIND_OF = {tuple(titles): kind for kind, titles in KINDS.items()}

# The columns that are 0 in a run that did not use the entity, and so has no row for it. All others have no figure then.
ZERO_WITHOUT_ROW = {
    "facility": ["ENTRIES", "UTIL.", "OWNER", "PEND", "INTER", "RETRY", "DELAY"],
    "queue": ["MAX", "CONT.", "ENTRY", "ENTRY(0)", "AVE.CONT.", "RETRY"],
    "storage": ["MIN.", "MAX.", "ENTRIES", "AVE.C.", "UTIL.", "RETRY", "DELAY"],
    "table": ["RETRY", "VALUES"],
    "class": ["FREQUENCY"],
}


class NoAnswer(Exception):
    """Why bytes are not what a session writes."""


class BrokenOff(NoAnswer):
    """The bytes end within an answer."""


def next_answer(stream: BinaryIO):
    """The next answer of a stream: its first line and what belongs to it, the lines of a list or the first lines and
    texts of reports. None at the end."""

    def line():
        text = stream.readline()
        if not text.endswith(b"\n"):
            raise BrokenOff("it is broken off within a line" if text else "it is broken off before an answer is whole")
        return text[:-1].decode("latin-1")

    def report(head):
        length = int(head.split(" ")[4])
        text = stream.read(length)
        if len(text) < length:
            raise BrokenOff(f"the report of `{head}` is broken off")
        return text.decode("latin-1")

    first = stream.readline()
    if not first:
        return None
    if not first.endswith(b"\n"):
        raise BrokenOff("it is broken off within a line")
    first = first[:-1].decode("latin-1")
    if re.fullmatch(r"report \d+ \d+ \d+ \d+", first):
        return first, [(first, report(first))]
    if told := re.fullmatch(r"all (\d+)", first):
        parts = []
        for _ in range(int(told[1])):
            head = line()
            parts.append((head, report(head) if head.startswith("report ") else ""))
        return first, parts
    if told := re.fullmatch(r"list (\d+)", first):
        return first, [line() for _ in range(int(told[1]))]
    return first, []


def answers(written: bytes) -> Iterator[tuple[str, list]]:
    """The answers that a session wrote, as `next_answer` has each."""
    stream = io.BytesIO(written)
    while (answer := next_answer(stream)) is not None:
        yield answer


def as_written(first: str, parts: list) -> str:
    """An answer, as the program wrote it."""
    text = first + "\n" if first.split(" ")[0] != "report" else ""
    for part in parts:
        text += part + "\n" if isinstance(part, str) else part[0] + "\n" + part[1]
    return text


def rows(text: str) -> tuple[tuple[str, str, str, str], list[tuple[list[str], list[list[str]]]]]:
    """A report's replication, seed, START and outcome, and its sections, each as its titles and its rows."""
    run = re.fullmatch(r"REPLICATION (\d+) SEED (\d+) START (\d+) (.+)", text.split("\n", 1)[0])
    if run is None:
        raise NoAnswer(f"no report begins with `{text[:40]}`")
    sections = []
    for part in text.rstrip("\n").split("\n\n")[1:]:
        heading, *lines = part.split("\n")
        first = next((it for it in SECTIONS if " ".join([it, *SECTIONS[it]]).split() == heading.split()), None)
        if first is None:
            raise NoAnswer(f"a section with the heading `{heading}`")
        titles = [first, *SECTIONS[first]]
        cells = [line.split() for line in lines]
        if first == "TABLE":
            sections += tables(cells)
            continue
        # a block without a label has one field fewer
        cells = [["", *row] if first == "LABEL" and len(row) == len(titles) - 1 else row for row in cells]
        if any(len(row) != len(titles) for row in cells):
            raise NoAnswer(f"a row of the section {first}")
        sections.append((titles, cells))
    return run.groups(), sections


def tables(cells: list[list[str]]):
    """The section of tables as two: a row of four fields begins a table, and its classes follow, five fields each. A
    limit that is not there, `_`, is empty."""
    of_tables, of_classes = [], []
    for row in cells:
        if len(row) == 4:
            of_tables.append([*row, "0"])
        elif len(row) == 5 and row[1] == "-" and of_tables:
            limits = ["" if it == "_" else it for it in (row[0], row[2])]
            of_classes.append([of_tables[-1][0], *limits, *row[3:]])
            of_tables[-1][-1] = str(int(of_tables[-1][-1]) + int(row[3]))
        else:
            raise NoAnswer("a row of the section TABLE")
    return [(TABLE, of_tables), (CLASS, of_classes)]


# What an average is divided by.
OVER = {
    ("facility", "AVE. TIME"): lambda row: int(row["ENTRIES"]),
    ("queue", "AVE.TIME"): lambda row: int(row["ENTRY"]),
    ("queue", "AVE.(-0)"): lambda row: int(row["ENTRY"]) - int(row["ENTRY(0)"]),
    ("table", "MEAN"): lambda row: int(row.get("VALUES", 1)),
    ("table", "STD.DEV."): lambda row: int(row.get("VALUES", 2)) - 1,
}


def figure(kind: str, column: str, row: dict[str, str] | None) -> float | None:
    """The figure of a column in a row of a report. A run without a row for the entity did not use it: contents, counts
    and utilizations are 0 then, and all else has no figure. Neither has an average over nothing."""
    if row is None:
        return 0.0 if column in ZERO_WITHOUT_ROW.get(kind, []) else None
    over = OVER.get((kind, column))
    if over is not None and over(row) <= 0:
        return None
    try:
        return float(row[column])
    except ValueError:
        raise NoAnswer(f"`{row[column]}` in the column {column} is no number") from None
