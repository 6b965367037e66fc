"""What each code means and what to do about it, by docs/codes.md, and what a single line of a model most likely means."""
import difflib
import importlib.resources
import re

from . import statements
from .script import EDITS, QUERIES

SCRIPT_WORDS = [*QUERIES, "work", "list", *EDITS, "quit"]
MOST = 1_000_000_000


def table_rows(page: str) -> list[list[str]]:
    """The cells of the tables of a page, row by row."""
    text = importlib.resources.files(__package__).joinpath(page).read_text(encoding="utf-8")
    lines = [line.strip() for line in text.split("\n")]
    rows = [[cell.strip().replace("\\|", "|") for cell in re.split(r"(?<!\\)\|", line)[1:-1]] for line in lines if
            line.startswith("|")]
    return [row for row in rows if len(row) >= 2 and not set(row[0]) <= set("-: ")]


# What is wrong, and what to do, by the code as docs/codes.md has it.
MEANINGS = {row[0].replace("`", ""): (row[1], row[2]) for row in table_rows("codes.md") if len(row) >= 3}


def left_out() -> dict[str, tuple[str, str]]:
    """What GPSS World and GPSS/H have and this language does not, by its words: what it is, and what to write."""
    found = {}
    for row in table_rows("from-gpss-world.md"):
        for item in re.findall(r"`([^`]+)`", row[0]):
            found.setdefault(item.upper(), (row[0], row[1]))
    return found


LEFT_OUT = left_out()


def plain(text: str) -> str:
    """A cell of a page as text: links without their targets."""
    return re.sub(r"\[([^\]]+)\]\([^)]+\)", r"\1", text)


def meaning(code: str) -> tuple[str, str]:
    """What is wrong and what to do, for a code with the number of an operand or without."""
    letter = code.partition(" ")[0]
    key = next((key for key in (code, f"{letter} n", letter) if key in MEANINGS), None)
    return MEANINGS.get(key, ("docs/codes.md does not have it", ""))


def said(code: str, cure: str | None = None) -> list[str]:
    """The lines on a code: what is wrong, and what to do, in general or in the case at hand. Of a line that is refused
    the case at hand says both."""
    if cure is not None and code.startswith("L"):
        return [f"{code}: {cure}"]
    what, general = meaning(code)
    if number := re.search(r"[0-9]+", code.partition(" ")[2]):
        what = re.sub(r"\bn\b", number[0], what)
    todo = general if cure is None else cure
    return [f"{code}: {what}.", *([f"What to do: {plain(todo)}"] if todo else [])]


def abbreviated(word: str) -> str | None:
    """The verb that a word of three letters or more abbreviates."""
    begun = [verb for verb in statements.VERBS if verb.startswith(word)] if len(word) >= 3 else []
    return begun[0] if len(begun) == 1 else None


def verb_meant(word: str) -> str | None:
    """The verb that a word is most likely meant to be, by its letters."""
    near = difflib.get_close_matches(word, statements.VERBS, 1, 0.7)
    return near[0] if near else None


def unknown_verb(text: str) -> str | None:
    """What the words of a line without a verb most likely mean."""
    code = statements.code_of(text).strip()
    words = re.sub(r"^[0-9]+[ \t]+", "", code).upper().split()[:2]
    if code.split()[:1] and code.split()[0].lower() in SCRIPT_WORDS and code.split()[0].upper() not in statements.VERBS:
        return None
    if code.strip().lower() == "end":
        return None
    for word in words:
        glued = re.match(r"([A-Z]+)[,;(]", word)
        if glued and glued[1] in statements.VERBS:
            return f"a blank is missing after the verb {glued[1]}."
    for word in words:
        if verb := abbreviated(word):
            return f"no verb is called {word}; {verb}? Verbs are written whole."
        if word in LEFT_OUT and not word.isdecimal():
            return left_out_cure(word)
    near = [(verb, word) for word in words if (verb := verb_meant(word))]
    if near:
        verb, word = max(near, key=lambda it: difflib.SequenceMatcher(None, *it).ratio())
        return f"no verb is called {word}; {verb}?"
    return None


def left_out_cure(item: str) -> str:
    what, cure = LEFT_OUT[item]
    return f"{item} is left out here ({plain(what).replace('`', '')}). In its place: {plain(cure)}."


def operand(text: str, place: int) -> tuple[str, str]:
    """How an operand of a statement is called, and its text: commas inside parentheses part nothing."""
    name = "the operator" if place == 0 else f"operand {place} ({chr(ord('A') + place - 1)})"
    try:
        listed = statements.parts(text.split("|")[0])[3]
    except statements.Fault:
        return name, ""
    depth, at, found = 0, 1, {}
    for byte in listed:
        if byte == "," and depth == 0:
            at = max(found, default=at) + 1 if at in found else at + 1
            continue
        depth += (byte == "(") - (byte == ")")
        if byte == "," and depth > 0:
            # the program counts this comma, too
            found[at] = found.get(at, "") + byte
            continue
        found[at] = found.get(at, "") + byte
    return name, found.get(place, found.get(max([it for it in found if it < place], default=0), ""))


def is_number_above(word: str) -> bool:
    return re.fullmatch(r"-?[0-9]+", word) is not None and abs(int(word)) > MOST


def bad_operand(code: str, text: str) -> str | None:
    """What stands in the place of an operand that is refused, and what to write."""
    try:
        label, verb, operator, listed = statements.parts(text.split("|")[0])
    except statements.Fault:
        return None
    place = int(code.split(" ")[1])
    word = operand(text, place)[1]
    attribute = re.match(r"\(?([A-Z]+)\$", word)
    bare = word.rstrip("+-")
    is_first = label is None and place == 1 and not operator and word != verb
    # a verb has operands after it, and a name has none
    has_operands = re.search(rf"(?i)\b{re.escape(word)}\s+[^;\s]", text)
    if is_first and has_operands and word.split(",")[0] in statements.VERBS:
        return f"is the label a verb's name? {verb} is read as the verb, and {word} as its operand: choose another label."
    if verb == "TRANSFER" and place == 1:
        if f"TRANSFER {word}" in TRANSFERS:
            return left_out_cure(TRANSFERS[f"TRANSFER {word}"])
        if re.fullmatch(r"[0-9]{1,3}", word):
            return f"per thousand is written as a fraction here: `TRANSFER .{int(word):03}`."
        if statements.is_name(word):
            return f"a comma stands in front of the label where the way is without condition: `TRANSFER ,{word}`."
    if function := re.search(r"([A-Z_]+)\(", word):
        return (f"there are no library distributions: {function[1]}(..) is written as a FUNCTION; docs/seeds.md has the"
                " exponential, the normal and others, `Times by a FUNCTION`.")
    if re.search(r"[0-9]*\.[0-9]+|[0-9]+\.", word) and verb != "TRANSFER":
        return "there are no decimals: values are whole numbers. Take a smaller tick, tenths of a minute or seconds."
    if any(is_number_above(it) for it in re.findall(r"-?[0-9]+", word)):
        return "values go from -1,000,000,000 to 1,000,000,000."
    if re.search(r"[*/^]", word):
        return r"in an expression `#` multiplies, `\` divides whole and `@` is the remainder; it stands in parentheses."
    if verb == "LINK" and place == 2:
        return "the word is `FIFO` or `LIFO`."
    if bare in statements.VERBS:
        return f"{bare} is a verb and so no name; call it {bare}_1, for instance, here and where it is defined."
    if re.fullmatch(rf"({'|'.join(statements.CLASSES)})", bare):
        other = "" if bare in [*statements.OF_THE_MOMENT, "RN"] else f", or write {bare}$Name"
        return f"{bare} is a class of attributes and so no name; call it {bare}_1, for instance{other}."
    if verb in ("START", "STORAGE") and re.fullmatch(r"-[0-9]+|0+", word):
        return "a count from 1 to 1,000,000,000 stands here."
    if re.fullmatch(r"-[A-Z].*", word):
        return f"a sign stands in front of digits alone; in parentheses it may stand in front of a name: `({word})`."
    if attribute and f"{attribute[1]}$" not in CLASSES_WITH_NAMES:
        rows = [it for it in LEFT_OUT if it == attribute[1]]
        return left_out_cure(rows[0]) if rows else None
    if "(" not in word and re.search(r"[+\-#\\@]", word[1:]):
        return f"an expression stands in parentheses: `({word})`."
    return None


def bad_label(text: str) -> str | None:
    """What is wrong with the label of a statement."""
    words = re.sub(r"^[0-9]+[ \t]+", "", statements.code_of(text.split("|")[0]).strip()).upper().split()
    if words and words[0] in statements.DEFINITIONS:
        return f"a {words[0]} needs its name in front: `Name {' '.join(words)}`."
    if len(words) > 1 and words[1] in statements.COMMANDS:
        return f"a {words[1]} has no label: write `{' '.join(words[1:])}`."
    of_class = re.fullmatch(rf"({'|'.join(statements.CLASSES)})([0-9]*)", words[0]) if words else None
    if of_class:
        what = "with a number " if of_class[2] else ""
        other = f"{of_class[1]}_{of_class[2] or '1'}"
        return f"{words[0]} is the class of attributes {of_class[1]} {what}and so no name; call it {other}, for instance."
    return None


TRANSFERS = {
    f"TRANSFER {mode}": item
    for item in LEFT_OUT
    if item.startswith("TRANSFER ") or item in ("PICK", "P", "SBR", "SIM")
    for mode in [item.removeprefix("TRANSFER ").split(",")[0]]
    if mode
}
CLASSES_WITH_NAMES = [f"{it}$" for it in statements.CLASSES]


def shown(text: str) -> str:
    """A line as it is shown: of one that is too long, the beginning."""
    return text if len(text) <= 250 else text[:60] + " .."


def line_fault(code: str, text: str) -> list[str]:
    """The lines on a statement that is refused: the line, the operand that is meant, and what to do."""
    place = code.split(" ")[1:]
    line = f"The line is `{shown(text.strip())}`."
    if place:
        name, word = operand(text, int(place[0]))
        # a missing operand has no text
        word = "" if code.startswith("L6") else word
        line = line[:-1] + f", and in it {name}{f', `{shown(word)}`' if word else ''}."
    cure = None
    if code == "L3":
        cure = unknown_verb(text)
    elif code == "L4":
        cure = bad_label(text)
    elif code.startswith("L5 ") and place != ["0"]:
        cure = bad_operand(code, text)
    return [line, *said(code, cure)]


def read(texts: list[str]) -> list:
    """The statements of some texts, each as an edit has it; nothing where one cannot be read."""
    try:
        return [statements.statement_of_edit(text) for text in texts]
    except (statements.Fault, ValueError, IndexError):
        return []


def misses(texts: list[str]) -> dict[str, list[tuple[str, str]]]:
    """What M1, M2, M3 and M4 are about: each name, with the statement that uses it so."""
    listed = read(texts)
    labels = [it.label for it in listed if it.label]
    of = lambda *verbs: {it.label for it in listed if it.verb in verbs}
    blocks, numbers = {it.label for it in listed if it.verb in statements.BLOCKS}, of("EQU")
    wanted = [
        ("M2", "label", None, blocks),
        ("M2", "attribute", statements.OF_BLOCKS, blocks),
        ("M3", "storage", None, of("STORAGE")),
        ("M3", "attribute", statements.OF_STORAGES, of("STORAGE")),
        ("M3", "attribute", statements.OF_VARIABLES, of("VARIABLE")),
        ("M3", "attribute", statements.OF_FUNCTIONS, of("FUNCTION")),
        ("M3", "table", None, of("TABLE")),
        ("M3", "attribute", statements.OF_TABLES, of("TABLE")),
        ("M3", "name", None, numbers),
    ]
    found: dict[str, list[tuple[str, str]]] = {"M1": [], "M2": [], "M3": [], "M4": []}
    for it, text in zip(listed, texts):
        if it.label and labels.count(it.label) > 1:
            found["M1"].append((it.label, text))
        for code, kind, classes, there in wanted:
            for leaf in it.leaves(kind):
                name = leaf[-1]
                if classes is not None and leaf[1] not in classes or name in there:
                    continue
                code_here = "M4" if code == "M3" and kind != "name" and name in numbers else code
                if (str(name), text) not in found[code_here]:
                    found[code_here].append((str(name), text))
    return found


def model_fault(code: str, texts: list[str]) -> list[str]:
    """The lines on a model that is refused as a whole: each name that is meant, in the statements that use it so."""
    found = misses(texts).get(code, [])
    lines = said(code)
    for name in dict.fromkeys(name for name, _ in found):
        users = " and ".join(f"`{text.strip()}`" for other, text in found if other == name)
        lines.insert(0, f"The name that is meant is {name}, in {users}.")
        defined = [it for it in read(texts) if it.label == name]
        seized = [it for it in read(texts) if it.verb in ("SEIZE", "RELEASE") and ("entity", name) in it.leaves("entity")]
        if code == "M3" and seized and not defined:
            lines.insert(1, f"{name} is seized elsewhere, as a facility: write SEIZE and RELEASE, or define a STORAGE.")
        near = difflib.get_close_matches(name, [it.label for it in read(texts) if it.label and it.label != name], 1, 0.75)
        if code in ("M2", "M3") and near:
            lines.insert(1, f"{near[0]} is there: is it meant?")
    return lines


def joined(lines: list[str]) -> list[tuple[int, str]]:
    """The statements of a model's lines, each with its line's number and as one text: the pairs of a FUNCTION
    follow its first line."""
    texts, wanted = [], 0
    for number, line in enumerate(lines, 1):
        code = statements.code_of(line).strip()
        if not code:
            continue
        if wanted > 0:
            texts[-1] = texts[-1][0], texts[-1][1] + "|" + code
            wanted -= code.strip("/").count("/") + 1
            continue
        texts.append((number, line))
        told = re.search(r"(?i)\bFUNCTION\s+\S*,[CD](\d+)", code)
        wanted = int(told[1]) if told else 0
    return texts


def script_fault(answer: str, line: str) -> list[str]:
    """The lines on a script's line that is no question and no edit."""
    kind = answer.split(" ")[2]
    word = line.split()[0] if line.split() else ""
    cure = None
    if kind == "command":
        near = difflib.get_close_matches(word.lower(), SCRIPT_WORDS, 1, 0.6)
        if word.startswith(("*", ";", "#")):
            cure = "a script for the program has no comments; the tools take a line that begins with `#`."
        elif word.lower() in ("help", "?"):
            cure = f"there is no help here: the words are {', '.join(SCRIPT_WORDS)}. `gpssbench --help` has them in short."
        elif word.lower() in ("exit", "bye", "stop", "halt", "end"):
            cure = "`quit` ends a session; so does the end of the input."
        elif word.lower() in ("show", "step", "continue", "trace", "print"):
            cure = "`report 1 1` shows the report of replication 1 at the end of its first START, `peek` what is recorded."
        elif word.lower() == near[0] if near else False:
            cure = f"words of a script are in small letters: `{near[0]}`, and no blank stands in front."
        elif near:
            cure = f"no line begins with `{word}`; `{near[0]}`?"
    return [told.replace("line n of the script", f"`{shown(line)}`", 1) for told in said(f"? n {kind}", cure)]


def edit_fault(code: str, line: str, texts: list[str]) -> list[str]:
    """The lines on an edit that is refused with an E of its own."""
    word, name, *rest = [*line.split(), "", ""]
    if code == "E6":
        users = [it for it in read(texts) if it.verb in ("SEIZE", "RELEASE")]
        if any(("entity", name.upper()) in it.leaves("entity") for it in users):
            return said(code, f"{name.upper()} is a facility, which holds one. For more, insert `{name} STORAGE 2` and "
                              "write ENTER and LEAVE in place of SEIZE and RELEASE.")
        storages = [it.label for it in read(texts) if it.verb == "STORAGE"]
        if storages:
            return said(code, f"the storages are {', '.join(storages)}.")
    if code.startswith("E2") and word == "capacity":
        return said(code, "a capacity is a whole number from 1 to 1,000,000,000.")
    if code == "E1":
        return said(code, f"the places are 1 to {len(texts)}{'' if word != 'insert' else f', and {len(texts) + 1} at the end'}: "
                          "`list` first.")
    return said(code)
