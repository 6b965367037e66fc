"""What may stand where a statement is being typed: verbs, operators, key words, and the names of the model that fit.

The grammar of `statements` says what the form of each operand is. The two tables here say of which kind an entity is: by
the verb, or the operator, whose operand it is, and by the class of an attribute."""
import re
from collections.abc import Iterable

from . import statements

# The kind of the entity that a verb names; of a GATE it is by the operator.
OF_VERB = {
    "QUEUE": "queue", "DEPART": "queue", "SEIZE": "facility", "RELEASE": "facility", "LOGIC": "switch",
    "SAVEVALUE": "savevalue", "ASSIGN": "parameter", "LOOP": "parameter", "LINK": "chain", "UNLINK": "chain",
    "GATE U": "facility", "GATE NU": "facility", "GATE LS": "switch", "GATE LR": "switch", "GATE SE": "storage",
    "GATE SNE": "storage", "GATE SF": "storage", "GATE SNF": "storage",
}
# The kind of the entity that an attribute is of, by its class.
OF_CLASS = {
    "F": "facility", "FC": "facility", "Q": "queue", "QC": "queue", "QM": "queue", "QZ": "queue", "S": "storage",
    "R": "storage", "SC": "storage", "SM": "storage", "P": "parameter", "X": "savevalue", "LS": "switch", "CH": "chain",
    "CC": "chain", "TC": "table", "V": "variable", "FN": "function", "N": "label", "W": "label",
}
# The kind of what the label of a definition names; the label of a block is a label.
OF_DEFINITION = {"STORAGE": "storage", "TABLE": "table", "VARIABLE": "variable", "FUNCTION": "function", "EQU": "number"}
LONGEST = 250
ENDS_A_WORD = r" \t,()+\-#\\@"

# The names of a model by their kinds.
Names = dict[str, list[str]]


def names_of(listed: Iterable[statements.Statement]) -> Names:
    """The names of a model's statements, by kind and in order."""
    found: dict[str, set[str]] = {}

    def add(kind: str | None, name) -> None:
        if kind and isinstance(name, str):
            found.setdefault(kind, set()).add(name)

    for it in listed:
        add(OF_DEFINITION.get(it.verb, "label"), it.label)
        first = it.tree(0)
        if first and first[0] == "entity":
            add(kind_of(it.verb, it.auxiliary), first[-1])
        for _, of, name in it.leaves("attribute"):
            add(OF_CLASS.get(of), name)
    return {kind: sorted(names) for kind, names in found.items()}


def kind_of(verb: str, auxiliary: str | None) -> str | None:
    return OF_VERB.get(f"{verb} {auxiliary}" if verb == "GATE" else verb)


def offered(names: Names, typed: str) -> tuple[str, list[str]]:
    """What stands in front of the word that is being typed, and the words that it may become."""
    if len(typed) > LONGEST:
        return typed, []
    word = re.search(rf"[^{ENDS_A_WORD}]*$", typed)[0]
    front = typed[: len(typed) - len(word)]
    return front, [it for it in fitting(names, front.upper(), word.upper()) if it.startswith(word.upper())]


def fitting(names: Names, front: str, word: str) -> list[str]:
    """The words that may follow a part of a statement."""
    words = front.split()
    at = next((at for at, it in enumerate(words[:2]) if it in statements.VERBS), None)
    if at is None:
        return statements.VERBS if len(words) < 2 else []
    verb, auxiliary = words[at], None
    if verb in statements.AUXILIARIES:
        at += 1
        if at == len(words):
            return statements.AUXILIARIES[verb]
        auxiliary = words[at]
    begun = re.match(rf"[ \t]*(?:[^ \t]+[ \t]+){{{at + 1}}}", front)
    return for_operand(names, verb, auxiliary, front[begun.end() :], word) if begun else []


def for_operand(names: Names, verb: str, auxiliary: str | None, listed: str, word: str) -> list[str]:
    """The words that may follow a part of a list of operands."""
    outside = re.sub(r"\([^()]*\)", "", listed)
    while outside != (inner := re.sub(r"\([^()]*\)", "", outside)):
        outside = inner
    *before, begun = outside.split(",")
    is_inside = "(" in outside
    if is_inside:
        before, form = [], "value"
    elif begun.strip():
        return []
    else:
        form = form_at(verb, before)
    of, dollar, _ = word.partition("$")
    if dollar:
        return [f"{of}${name}" for name in names.get(OF_CLASS.get(of, ""), [])]
    if form in ("entity", "changed"):
        return names.get(kind_of(verb, auxiliary) or "", [])
    if form in ("value", "expression"):
        return [*names.get("number", []), *attributes(names)]
    return statements.KEY_WORDS.get(form) or names.get(form, [])


def form_at(verb: str, before: list[str]) -> str:
    """The form of the operand after some others."""
    forms = statements.FORMS[verb].split()
    if verb == "TRANSFER" and before and not before[0].strip():
        forms = ["label", "label"]
    return forms[len(before)].rstrip("!") if len(before) < len(forms) else ""


def attributes(names: Names) -> list[str]:
    """The attributes of what the model has."""
    return sorted(f"{of}${name}" for of, kind in OF_CLASS.items() for name in names.get(kind, []))
