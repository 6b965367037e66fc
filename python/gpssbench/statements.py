"""How tests/oracle.py reads statements: the label, the verb and the operands of a line, or the first fault in it."""
import re

BLOCKS = (
    "GENERATE ADVANCE TERMINATE QUEUE DEPART SEIZE RELEASE ENTER LEAVE TRANSFER TEST GATE LOGIC SAVEVALUE MARK"
    " PRIORITY BUFFER ASSIGN LOOP SPLIT LINK UNLINK TABULATE"
).split()
DEFINITIONS = "STORAGE EQU VARIABLE FUNCTION TABLE".split()
COMMANDS = "START RESET CLEAR RMULT".split()
VERBS = BLOCKS + DEFINITIONS + COMMANDS
# The operands of a verb: a value, an entity, one with a sign after it or none, a storage, a table, a label, a
# fraction, an expression, a number, a count, a number of classes, a seed, a value or ALL (`some`), FIFO or LIFO
# (`order`), or a key word; `!` where one must be there.
FORMS = {
    "GENERATE": "value value value value value",
    "ADVANCE": "value value",
    "TERMINATE": "value",
    "PRIORITY": "value!",
    "QUEUE": "entity! value",
    "DEPART": "entity! value",
    "SEIZE": "entity!",
    "RELEASE": "entity!",
    "ENTER": "storage! value",
    "LEAVE": "storage! value",
    "TRANSFER": "fraction! label label!",
    "TEST": "value! value! label",
    "GATE": "entity! label",
    "LOGIC": "entity!",
    "SAVEVALUE": "changed! value!",
    "MARK": "",
    "ASSIGN": "changed! value!",
    "LOOP": "entity! label!",
    "BUFFER": "",
    "SPLIT": "value! label",
    "LINK": "entity! order!",
    "UNLINK": "entity! label! some",
    "TABULATE": "table!",
    "STORAGE": "count!",
    "EQU": "number!",
    "VARIABLE": "expression!",
    "FUNCTION": "value! curve!",
    "TABLE": "value! number! count! classes!",
    "START": "count! NP",
    "RESET": "",
    "CLEAR": "",
    "RMULT": "seed seed seed seed seed seed seed",
}
# The operators of a verb that has one: a word of its own in front of the operands.
AUXILIARIES = {
    "TEST": "E NE G GE L LE".split(),
    "GATE": "U NU LS LR SE SNE SF SNF".split(),
    "LOGIC": "S R I".split(),
}
# The operators of a GATE that asks a storage, and no other entity.
OF_A_STORAGE = "SE SNE SF SNF".split()
CLASSES = "C1 AC1 TG1 M1 XN1 PR P F FC S R SC SM Q QC QM QZ N W X LS CH CC TC RN V FN".split()
OF_THE_MOMENT = "C1 AC1 TG1 M1 XN1 PR".split()
OF_BLOCKS = "N W".split()
OF_STORAGES = "S R SC SM".split()
OF_VARIABLES = ["V"]
OF_FUNCTIONS = ["FN"]
OF_TABLES = ["TC"]
OF_ENTITIES = "P F FC Q QC QM QZ X LS CH CC".split()
POINT = r"-?(?:[0-9]+(?:\.[0-9]{0,6})?|\.[0-9]{1,6})"
TOKEN = re.compile(r"[A-Z0-9_$]+|[-+#\\@()]")
DEEPEST = 32


class Fault(Exception):
    """Why a text is no statement: L1 to L8, with the operand where one is at fault."""


class Bad(Exception):
    """A text is no operand of its form."""


class Statement:
    """A label, a verb, its operator where it has one, and operands, each as a tree: its kind, and what it is of or, in
    an expression, the parts. A FUNCTION has points, in millionths, which further lines bring."""

    def __init__(self, text):
        self.label, self.verb, self.auxiliary, self.listed = parts(text)
        self.operands = self.listed.split(",") if self.listed else []
        self.trees = list(read_operands(self.verb, self.auxiliary, self.operands))
        self.id, self.points = None, []

    def wants_pairs(self):
        return self.verb == "FUNCTION" and len(self.points) < int(self.operand(1)[1:])

    def add_pairs(self, code):
        """Adds the pairs of a further line, of which the comment with `;` is gone."""
        listed, end = operand_list(code)
        ascii_only(code[:end])
        for pair in listed.removesuffix("/").split("/"):
            point = re.fullmatch(f"({POINT}),({POINT})", pair)
            if point is None or not self.wants_pairs():
                raise Fault("L8")
            x, y = map(millionths, point.groups())
            if max(abs(x), abs(y)) > 10**15 or self.points and x <= self.points[-1][0]:
                raise Fault("L8")
            self.points.append((x, y))
        self.listed += "|" + listed

    def operand(self, place):
        return self.operands[place] if place < len(self.operands) and self.operands[place] else None

    def tree(self, place):
        return self.trees[place] if place < len(self.trees) else None

    def sign(self):
        """The sign after the first operand, where there is one."""
        return self.operand(0)[-1] if self.operand(0)[-1] in "+-" else ""

    def number(self, place):
        """The number of an operand that takes digits only."""
        return int(self.operand(place))

    def leaves(self, kind):
        """All of a kind in the operands, from left to right, inside parentheses too."""
        return [leaf for tree in self.trees for leaf in leaves(tree) if leaf[0] == kind]

    def text(self):
        return " ".join(part for part in (self.label, self.verb, self.auxiliary, self.listed) if part)

    def names(self):
        """The names of the statement, the label first."""
        words = [self.label] if self.label else []
        own = [leaf[-1] for tree in self.trees for leaf in leaves(tree) if leaf[0] != "word"]
        return words + [word for word in own if isinstance(word, str)]


def leaves(tree):
    if tree is None:
        return []
    if tree[0] not in OPERATORS:
        return [tree]
    return [leaf for part in tree[1:] for leaf in leaves(part)]


def millionths(digits):
    """A point's number, exactly."""
    whole, _, decimals = digits.lstrip("-").partition(".")
    number = int(whole or "0") * 10**6 + int(decimals.ljust(6, "0"))
    return -number if digits[0] == "-" else number


def is_name(word):
    barred = word in VERBS or re.fullmatch(f"({'|'.join(CLASSES)})[0-9]*", word)
    return re.fullmatch("[A-Z][A-Z0-9_]{0,199}", word) is not None and not barred


# ---- lines


def statements_of(text):
    """The statements of a model, numbered; the line of a fault stands in front of it."""
    lines, statements, began = text.replace("\r\n", "\n").split("\n"), [], 0
    for number, line in enumerate(lines, 1):
        try:
            if len(line) > 250:
                raise Fault("L1")
            if code_of(line) and statements and statements[-1].wants_pairs():
                statements[-1].add_pairs(code_of(line))
            elif code_of(line):
                began = number
                statements.append(Statement(line))
        except Fault as fault:
            raise Fault(f"line {number} {fault}") from None
    if statements and statements[-1].wants_pairs():
        raise Fault(f"line {began} L8")
    for id, statement in enumerate(statements, 1):
        statement.id = id
    return statements


def statement_of_edit(text):
    """The statement of an edit's text, in which `|` ends a line."""
    lines = text.split("|")
    if len(lines) > 1 and not lines[-1]:
        lines.pop()
    if any(len(line) > 250 for line in lines):
        raise Fault("L1")
    fault = None
    try:
        statement = Statement(lines[0])
    except Fault as found:
        fault = found
    if str(fault) != "L2":
        for code in filter(None, map(code_of, lines[1:])):
            ascii_only(code[: operand_list(code)[1]])
    if fault:
        may_miss = len(lines) == 1 or " FUNCTION" in code_of(lines[0]).upper() and may_be_pairs(lines[1:])
        raise Fault("L8") if str(fault)[:2] == "L6" and not may_miss else fault
    for line in lines[1:]:
        if not statement.wants_pairs():
            raise Fault("L8")
        if code_of(line):
            statement.add_pairs(code_of(line))
    if statement.wants_pairs():
        raise Fault("L8")
    return statement


def may_be_pairs(lines):
    """Whether lines are all the pairs of a FUNCTION that has as many points as they bring."""
    function = Statement("Any FUNCTION 1,C1000")
    try:
        for code in filter(None, map(code_of, lines)):
            function.add_pairs(code)
    except Fault:
        return False
    return code_of(lines[-1]) != ""


def parts(line):
    """The label, the verb, its operator and the list of operands of a line, in upper case and without the blanks that
    are skipped."""
    code = code_of(line).upper()
    code = code[re.match(r"([0-9]+[ \t]+)?", code).end() :]
    first, second = re.match(r"([^ \t]*)[ \t]*([^ \t]*)", code).groups()
    label, verb = (None, first) if first in VERBS else (first, second)
    if verb not in VERBS:
        ascii_only(code)
        raise Fault("L4" if second and not is_name(first) else "L3")
    start = code.index(verb, len(label or "")) + len(verb)
    auxiliary = None
    if verb in AUXILIARIES:
        word = re.match(r"[ \t]*([^ \t]*)", code[start:])
        auxiliary, start = word[1], start + word.end()
    listed, end = operand_list(code[start:])
    ascii_only(code[: start + end])
    if label is not None and not is_name(label):
        raise Fault("L4")
    if (label is None and verb in DEFINITIONS) or (label is not None and verb in COMMANDS):
        raise Fault("L4")
    if auxiliary == "":
        raise Fault("L6 0")
    if auxiliary and auxiliary not in AUXILIARIES[verb]:
        raise Fault("L5 0")
    return label, verb, auxiliary, listed


def code_of(line):
    """What stands in front of a comment with `;`, from the first mark on; nothing of a line whose first mark is `*`."""
    code = line.split(";")[0].lstrip(" \t")
    return "" if code[:1] == "*" else code


def ascii_only(code):
    if any(ord(byte) >= 128 for byte in code):
        raise Fault("L2")


def operand_list(text):
    """The operands up to the first blank outside parentheses, and where they end; blanks within and after a comma are
    dropped."""
    listed, depth = "", 0
    for at, byte in enumerate(text):
        if byte in " \t":
            if listed and depth == 0 and listed[-1] != ",":
                return listed, at
            continue
        depth += byte == "("
        depth -= byte == ")" and depth > 0
        listed += byte
    return listed, len(text)


# ---- operands


def read_operands(verb, auxiliary, operands):
    """The tree of each operand; None where one is absent."""
    forms = FORMS[verb].split()
    if not forms and operands:
        raise Fault("L7 1")
    if verb == "TRANSFER" and not (operands and operands[0]):
        forms = ["label", "label!"]
    if verb == "GATE" and auxiliary in OF_A_STORAGE:
        forms[0] = "storage!"
    for place, word in enumerate(operands, 1):
        if place > len(forms):
            raise Fault(f"L7 {place}")
        try:
            if forms[place - 1] == "classes!" and word and not last_limit_is_a_value(*operands[1:3], word):
                raise Bad
            yield read_operand(forms[place - 1].rstrip("!"), word) if word else None
        except Bad:
            raise Fault(f"L5 {place}") from None
    given = [place < len(operands) and operands[place] != "" for place in range(len(forms))]
    missing = [place for place, form in enumerate(forms) if form.endswith("!") and not given[place]]
    if missing or verb == "GENERATE" and not (given[0] or given[3]):
        raise Fault(f"L6 {missing[0] + 1 if missing else 1}")


def last_limit_is_a_value(first, width, classes):
    """Whether the limit of the last class but one of a TABLE is a value; its first limit and its width are lawful, or
    absent."""
    return not (first and width and classes.isdigit()) or int(first) + (int(classes) - 2) * int(width) <= 10**9


def read_operand(form, word):
    if form == "changed":
        return read_operand("entity", word[:-1] if word[-1] in "+-" and len(word) > 1 else word)
    if form == "some" and word != "ALL":
        return read_operand("value", word)
    if form in ("value", "entity") and word[0] == "(":
        return in_parentheses(word)
    if form == "expression":
        return whole(word, total)
    if form == "value":
        return constant(word) if word[0] in "-0123456789" else single(word)
    if form == "entity" and word[0].isdigit():
        return constant(word, 1)
    if form == "entity" and attribute(word):
        return attribute(word)
    if form in ("entity", "storage", "table", "label"):
        return named(form, word)
    return as_word(form, word)


KEY_WORDS = {"NP": ["NP"], "order": ["FIFO", "LIFO"], "some": ["ALL"]}


def as_word(form, word):
    """An operand that is neither a value nor a name of its own."""
    if form == "fraction":
        if not re.fullmatch(r"[0-9]+\.[0-9]{0,6}|\.[0-9]{1,6}", word) or float(word) > 1:
            raise Bad
    elif form in KEY_WORDS:
        if word not in KEY_WORDS[form]:
            raise Bad
    elif form == "curve":
        if not re.fullmatch("[CD][0-9]+", word) or not 1 <= int(word[1:]) <= 1000:
            raise Bad
    else:
        least = {"number": -(10**9), "classes": 2}.get(form, 1)
        constant(word, least, {"seed": 2147483646, "classes": 1000}.get(form, 10**9))
    return "word", word


def constant(word, least=-(10**9), most=10**9):
    if not re.fullmatch("-?[0-9]+", word) or not least <= int(word) <= most:
        raise Bad
    return "number", int(word)


def named(kind, word):
    if not is_name(word):
        raise Bad
    return kind, word


def single(word):
    """A number without a sign, an attribute, or a name with an EQU."""
    if word[0].isdigit():
        return constant(word)
    return attribute(word) or named("name", word)


def attribute(word):
    """The class of an attribute, with the number or the name of what it is of; None where a word is no attribute."""
    if word in OF_THE_MOMENT:
        return "attribute", word, None
    read = re.fullmatch(r"([A-Z]+)(?:([0-9]+)|\$(.+))", word)
    if read is None:
        return None
    of, digits, name = read.groups()
    of_definitions = OF_STORAGES + OF_VARIABLES + OF_FUNCTIONS + OF_TABLES
    with_names, numbered = OF_BLOCKS + of_definitions + OF_ENTITIES, of_definitions + OF_ENTITIES + ["RN"]
    if digits and of in numbered and 1 <= int(digits) <= (7 if of == "RN" else 10**9):
        return "attribute", of, int(digits)
    return ("attribute", of, name) if name and of in with_names and is_name(name) else None


# ---- parentheses


OPERATORS = ["+", "-", "#", "\\", "@"]


def in_parentheses(word):
    """The tree of an operand that is one pair of parentheses with what stands in it."""
    return whole(word, factor)


def whole(word, part):
    """The tree of a word that is a part of an expression, and no more."""
    tokens = TOKEN.findall(word)
    if "".join(tokens) != word:
        raise Bad
    tree = part(tokens, 0)
    if tokens:
        raise Bad
    return tree


def total(tokens, depth):
    tree = product(tokens, depth)
    while tokens and tokens[0] in "+-":
        tree = tokens.pop(0), tree, product(tokens, depth)
    return tree


def product(tokens, depth):
    tree = factor(tokens, depth)
    while tokens and tokens[0] in "#\\@":
        tree = tokens.pop(0), tree, factor(tokens, depth)
    return tree


def factor(tokens, depth):
    if not tokens:
        raise Bad
    token = tokens.pop(0)
    if token == "-":
        return "-", factor(tokens, depth)
    if token != "(":
        return single(token)
    if depth == DEEPEST:
        raise Bad
    tree = total(tokens, depth + 1)
    if not tokens or tokens.pop(0) != ")":
        raise Bad
    return tree
