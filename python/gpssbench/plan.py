"""The plan of a study, as a TOML file has it: a model, what is varied, what is measured, and how often."""
import itertools
import re
import tomllib
from dataclasses import dataclass, field

from . import codes, script, statements
from .bench import Bench, Measure, Refused
from .command import Problem
from .program import Ended
from .seeds import PLAIN

KEYS = {
    "model", "start", "replications", "precision", "most", "design", "level", "horizon", "limit", "draws", "edits", "base",
    "factors", "alternatives", "measures", "best",
}
AS_IT_IS = "as it is"
# Edits that a study makes itself, and those that a plan may have.
OF_REPLICATIONS = ("seed", "replicate", "drop")
EDITS = tuple(it for it in script.EDITS if it not in OF_REPLICATIONS)


@dataclass
class Cell:
    """A scenario of a study: its name, the level of each factor, its edits as the plan has them and as the program takes
    them, and its statements."""

    name: str
    levels: dict[str, str]
    edits: list[str]
    plain: list[str] = field(default_factory=list)
    texts: list[str] = field(default_factory=list)


@dataclass
class Plan:
    """A plan that was read and found to be sound, but for what only the program knows."""

    text: str
    model: str
    start: int
    replications: int
    precision: float | None
    most: int
    design: str
    level: float
    horizon: int | None
    limit: int | None
    draws: int | None
    base: str
    cells: list[Cell]
    factors: dict[str, list[str]]
    measures: dict[str, Measure]
    best: dict[str, str]

    def words(self) -> list[str]:
        """The program's words: no states are kept but at the ends, since each session asks once."""
        given = [("--every", 1_000_000), ("--horizon", self.horizon), ("--limit", self.limit)]
        return [word for name, value in given if value is not None for word in (name, str(value))]

    def is_whole(self, outcome: str) -> bool:
        """Whether a run ended as it should."""
        return outcome == "COMPLETE" or self.horizon is not None and outcome == "HORIZON"


def number(table: dict, key: str, usual, least: int, most: int):
    value = table.get(key, usual)
    if value is not usual and (not isinstance(value, int) or isinstance(value, bool) or not least <= value <= most):
        raise Problem(f"{key} = {value!r}: a whole number from {least:,} to {most:,} is wanted")
    return value


def texts_of(table: dict, where: str) -> list[str]:
    """The edits of a part of the plan: `edit = ".."` or `edits = [..]`."""
    one, several = table.get("edit"), table.get("edits")
    listed = [one] if several is None and one is not None else several
    if not isinstance(listed, list) or not listed or not all(isinstance(it, str) and it.strip() for it in listed):
        raise Problem(f"{where} wants an edit, as edit = \"capacity Docs 4\", or several, as edits = [..]")
    if not all(it.isascii() and it.isprintable() for it in listed):
        raise Problem(f"{where}: an edit is one line of plain letters, digits and signs")
    return listed


def part(table: dict, key: str) -> dict:
    value = table.get(key, {})
    if not isinstance(value, dict):
        raise Problem(f"[{key}] is a table of the plan")
    return value


def factors_of(plan: dict) -> dict[str, list[tuple[str, list[str]]]]:
    """The levels of each factor, each with its edits."""
    found = {}
    for name, table in part(plan, "factors").items():
        where = f"[factors.{name}]"
        if not isinstance(table, dict) or set(table) - {"edit", "edits", "values"}:
            raise Problem(f"{where} has an edit and values, and nothing else")
        values = table.get("values")
        if not isinstance(values, list) or not values or not all(isinstance(it, (int, str)) for it in values):
            raise Problem(f"{where} wants values, as values = [3, 4, 5] or values = [\"160,40\", \"140,40\"]")
        if len(set(map(str, values))) < len(values):
            raise Problem(f"{where} has a value twice")
        edits = texts_of(table, where)
        if not any("{}" in it for it in edits):
            raise Problem(f"{where}: `{edits[0]}` has no {{}} for the value")
        found[name] = [(str(value), [it.replace("{}", str(value)) for it in edits]) for value in values]
    return found


def cells_of(plan: dict, design: str) -> list[Cell]:
    """The scenarios: the grid of all factors, or each factor by itself, and the alternatives."""
    common = texts_of(plan, "the plan") if "edits" in plan else []
    factors = factors_of(plan)
    alternatives = part(plan, "alternatives")
    cells = []
    as_is = Cell(AS_IT_IS, {}, common)
    if not factors or design == "one-at-a-time" or alternatives:
        cells.append(as_is)
    if design == "grid" and factors:
        for chosen in itertools.product(*factors.values()):
            levels = {name: level for name, (level, _) in zip(factors, chosen)}
            name = " ".join(f"{factor}={level}" for factor, level in levels.items())
            cells.append(Cell(name, levels, [*common, *(edit for _, edits in chosen for edit in edits)]))
    elif factors:
        for factor, listed in factors.items():
            cells += [Cell(f"{factor}={level}", {factor: level}, [*common, *edits]) for level, edits in listed]
    for name, table in alternatives.items():
        if not isinstance(table, dict) or set(table) - {"edit", "edits"}:
            raise Problem(f"[alternatives.{name}] has edits, and nothing else")
        cells.append(Cell(name, {}, [*common, *texts_of(table, f"[alternatives.{name}]")]))
    names = [cell.name for cell in cells]
    if len(set(names)) < len(names):
        raise Problem(f"two scenarios have the name {next(it for it in names if names.count(it) > 1)}")
    return cells


def measures_of(plan: dict) -> dict[str, Measure]:
    table = part(plan, "measures")
    if not table:
        raise Problem("[measures] is missing: what is measured, as wait = \"queue LINE AVE.TIME\"")
    found = {}
    for name, text in table.items():
        if not isinstance(text, str):
            raise Problem(f"measures: {name} is written as {name} = \"queue LINE AVE.TIME\"")
        try:
            found[name] = Measure.read(text)
        except Problem as why:
            raise Problem(f"measures, {name}: {why}") from None
    return found


def read(text: str) -> Plan:
    """The plan of a text."""
    try:
        plan = tomllib.loads(text)
    except tomllib.TOMLDecodeError as why:
        raise Problem(f"the plan is no TOML: {why}") from None
    unknown = sorted(set(plan) - KEYS)
    if unknown:
        raise Problem(f"the plan has no key {unknown[0]}, but {', '.join(sorted(KEYS))}")
    if not isinstance(plan.get("model"), str):
        raise Problem("the plan wants a model, as model = \"clinic.gps\"")
    design = plan.get("design", "grid")
    if design not in ("grid", "one-at-a-time"):
        raise Problem(f"design = {design!r}: \"grid\" or \"one-at-a-time\" is wanted")
    precision = None
    if "precision" in plan:
        told = re.fullmatch(r"(\d+(?:\.\d+)?) *%", str(plan["precision"]))
        if told is None or not 0 < float(told[1]) < 100:
            raise Problem(f"precision = {plan['precision']!r}: a share of the mean is wanted, as \"5%\"")
        precision = float(told[1]) / 100
    level = plan.get("level", 95)
    if not isinstance(level, (int, float)) or not 50 <= level < 100:
        raise Problem(f"level = {level!r}: per cent from 50 to below 100 are wanted, as 95")
    replications = number(plan, "replications", 32, 2, 100_000)
    cells, measures = cells_of(plan, design), measures_of(plan)
    base = plan.get("base", cells[0].name)
    if base not in [cell.name for cell in cells]:
        raise Problem(f"base = {base!r}: no scenario has that name; they are {', '.join(it.name for it in cells[:20])}")
    best = part(plan, "best")
    for name, which in best.items():
        if name not in measures or which not in ("least", "greatest"):
            raise Problem(f"best: {name} = {which!r}: a measure is \"least\" or \"greatest\"; the measures are {', '.join(measures)}")
    return Plan(
        text=text, model=plan["model"], start=number(plan, "start", 1, 1, 10**9), replications=replications,
        precision=precision, most=max(replications, number(plan, "most", 1000, 2, 100_000)), design=design,
        level=level / 100, horizon=number(plan, "horizon", None, 1, 10**12), limit=number(plan, "limit", None, 1, 10**6),
        draws=number(plan, "draws", None, 1, 10**9), base=base, cells=cells,
        factors={name: [level for level, _ in listed] for name, listed in factors_of(plan).items()}, measures=measures,
        best=best,
    )


def prepare(plan: Plan, model: str) -> None:
    """Asks the program what only it knows, and simulates nothing: whether the model is read, each edit of each cell is
    accepted, each measure is of something that is there, and there are STARTs enough."""
    for cell in plan.cells:
        with Bench("-", text=model) as bench:
            try:
                bench.list()
            except Refused as why:
                raise Problem(f"the model {plan.model} is refused: {why}") from None
            except Ended as why:
                raise Problem(f"the program ended: {why}") from None
            for edit in cell.edits:
                try:
                    word = edit.partition(" ")[0]
                    if word in OF_REPLICATIONS:
                        raise Problem("the study chooses the replications and their seeds")
                    if word not in EDITS:
                        raise Problem(f"an edit begins with one of {', '.join(EDITS)}")
                    bench.edit(edit)
                except (Refused, Problem) as why:
                    raise Problem(f"scenario {cell.name}: the edit `{edit}` is refused: {why}") from None
            cell.plain, cell.texts = list(bench.script), bench.list()
        starts = sum(it.verb == "START" for it in codes.read(cell.texts))
        if starts < plan.start:
            raise Problem(f"scenario {cell.name}: start = {plan.start}, and the model has {starts} START")
    drop_twin(plan)
    for name, measure in plan.measures.items():
        if why := of_nothing(measure, [cell.texts for cell in plan.cells]):
            raise Problem(f"measures, {name}: {why}")


def of_nothing(measure: Measure, models: list[list[str]]) -> str | None:
    """Why a measure is of nothing in any of some models; None where it is of something, or only a run can tell."""
    there = [it for texts in models for it in (named(texts, measure),) if it is not None]
    if there and not any(measure.entity in it for it in there):
        known = sorted({it for names in there for it in names})
        return f"no {measure.kind} {measure.entity}{', but ' + ', '.join(known) if known else ': the model has none'}"
    if measure.kind == "class":
        limits = {limit for texts in models for limit in limits_of(texts, measure.entity)}
        if measure.limit not in map(str, limits):
            return f"no class of {measure.entity} goes up to {measure.limit}, but to {', '.join(map(str, sorted(limits)))}"
    return None


def drop_twin(plan: Plan) -> None:
    """Leaves out the model as it is where a cell of the grid is the same model: that one is the base then."""
    first = plan.cells[0]
    if first.name != AS_IT_IS or plan.base != AS_IT_IS:
        return
    of_text = ("insert", "delete", "change", "capacity")
    for cell in plan.cells[1:]:
        if cell.texts == first.texts and all(it.split()[0] in of_text for it in [*first.plain, *cell.plain]):
            plan.cells.remove(first)
            plan.base = cell.name
            return


VERBS_OF = {
    "facility": ("SEIZE", "RELEASE"), "queue": ("QUEUE", "DEPART"), "storage": ("STORAGE",), "table": ("TABLE",),
    "class": ("TABLE",), "block": statements.BLOCKS,
}


def named(texts: list[str], measure: Measure) -> set[str] | None:
    """The names of a measure's kind in a model; None where a run computes some, or the kind has no names."""
    if measure.kind not in VERBS_OF:
        return None
    listed = codes.read(texts)
    numbers = {it.label: str(it.number(0)) for it in listed if it.verb == "EQU"}
    found = set()
    if measure.kind == "block" and measure.entity.isdecimal():
        blocks = sum(it.verb in statements.BLOCKS for it in listed)
        return set(map(str, range(1, blocks + 1)))
    for it in listed:
        if it.verb in VERBS_OF[measure.kind]:
            if measure.kind == "block":
                found |= {it.label} - {None}
                continue
            if measure.kind in ("storage", "table", "class"):
                found.add(it.label)
                continue
            leaf = it.tree(0)
            if leaf is None or leaf[0] not in ("entity", "number"):
                return None
            found.add(numbers.get(leaf[1], str(leaf[1])))
    return found


def limits_of(texts: list[str], table: str) -> list[int]:
    """The upper limits of the classes of a table; the last class has none."""
    for it in codes.read(texts):
        if it.verb == "TABLE" and it.label == table:
            first, width, count = map(int, it.operands[1:4])
            return [first + at * width for at in range(count - 1)]
    return []


def streams_of(texts: list[str]) -> tuple[int, ...]:
    """What the seven streams of a model are set to before its first START."""
    streams = list(PLAIN)
    for it in codes.read(texts):
        if it.verb == "START":
            break
        if it.verb == "RMULT":
            for at, word in enumerate(it.operands):
                streams[at] = int(word) if word else streams[at]
    return tuple(streams)


def draws_of(texts: list[str], entries: dict[int, float]) -> dict[int, float]:
    """How many numbers a run draws of each stream, about: the entries of each block, times what it draws."""
    listed = codes.read(texts)
    of = {it.label: it for it in listed if it.verb in ("FUNCTION", "VARIABLE")}
    found: dict[int, float] = {}

    def drawn(it, depth: int = 0) -> list[int]:
        streams = []
        for leaf in it.leaves("attribute"):
            if leaf[1] == "RN":
                streams.append(leaf[2])
            elif leaf[1] in ("FN", "V") and leaf[2] in of and depth < 8:
                streams += drawn(of[leaf[2]], depth + 1)
        return streams

    blocks = [it for it in listed if it.verb in statements.BLOCKS]
    for position, it in enumerate(blocks, 1):
        streams = drawn(it)
        modifier = it.tree(1) is not None and it.tree(1)[0] == "attribute" and it.tree(1)[1] == "FN"
        if it.verb in ("GENERATE", "ADVANCE") and it.tree(1) not in (None, ("number", 0)) and not modifier:
            streams.append(1)
        if it.verb == "TRANSFER" and it.operand(0):
            streams.append(1)
        for stream in streams:
            found[stream] = found.get(stream, 0.0) + entries.get(position, 0.0)
    return found
