"""Shows what a study found: every measure of every scenario, and which cannot be told from the best.

    tools/summary DIR [--pairs base|neighbour|all]

For each measure, a line for each scenario: how many runs have a figure, the mean, its half-width, the least and the
greatest figure, and where it stands: `best`, or `like the best`, where the paired difference to the best has an interval
that holds 0, all pairs together at the study's level (Bonferroni). The best is the least mean, or the greatest where the
plan says so: best = { served = "greatest" }. With --pairs the paired differences follow."""
import os
import tomllib

from .command import Problem, Words
from .figures import read_table
from .stats import fixed


# The columns that a file of a study has at least.
WANTED = {
    "cells.csv": ["cell", "measure", "figure", "n", "of", "mean", "half", "least", "greatest"],
    "pairs.csv": ["kind", "measure", "cell", "less", "n", "mean", "half", "apart"],
}


def table(folder: str, name: str) -> list[dict[str, str]]:
    path = os.path.join(folder, name)
    if not os.path.exists(path):
        raise Problem(f"{folder} is no study: {name} is missing")
    titles, rows = read_table(path)
    if missing := [title for title in WANTED.get(name, ["cell"]) if title not in titles]:
        raise Problem(f"{folder} is no study: {name} has no column {missing[0]}")
    return rows


def plan_of(folder: str) -> dict:
    try:
        with open(os.path.join(folder, "plan.toml"), "rb") as file:
            return tomllib.load(file)
    except OSError:
        raise Problem(f"{folder} is no study: plan.toml is missing") from None
    except ValueError as why:
        raise Problem(f"{folder} is no study: plan.toml is no TOML: {why}") from None


def standing(rows: list[dict[str, str]], pairs: list[dict[str, str]], which: str) -> dict[str, str]:
    """Where each scenario of a measure stands: `best`, `like the best` or nothing."""
    there = [row for row in rows if row["mean"]]
    if len(there) < 2:
        return {}
    choose = min if which == "least" else max
    best = choose(there, key=lambda row: float(row["mean"]))["cell"]
    found = {best: "best"}
    for pair in pairs:
        if pair["kind"] == "all" and best in (pair["cell"], pair["less"]) and pair["half"]:
            other = pair["less"] if pair["cell"] == best else pair["cell"]
            if pair["apart"] != "yes":
                found[other] = "like the best"
    return found


def cell(text: str) -> str:
    return fixed(float(text)) if text else "-"


def main(words: list[str]) -> None:
    read = Words(words, "--pairs")
    if len(read.rest) != 1:
        raise Problem("the folder of a study is wanted; --help shows how")
    wanted = read.options.get("--pairs")
    if wanted not in (None, "base", "neighbour", "all"):
        raise Problem(f"--pairs {wanted}: base, neighbour or all")
    folder = read.rest[0]
    cells, pairs, plan = table(folder, "cells.csv"), table(folder, "pairs.csv"), plan_of(folder)
    level = plan.get("level", 95)
    for name in dict.fromkeys(row["measure"] for row in cells):
        rows = [row for row in cells if row["measure"] == name]
        own = [row for row in pairs if row["measure"] == name]
        which = plan.get("best", {}).get(name, "least")
        where = standing(rows, own, which)
        width = max(16, *(len(row["cell"]) for row in rows))
        print(f"{name}: {rows[0]['figure']}, {level} per cent")
        titles = ("n", "mean", "half-width", "least", "greatest")
        print(f"{'scenario':<{width}} {titles[0]:>9} " + " ".join(f"{it:>13}" for it in titles[1:]))
        for row in rows:
            count = row["n"] if row["n"] == row["of"] else f"{row['n']} of {row['of']}"
            figures = " ".join(f"{cell(row[it]):>13}" for it in ("mean", "half", "least", "greatest"))
            print(f"{row['cell']:<{width}} {count:>9} {figures}  {where.get(row['cell'], '')}".rstrip())
        if wanted:
            listed = [row for row in own if row["kind"] == wanted]
            names = [f"{row['cell']} less {row['less']}" for row in listed]
            wide = max([width, *map(len, names)])
            for text, row in zip(names, listed):
                figures = " ".join(f"{cell(row[it]):>13}" for it in ("mean", "half"))
                print(f"{text:<{wide}} {row['n']:>9} {figures}  {'apart' if row['apart'] else ''}".rstrip())
        print()
