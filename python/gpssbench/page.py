"""Makes one page to look at of a study.

    tools/page DIR > study.html

DIR is a folder that tools/study wrote. The page is one file that needs no network: each measure of each scenario as a
point with its interval, a grid of two factors as a heat map, a curve over a factor that is a number with its band, the
paired differences to the base, histograms of tables over all runs, the statements of the model with the counts of its
blocks, and every figure also as a table that one sorts by its headings. Where DIR has a warmup.csv, written by
`tools/warmup .. --csv DIR/warmup.csv`, it has that curve. It follows the light or dark of the screen, prints on A4, and
is readable without colour and without a script.

It wants matplotlib and Jinja2; python/install installs them."""
import io
import os
import re
import sys
import tomllib

from .command import Problem, Words, with_packages
from .figures import read_table
from .stats import fixed
from .summary import plan_of, standing, table

# Colours that matplotlib draws with, each a variable of the page in the end, so that light and dark are the page's.
INK, SOFT, LINE, PAPER = "#0a0b01", "#0a0b02", "#0a0b03", "#0a0b04"
SERIES = ["#0a0c01", "#0a0c02", "#0a0c03", "#0a0c04", "#0a0c05", "#0a0c06"]
VARIABLES = {INK: "ink", SOFT: "soft", LINE: "line", PAPER: "paper", **{it: f"series-{at}" for at, it in enumerate(SERIES, 1)}}
MARKS = ["o", "s", "^", "D", "v", "P"]
STROKES = ["-", "--", "-.", ":", (0, (5, 1, 1, 1)), (0, (1, 1))]


def tidy(text: str) -> str:
    """A figure for people: three decimals at most, with commas."""
    if not text:
        return ""
    value = float(text)
    decimals = 0 if abs(value) >= 10_000 else 1 if abs(value) >= 100 else 2 if abs(value) >= 10 else 3
    plain = fixed(value, decimals)
    whole, point, rest = plain.partition(".")
    return f"{int(whole):,}" + point + rest if not plain.startswith("-0") else plain


class Pictures:
    """Pictures as SVG, drawn by matplotlib."""

    def __init__(self):
        import matplotlib

        matplotlib.use("svg")
        from matplotlib import pyplot

        self.pyplot = pyplot
        pyplot.rcParams.update({
            "svg.fonttype": "none", "svg.hashsalt": "gpssbench", "font.family": "sans-serif", "font.size": 10,
            "font.sans-serif": ["DejaVu Sans"], "text.color": INK, "axes.labelcolor": INK, "axes.edgecolor": LINE,
            "xtick.color": SOFT, "ytick.color": SOFT, "ytick.labelcolor": INK, "xtick.labelcolor": INK, "axes.grid": True,
            "grid.color": LINE, "grid.linewidth": 0.5, "axes.spines.top": False, "axes.spines.right": False,
            "figure.facecolor": "none", "axes.facecolor": "none", "legend.frameon": False,
        })

    def axes(self, height: float, width: float = 9.0):
        figure, axes = self.pyplot.subplots(figsize=(width, height), layout="constrained")
        axes.set_axisbelow(True)
        return figure, axes

    def svg(self, figure, name: str) -> str:
        made = io.StringIO()
        figure.savefig(made, format="svg", metadata={"Date": None, "Creator": None})
        self.pyplot.close(figure)
        text = made.getvalue()
        text = text[text.index("<svg") :]
        text = re.sub(r"<metadata>.*?</metadata>\s*", "", text, flags=re.S)
        for colour, variable in VARIABLES.items():
            text = text.replace(colour, f"var(--{variable})")
        # the picture's own names must not meet those of another one
        text = re.sub(r'\bid="([^"]+)"', lambda it: f'id="{name}-{it[1]}"', text)
        text = re.sub(r'(xlink:href="#|url\(#)', lambda it: it[1] + name + "-", text)
        text = re.sub(r"'DejaVu Sans'", "system-ui, 'DejaVu Sans'", text)
        width = float(re.search(r'viewBox="0 0 ([\d.]+)', text)[1])
        text = re.sub(r'(<svg [^>]*?)\s(width|height)="[\d.]+pt"', r"\1", text)
        text = re.sub(r'(<svg [^>]*?)\s(width|height)="[\d.]+pt"', r"\1", text)
        style = f"width: 100%; max-width: {1.5 * width:.0f}px; min-width: min({width:.0f}px, 36rem)"
        return text.replace("<svg ", f'<svg role="img" style="{style}" ', 1)

    def points(self, name: str, rows, title: str, best: set[str] = frozenset(), zero: bool = False) -> str:
        """Scenarios as points with their intervals, the first one on top."""
        figure, axes = self.axes(max(1.6, 0.34 * len(rows) + 0.9))
        for at, row in enumerate(rows):
            mean, half = float(row["mean"]), float(row["half"] or 0)
            is_best = row["cell"] in best
            axes.errorbar(
                mean, at, xerr=half, color=SERIES[1] if is_best else SERIES[0], marker="D" if is_best else "o", capsize=4,
                markersize=7 if is_best else 5, linewidth=1.6,
            )
            axes.annotate(tidy(row["mean"]), (mean + half, at), xytext=(6, 0), textcoords="offset points", va="center",
                          fontsize=9)
        if zero:
            axes.axvline(0, color=INK, linewidth=1)
        axes.set_yticks(range(len(rows)), [row["label"] for row in rows])
        axes.set_ylim(len(rows) - 0.4, -0.6)
        axes.margins(x=0.12)
        axes.set_xlabel(title)
        return self.svg(figure, name)

    def heat(self, name: str, means: list[list[float | None]], texts, across, down, titles) -> str:
        """A grid of two factors; each field has its figure."""
        figure, axes = self.axes(0.6 * len(down) + 1.2, max(4.5, 1.35 * len(across) + 1.5))
        there = [it for row in means for it in row if it is not None]
        low, high = min(there), max(there)
        for at, row in enumerate(means):
            for column, value in enumerate(row):
                if value is None:
                    continue
                share = (value - low) / (high - low) if high > low else 0.0
                axes.add_patch(self.pyplot.Rectangle(
                    (column - 0.5, at - 0.5), 1, 1, facecolor=SERIES[0], alpha=0.06 + 0.5 * share, edgecolor=LINE
                ))
                axes.annotate(texts[at][column], (column, at), ha="center", va="center", fontsize=9)
        axes.set_xlim(-0.5, len(across) - 0.5)
        axes.set_ylim(len(down) - 0.5, -0.5)
        axes.set_xticks(range(len(across)), across)
        axes.set_yticks(range(len(down)), down)
        axes.set_xlabel(titles[0])
        axes.set_ylabel(titles[1])
        axes.grid(False)
        return self.svg(figure, name)

    def curves(self, name: str, curves, across: str, title: str) -> str:
        """Curves over a number, each with its band."""
        figure, axes = self.axes(3.6)
        for at, (label, places, means, halves) in enumerate(curves):
            colour = SERIES[at % len(SERIES)]
            mark = MARKS[at % len(MARKS)] if len(places) <= 40 else None
            axes.plot(places, means, color=colour, marker=mark, linestyle=STROKES[at % len(STROKES)],
                      label=label or None, linewidth=1.6, markersize=5)
            if halves:
                low = [mean - half for mean, half in zip(means, halves)]
                high = [mean + half for mean, half in zip(means, halves)]
                axes.fill_between(places, low, high, color=colour, alpha=0.18, linewidth=0)
        levels = sorted({place for _, places, _, _ in curves for place in places})
        if len(levels) <= 16:
            axes.set_xticks(levels)
        if len(curves) > 1:
            axes.legend(fontsize=9)
        axes.set_xlabel(across)
        axes.set_ylabel(title)
        return self.svg(figure, name)

    def histogram(self, name: str, labels, charts, title: str) -> str:
        """Shares of classes, of one scenario or several side by side."""
        figure, axes = self.axes(3.4, max(5.0, 0.75 * len(labels) + 1.5))
        width = 0.85 / len(charts)
        for at, (label, shares) in enumerate(charts):
            places = [place + (at - (len(charts) - 1) / 2) * width for place in range(len(labels))]
            axes.bar(places, shares, width=width * 0.92, color=SERIES[at % len(SERIES)], label=label,
                     hatch=["", "//", "..", "xx"][at % 4], edgecolor=PAPER, linewidth=0)
        if len(charts) > 1:
            axes.legend(fontsize=9)
        axes.set_xticks(range(len(labels)), labels, rotation=30 if len(labels) > 6 else 0, ha="right" if len(labels) > 6 else "center")
        axes.set_xlabel(title)
        axes.set_ylabel("per cent of all values")
        axes.grid(axis="x", visible=False)
        return self.svg(figure, name)


def is_number(text: str) -> bool:
    return re.fullmatch(r"-?\d+(\.\d+)?", text) is not None


def named(*titles: str, text: int = 1) -> list[dict]:
    """The headings of a table, of which the first ones are text."""
    return [{"name": title, "text": at < text} for at, title in enumerate(titles)]


class Page:
    def __init__(self, folder: str):
        self.folder = folder
        self.cells, self.pairs = table(folder, "cells.csv"), table(folder, "pairs.csv")
        self.failed, self.statements = table(folder, "failed.csv"), table(folder, "statements.csv")
        self.classes = table(folder, "classes.csv")
        self.plan = plan_of(folder)
        self.factors = list(self.plan.get("factors", {}))
        self.level = self.plan.get("level", 95)
        self.pictures = Pictures()
        self.scenarios = list(dict.fromkeys(row["cell"] for row in self.cells))
        self.base = self.plan.get("base", self.scenarios[0])
        if self.base not in self.scenarios:
            self.base = self.scenarios[0]

    def text(self, name: str) -> str:
        with open(os.path.join(self.folder, name), encoding="utf-8", errors="replace") as file:
            return file.read()

    def measure(self, at: int, name: str) -> dict:
        rows = [{**row, "label": row["cell"]} for row in self.cells if row["measure"] == name]
        pairs = [row for row in self.pairs if row["measure"] == name]
        which = self.plan.get("best", {}).get(name, "least")
        where = standing(rows, pairs, which)
        there = [row for row in rows if row["mean"]]
        title = rows[0]["figure"]
        pictures = []

        def add(kind: str, svg: str, caption: str) -> None:
            pictures.append({"id": f"figure-{at}-{kind}", "svg": svg, "caption": caption})

        listed = there[:40]
        if listed:
            best = {cell for cell, it in where.items() if it == "best"}
            some = f"The first {len(listed)} of {len(there)} scenarios: means" if len(listed) < len(there) else "Means"
            diamond = f"; the diamond is the {which}" if len(listed) > 1 else ""
            says = f"{some} with {self.level} per cent intervals{diamond}."
            add("points", self.pictures.points(f"p{at}", listed, f"{name}: {title}", best), says)
        grid = [row for row in there if all(row[factor] for factor in self.factors)] if self.factors else []
        if len(self.factors) == 2 and len(grid) > 3:
            add("heat", self.heat(at, grid), f"{name} over {self.factors[0]} and {self.factors[1]}, with half-widths.")
        if curves := self.curves_of(grid):
            across, listed_curves = curves
            svg = self.pictures.curves(f"c{at}", listed_curves, across, f"{name}: {title}")
            add("curve", svg, f"{name} over {across}; the band is the {self.level} per cent interval.")
        to_base = [
            {**row, "label": row["cell"]} for row in pairs if row["kind"] == "base" and row["mean"] and row["cell"] != row["less"]
        ]
        if to_base:
            svg = self.pictures.points(f"d{at}", to_base[:40], f"difference to {self.base}", zero=True)
            add("differences", svg, f"Paired differences to {self.base}, with {self.level} per cent intervals.")
        return {
            "id": f"measure-{at}", "name": name, "figure": title, "says": self.says(name, rows, where, which),
            "pictures": pictures, "tables": [self.cell_table(at, name, rows, where), *self.pair_tables(at, pairs)],
        }

    def says(self, name: str, rows, where: dict[str, str], which: str) -> str:
        best = next((cell for cell, it in where.items() if it == "best"), None)
        if best is None:
            runs = ", ".join(dict.fromkeys(f"{row['n']} of {row['of']}" for row in rows))
            return f"{'Nothing to compare' if len(rows) > 1 else 'One scenario'}: {runs} runs have a figure."
        row = next(row for row in rows if row["cell"] == best)
        like = [cell for cell, it in where.items() if it != "best"]
        half = f", give or take {tidy(row['half'])}" if row["half"] else ""
        rest = f" It cannot be told apart from {', '.join(like)}." if like else " It differs from all others."
        return f"The {which} mean of {name} is {tidy(row['mean'])}{half}, of {best}.{rest}"

    def heat(self, at: int, grid) -> str:
        down_name, across_name = self.factors
        levels = lambda factor: list(dict.fromkeys(row[factor] for row in grid))
        across, down = levels(across_name), levels(down_name)
        found = {(row[down_name], row[across_name]): row for row in grid}
        mean = lambda row: float(row["mean"]) if row else None
        text = lambda row: f"{tidy(row['mean'])}\n± {tidy(row['half'])}" if row and row["half"] else tidy(row["mean"]) if row else ""
        means = [[mean(found.get((one, other))) for other in across] for one in down]
        texts = [[text(found.get((one, other))) for other in across] for one in down]
        return self.pictures.heat(f"h{at}", means, texts, across, down, (across_name, down_name))

    def curves_of(self, grid):
        """Curves over the first factor that is a number with three levels or more, one for each level of the others."""
        for factor in self.factors:
            levels = list(dict.fromkeys(row[factor] for row in grid))
            if len(levels) < 3 or not all(map(is_number, levels)):
                continue
            others = [it for it in self.factors if it != factor]
            found: dict[str, list] = {}
            for row in grid:
                label = " ".join(f"{it}={row[it]}" for it in others)
                found.setdefault(label, []).append((float(row[factor]), float(row["mean"]), float(row["half"] or 0)))
            if len(found) <= len(SERIES):
                return factor, [(label, *map(list, zip(*sorted(rows)))) for label, rows in found.items()]
        return None

    def cell_table(self, at: int, name: str, rows, where: dict[str, str]) -> dict:
        titles = named("scenario", "runs", "mean", "half-width", "least", "greatest", "", text=1)
        titles[-1] = {"name": "standing", "text": True}
        listed = [
            {
                "best": where.get(row["cell"]) == "best",
                "cells": [row["cell"], row["n"] if row["n"] == row["of"] else f"{row['n']} of {row['of']}",
                          *(tidy(row[it]) for it in ("mean", "half", "least", "greatest")), where.get(row["cell"], "")],
            }
            for row in rows
        ]
        return {"id": f"table-{at}-cells", "caption": f"{name}, each scenario", "titles": titles, "rows": listed}

    def pair_tables(self, at: int, pairs) -> list[dict]:
        found = []
        for kind, caption in (("base", "Differences to the base"), ("neighbour", "Differences to the neighbour")):
            listed = [row for row in pairs if row["kind"] == kind]
            if listed and (kind == "base" or len(self.scenarios) > 2):
                titles = named("scenario", "less", "runs", "mean", "half-width", text=2) + [{"name": "interval", "text": True}]
                rows = [
                    {"cells": [row["cell"], row["less"], row["n"], tidy(row["mean"]), tidy(row["half"]),
                               "without 0" if row["apart"] else "holds 0"]}
                    for row in listed
                ]
                found.append({"id": f"table-{at}-{kind}", "caption": caption, "titles": titles, "rows": rows})
        return found

    def histograms(self) -> list[dict]:
        found = []
        for name in dict.fromkeys(row["TABLE"] for row in self.classes):
            own = [row for row in self.classes if row["TABLE"] == name]
            by_cell: dict[str, list] = {}
            for row in own:
                by_cell.setdefault(row["cell"], []).append(row)
            limits = [(row["ABOVE"], row["TO"]) for row in next(iter(by_cell.values()))]
            same = {cell: rows for cell, rows in by_cell.items() if [(row["ABOVE"], row["TO"]) for row in rows] == limits}
            labels = [f"to {to}" if not above else f"above {above}" if not to else f"{above} - {to}" for above, to in limits]
            share = lambda rows: [100 * int(it["FREQUENCY"]) / max(1, sum(int(row["FREQUENCY"]) for row in rows)) for it in rows]
            shown = [self.base] if self.base in same else list(same)[:1]
            shown += [cell for cell in same if cell not in shown][: 4 - len(shown)]
            shown = shown if len(labels) <= 24 else shown[:1]
            at = len(found)
            svg = self.pictures.histogram(f"t{at}", labels, [(cell, share(same[cell])) for cell in shown], name)
            more = f"; {len(same) - len(shown)} further scenarios in the table" if len(same) > len(shown) else ""
            rows = [
                {"cells": [cell, label, row["FREQUENCY"], tidy(str(part))]}
                for cell, listed in same.items()
                for label, row, part in zip(labels, listed, share(listed))
            ]
            titles = named("scenario", "class", "values", "per cent", text=2)
            table_of = {"id": f"table-histogram-{at}", "caption": name, "titles": titles, "rows": rows}
            found.append({"id": f"figure-histogram-{at}", "svg": svg, "caption": f"{name}, over all runs{more}.", "table": table_of})
        return found

    def warmup(self) -> dict | None:
        path = os.path.join(self.folder, "warmup.csv")
        if not os.path.exists(path):
            return None
        titles, rows = read_table(path)
        if titles != ["tick", "mean", "moving"]:
            raise Problem(f"{path} is none of tools/warmup --csv")
        ticks = [float(row["tick"]) for row in rows]
        smooth = [(float(row["tick"]), float(row["moving"])) for row in rows if row["moving"]]
        curves = [("mean of the replications", ticks, [float(row["mean"]) for row in rows], []),
                  ("moving average", *map(list, zip(*smooth)), [])]
        table_of = {"id": "table-warmup", "caption": "The curve", "titles": named("tick", "mean", "moving", text=0),
                    "rows": [{"cells": [row["tick"], tidy(row["mean"]), tidy(row["moving"])]} for row in rows]}
        svg = self.pictures.curves("w", curves, "tick", "mean")
        return {"svg": svg, "caption": "Where the moving average no longer rises or falls, the model is warm.", "table": table_of}

    def models(self) -> list[dict]:
        found = []
        names = [self.base, *(name for name in self.scenarios if name != self.base)][:13]
        for at, name in enumerate(names):
            rows = [row for row in self.statements if row["cell"] == name]
            most = max([float(row["current"] or 0) for row in rows], default=0.0)
            width = lambda row: f"{8 * float(row['current'] or 0) / most:.2f}" if most and float(row["current"] or 0) else ""
            found.append({
                "id": f"table-model-{at}", "name": name,
                "rows": [
                    {"place": row["place"], "statement": row["statement"].replace("|", "\n"), "entries": tidy(row["entries"]),
                     "current": tidy(row["current"]), "width": width(row)}
                    for row in rows
                ],
            })
        return found

    def html(self) -> str:
        from jinja2 import Environment, FileSystemLoader
        from markupsafe import Markup

        def marked(it):
            if isinstance(it, dict):
                return {key: Markup(value) if key == "svg" else marked(value) for key, value in it.items()}
            return [marked(value) for value in it] if isinstance(it, list) else it

        names = list(dict.fromkeys(row["measure"] for row in self.cells))
        runs = sum(int(row["of"]) for row in self.cells if row["measure"] == names[0])
        model = os.path.basename(self.plan["model"])
        warmup = self.warmup()
        scenarios = "One scenario" if len(self.scenarios) == 1 else f"{len(self.scenarios)} scenarios"
        titles = list(self.failed[0]) if self.failed else []
        environment = Environment(
            loader=FileSystemLoader(os.path.dirname(os.path.abspath(__file__))), autoescape=True, trim_blocks=True
        )
        return environment.get_template("page.html").render(
            title=f"A study of {model}",
            lead=f"{scenarios} over common random numbers, {runs:,} runs in all. START {self.plan.get('start', 1)} is measured.",
            measures=[marked(self.measure(at, name)) for at, name in enumerate(names, 1)],
            histograms=marked(self.histograms()), warmup=marked(warmup) if warmup else None, models=self.models(),
            failed=self.failed, plan=self.text("plan.toml"), model=self.text("model.gps"),
            failed_table={"id": "table-failed", "caption": "Runs that did not end as they should",
                          "titles": named(*titles, text=len(titles)),
                          "rows": [{"cells": list(row.values())} for row in self.failed[:1000]]},
        )


def main(words: list[str]) -> None:
    read = Words(words)
    if len(read.rest) != 1:
        raise Problem("the folder of a study is wanted; --help shows how")
    if not os.path.isdir(read.rest[0]):
        raise Problem(f"{read.rest[0]} is no folder of a study")
    with_packages("matplotlib", "jinja2")
    try:
        page = Page(read.rest[0])
    except tomllib.TOMLDecodeError as why:
        raise Problem(f"plan.toml: {why}") from None
    sys.stdout.reconfigure(encoding="utf-8")
    print(page.html())
