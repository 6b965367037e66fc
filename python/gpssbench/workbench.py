"""A model that is kept open, in a browser.

    tools/workbench MODEL [SCRIPT] [--port 8080] [--replications 8] [--seed S] [--start K] [--every N]
        [--workers W]

It prints an address with a token, and serves it to this machine alone. The left side has the statements of the model,
with the counts of their blocks; a click or Enter edits a line, `i` inserts before it, `a` after it, Delete deletes it.
The right side has the figures over all replications, what differs from the baseline with its half-width, the report of
a replication, histograms, and the script so far. `u` undoes, `r` makes again, `p` pins the baseline, `?` shows the
keys.

The edits of SCRIPT are made first, where MODEL has none of its own yet; it may name places by label. Each accepted edit
is in MODEL.edits before it is shown, so that nothing is lost: after a program that dies, a browser that is closed or a
workbench that is started anew, work goes on from there. Files are read and written in the model's folder alone. Several
tabs see each other's edits; a tab that is out of date says so. Ctrl-C ends it.

It wants Tornado; python/install installs it."""
import fcntl
import hmac
import json
import os
import re
import secrets
import time
import traceback
from concurrent.futures import ThreadPoolExecutor

from . import codes, offers, script
from .bench import NoReport, Refused, Report, Reports
from .command import Problem, Words, lines_of, warn, with_packages
from .kept_model import KeptModel, Steps, compare, cost, figures
from .program import Ended
from .stats import Estimate, fixed

HERE = os.path.join(os.path.dirname(os.path.abspath(__file__)), "browser")
MOST_OFFERED = 50
NAME = re.compile(r"[A-Za-z0-9][A-Za-z0-9_.-]{0,99}")
FILES = {"": ("index.html", "text/html"), "app.js": ("app.js", "text/javascript"), "app.css": ("app.css", "text/css")}


def cells(found: Estimate | None) -> list[str]:
    if found is None:
        return ["", ""]
    return [fixed(found.mean), "" if found.half is None else fixed(found.half)]


class Desk:
    """The model that is open, and what is known of it. Its calls are made one at a time, by one thread."""

    def __init__(
        self, path: str, seed: int, replications: int, start: int | None, tell, lines: list[script.Line] = (),
        words: dict[str, int] | None = None,
    ):
        self.path, self.seed, self.replications, self.asked_start = os.path.abspath(path), seed, replications, start
        self.folder = os.path.dirname(self.path)
        self.tell, self.words = tell, words or {}
        self.kept: KeptModel | None = None
        self.fault: dict | None = None
        self.reports: Reports | None = None
        self.gives_up = False
        self.since, self.done = 0.0, 0
        # the steps of the last simulation, and in words how many of them the present one keeps
        self.recorded: Steps = {}
        self.keeps = ""
        self.names: offers.Names = {}
        self.held = None
        self.open()
        for line in lines if self.kept and not self.kept.replayed else ():
            if line.word in script.EDITS:
                try:
                    self.kept.edit(line.plain)
                except (Refused, Problem) as why:
                    self.close()
                    os.remove(self.path + ".edits")
                    raise Problem(f"line {line.number} of the script: {why}") from None

    # ---- opening

    def open(self, count: int | None = None) -> None:
        """Opens the model's file with the edits that were made, and at least so many replications, or keeps why it is
        refused."""
        self.hold()
        self.close()
        self.fault = self.reports = None
        self.recorded = {}
        try:
            self.kept = KeptModel(self.path, self.seed, count or self.replications, self.path + ".edits", words=self.words)
        except Refused as why:
            self.refused_model(why, self.text())
        except Problem as why:
            self.fault = {"text": self.text(), "code": "", "sentence": f"{self.path}.edits: {why}", "line": 0}

    def hold(self) -> None:
        """Holds the model's file, so that no other workbench writes to its edits, too."""
        file = open(self.path, "rb")
        if self.held and os.path.samestat(os.fstat(file.fileno()), os.fstat(self.held.fileno())):
            file.close()
            return
        try:
            fcntl.flock(file, fcntl.LOCK_EX | fcntl.LOCK_NB)
        except BlockingIOError:
            file.close()
            raise Problem(f"{self.path} is open in another workbench: several tabs may show one") from None
        if self.held:
            self.held.close()
        self.held = file

    def text(self) -> str:
        with open(self.path, encoding="latin-1", newline="") as file:
            return file.read().replace("\r\n", "\n")

    def refused_model(self, why: Refused, text: str) -> None:
        line = re.match(r"line (\d+)", why.code)
        self.fault = {"text": text, "code": why.code, "sentence": why.sentence, "line": int(line[1]) if line else 0}

    def close(self) -> None:
        if self.kept:
            self.kept.bench.close()
            self.kept = None

    def end(self) -> None:
        self.close()
        if self.held:
            self.held.close()

    def start(self) -> int:
        starts = self.kept.starts()
        if not starts:
            raise Problem("the model has no START: insert one at the end, as START 100")
        return min(self.asked_start or starts, starts)

    # ---- what a tab is shown

    def state(self) -> dict:
        """All that a tab shows, but for what reports say."""
        files = sorted(name for name in os.listdir(self.folder) if name.endswith(".gps") and NAME.fullmatch(name))
        fault = self.fault and {**self.fault, **{it: script.name_of(self.fault[it]) for it in ("text", "sentence")}}
        found = {"kind": "state", "file": os.path.basename(self.path), "files": files, "fault": fault}
        if self.kept is None:
            return {**found, "version": -1, "statements": []}
        counts, self.names = self.counts(), self.kept.names()
        rows, position = [], 0
        for it, differs in zip(self.kept.statements, self.kept.changed()):
            words = it.text.split("|")[0].split(" ")
            verb = words[0] if words[0] in codes.statements.VERBS else words[1]
            is_block = verb in codes.statements.BLOCKS
            position += is_block
            comment = " ".join(line.partition(";")[2].strip() for line in it.source[:1] if ";" in line)
            rows.append({
                "text": it.text, "verb": verb, "changed": differs, "comment": script.name_of(comment),
                "front": [script.name_of(line.strip()) for line in it.front],
                "counts": counts.get(str(position)) if is_block else None,
            })
        return {
            **found, "version": self.kept.bench.version, "statements": rows, "script": self.kept.bench.script, "replications": self.kept.bench.replications,
            "named": list(self.kept.named), "pinned": self.kept.pinned,
            "undo": bool(self.kept.done and self.kept.done[-1][1]), "redo": bool(self.kept.undone),
        }

    def counts(self) -> dict[str, list[str]]:
        """Of each block the entries and the current count, means over the replications."""
        sums: dict[str, list[int]] = {}
        for report in self.reports or []:
            for row in report.kinds["block"]:
                own = sums.setdefault(row["LOC"], [0, 0])
                own[0] += int(row["ENTRY COUNT"])
                own[1] += int(row["CURRENT COUNT"])
        count = len(self.reports or []) or 1
        return {place: [fixed(entries / count, 1), fixed(now / count, 1)] for place, (entries, now) in sums.items()}

    def shown(self) -> dict:
        """The figures over all replications, and what differs from the baseline."""
        rows, without = [], []
        try:
            baseline = self.kept.baseline(self.start(), self.progress)
        except NoReport:
            baseline = Reports([])
            without = [f"the baseline has no report of START {self.start()}: `p` takes the model as it is for the baseline"]
        for it in compare(baseline, self.reports, True):
            if it.now is None and it.before is None:
                continue
            changes = it.change is not None and (it.change.mean != 0 or it.change.least != it.change.greatest)
            bounds = ["", ""] if it.now is None else [fixed(it.now.least), fixed(it.now.greatest)]
            rows.append({
                "kind": it.kind, "entity": it.entity, "column": it.column, "now": cells(it.now), "bounds": bounds,
                "n": it.now.n if it.now else 0, "of": len(self.reports), "before": cells(it.before)[0],
                "change": cells(it.change) if changes else ["", ""], "apart": it.is_apart,
                "main": (it.kind, it.column) in {(str(one.kind), one.column) for one, _ in figures(self.reports)},
            })
        missing = [f"replication {number}: {why}, {codes.meaning(why)[0]}" for number, why in self.reports.missing.items()]
        outcomes = [f"replication {it.replication}: {it.outcome}" for it in self.reports if it.outcome != "COMPLETE"]
        return {
            "kind": "figures", "rows": rows, "missing": without + missing + outcomes, "start": self.start(), "classes": self.classes(),
            "baseline": self.kept.pinned or "the model as it was opened",
        }

    def classes(self) -> dict[str, list]:
        """The classes of each table, over all replications."""
        found: dict[str, dict[tuple, int]] = {}
        for report in self.reports:
            for row in report.kinds.get("class", []):
                own = found.setdefault(row["TABLE"], {})
                limits = row["ABOVE"], row["TO"]
                own[limits] = own.get(limits, 0) + int(row["FREQUENCY"])
        return {name: [[above, to, count] for (above, to), count in own.items()] for name, own in found.items()}

    def progress(self, done: int) -> None:
        self.done = done

    # ---- what a tab asks

    def simulate(self) -> None:
        """Makes the reports of all replications, and tells what they say."""
        if self.kept is None:
            return
        self.since, self.done = time.monotonic(), 0
        try:
            # beside workers the program's counts of steps do not say what an edit kept
            alone = not self.words.get("workers")
            kept = self.kept.kept_steps(self.start()) if alone else {}
            self.keeps = self.kept_so_far(kept)
            self.reports = self.kept.reports(self.start(), self.progress)
            shown = self.shown()
            self.recorded = self.kept.recorded() if alone else {}
            shown["cost"] = cost(kept, self.recorded) if alone else "what was kept is not counted beside workers"
            shown["seconds"] = round(time.monotonic() - self.since, 2)
            self.tell(self.state())
            self.tell(shown)
        except NoReport as why:
            self.reports = None
            self.tell(self.state())
            self.tell({"kind": "figures", "rows": [], "missing": [str(why)], "classes": {}, "start": self.start()})
        finally:
            self.since = 0.0

    def kept_so_far(self, kept: Steps) -> str:
        """How many of the steps that were recorded before an edit are kept; nothing where none were."""
        before = sum(steps or 0 for steps in self.recorded.values())
        stand = sum(self.recorded.get(it) or 0 if steps is None else steps for it, steps in kept.items())
        return f"{stand:,} of {before:,} steps are kept" if before else ""

    def ask(self, asked: dict) -> None:
        """Does what a tab asks, or answers what is wrong with it."""
        try:
            self.answer(asked)
        except Exception:
            traceback.print_exc()
            raise

    def answer(self, asked: dict) -> None:
        try:
            self.do(asked)
        except Refused as why:
            self.tell({"kind": "refused", "code": why.code, "sentence": why.sentence, "line": str(asked.get("line", ""))})
        except (Problem, OSError) as why:
            self.tell({"kind": "refused", "code": "", "sentence": str(why), "line": str(asked.get("line", ""))})
        except NoReport as why:
            self.tell({"kind": "refused", "code": why.answer, "sentence": why.sentence, "line": ""})
        except Ended as why:
            self.again(why)

    def again(self, why: Ended) -> None:
        """The program is gone: begins anew from the edits on the disk."""
        given_up, self.gives_up = self.gives_up, False
        self.since = 0.0
        texts, horizon, pinned = self.kept.base_texts, self.kept.base_horizon, self.kept.pinned
        self.open(1)
        if self.kept and pinned is not None:
            self.kept.base_texts, self.kept.base_horizon, self.kept.pinned = texts, horizon, pinned
        self.tell(self.state())
        what = "the run was given up" if given_up else f"the program ended ({why}) and was started anew"
        self.tell({"kind": "said", "text": f"{what}; no edit is lost"})
        if not given_up:
            try:
                self.simulate()
            except Ended as again:
                self.tell({"kind": "said", "text": f"the program ended again: {again}"})

    def do(self, asked: dict) -> None:
        word = asked.get("do")
        if word == "look":
            self.tell(self.state())
            if self.kept and self.reports is None:
                self.simulate()
            elif self.kept:
                self.tell(self.shown())
        elif word == "text":
            # a tab's letters are written as UTF-8, as bytes that are read one by one
            self.write_text(str(asked.get("text", "")).encode("utf-8", "replace").decode("latin-1"))
        elif word == "open":
            before, self.path = self.path, self.in_folder(str(asked.get("name", "")), ".gps", True)
            try:
                self.open()
            except Problem:
                self.path = before
                raise
            self.tell(self.state())
            self.simulate()
        elif self.kept is None:
            raise Problem("the model is refused: mend its text first")
        elif word in ("edit", "undo", "redo"):
            self.edit(word, asked)
        elif word == "try":
            line = self.line_of(asked)
            self.tell({"kind": "trial", "line": line, "text": self.kept.trial(line, self.start())})
        elif word == "count":
            count = asked.get("count")
            if not isinstance(count, int) or not len(self.kept.bench.replications) <= count <= 32:
                raise Problem("replications are added, up to 32; `Undo` and `drop` take them away")
            self.kept.add_replications(count)
            self.reports = None
            self.tell(self.state())
            self.simulate()
        elif word == "name":
            self.kept.name_version(str(asked.get("name", "")))
            self.tell(self.state())
            self.tell({"kind": "said", "text": f"this version is called {str(asked['name']).strip()}"})
        elif word in ("pin", "baseline"):
            self.kept.pin() if word == "pin" else self.kept.compare_with(str(asked.get("name", "")))
            self.tell(self.state())
            self.simulate()
        elif word == "report":
            self.report(asked)
        elif word == "save":
            path = self.in_folder(str(asked.get("name", "")), ".gps", False)
            self.save(path, self.kept.model_text())
        elif word == "plan":
            path = self.in_folder(str(asked.get("name", "")), ".toml", False)
            self.save(path, self.plan())
        else:
            raise Problem(f"nothing is called {word}")

    def line_of(self, asked: dict) -> str:
        """The edit that is asked for."""
        line = str(asked.get("line", "")).strip()
        if line.split(" ")[0] not in script.EDITS or "\n" in line:
            raise Problem(f"an edit begins with one of {', '.join(script.EDITS)}")
        if not line.isascii():
            raise Problem("a statement has plain letters, digits and signs")
        return line

    def edit(self, word: str, asked: dict) -> None:
        if asked.get("seen") != self.kept.bench.version:
            self.tell(self.state())
            raise Problem("another tab has edited the model: look at it as it is now, and try again")
        if word == "edit":
            said = self.kept.edit(self.line_of(asked))
        else:
            said = self.kept.undo() if word == "undo" else self.kept.redo()
        self.reports = None
        self.tell(self.state())
        self.tell({"kind": "said", "text": said})
        self.simulate()

    def report(self, asked: dict) -> None:
        replication, start = asked.get("replication", 1), asked.get("start", self.start())
        if not isinstance(replication, int) or not isinstance(start, int):
            raise Problem("a report is of a replication and a START")
        report: Report = self.kept.bench.report(replication, start)
        self.tell({"kind": "report", "replication": replication, "text": report.text})

    def in_folder(self, name: str, ending: str, is_there: bool) -> str:
        """The path of a file in the model's folder, and in no other."""
        if not NAME.fullmatch(name) or not name.endswith(ending):
            raise Problem(f"`{name}`: a name of letters and digits that ends in {ending} is wanted, and no folder")
        path = os.path.join(self.folder, name)
        if os.path.islink(path) or os.path.exists(path) != is_there:
            raise Problem(f"{name} {'is not there' if is_there else 'is there already: choose another name'}")
        return path

    def save(self, path: str, text: str) -> None:
        with open(path, "x", encoding="latin-1", newline="") as file:
            file.write(text)
        self.tell(self.state())
        self.tell({"kind": "said", "text": f"{os.path.basename(path)} is written"})

    def plan(self) -> str:
        """The edits so far as a plan of a study."""
        edits = [line for line in self.kept.bench.script if line.split()[0] in ("change", "insert", "delete", "capacity")]
        listed = "".join(f"    {json.dumps(line)},\n" for line in edits)
        alternative = f"\n[alternatives.edited]\nedits = [\n{listed}]\n" if edits else ""
        measures = "".join(
            f'{it.kind}_{it.entity.lower()} = "{it}"\n' for it, _ in figures(self.reports or []) if it.column in ("AVE.TIME", "UTIL.", "MEAN")
        ) or 'end = "head END TIME"\n'
        horizon = f"horizon = {self.kept.horizon}\n" if self.kept.horizon else ""
        front = f'model = "{os.path.basename(self.path)}"\nstart = {self.start()}\nreplications = 100\n{horizon}'
        return f"{front}{alternative}\n[measures]\n{measures}"

    def write_text(self, text: str) -> None:
        """A model that was refused, mended: it is written once the program takes it."""
        try:
            KeptModel(self.path, self.seed, 1, text=text, words=self.words).bench.close()
        except Refused as why:
            self.refused_model(why, text)
            self.tell(self.state())
            raise
        with open(self.path + ".new", "w", encoding="latin-1", newline="") as file:
            file.write(text)
        os.replace(self.path + ".new", self.path)
        if os.path.exists(self.path + ".edits"):
            os.replace(self.path + ".edits", self.path + ".edits.old")
        self.open()
        self.tell(self.state())
        self.simulate()

    def offer(self, typed: str) -> dict:
        """What a statement that is being typed may go on as; asked from beside."""
        front, words = offers.offered(self.names, typed)
        return {"kind": "offer", "typed": typed, "lines": [front + it for it in words[:MOST_OFFERED]]}

    def give_up(self) -> None:
        """Ends the program that simulates; called from beside."""
        if self.since and self.kept:
            self.gives_up = True
            self.kept.bench.session.process.kill()


def application(desk_of, token: str, hosts: set[str]):
    """The pages and the websocket, for who has the token and asks from this machine."""
    from tornado import web, websocket
    from tornado.ioloop import IOLoop

    loop, worker = IOLoop.current(), ThreadPoolExecutor(1)
    tabs: set = set()

    def tell(message: dict) -> None:
        text = json.dumps(message)
        loop.add_callback(lambda: [tab.write_message(text) for tab in list(tabs) if not tab.closing])

    desk = desk_of(tell)
    policy = (
        f"default-src 'none'; script-src 'self'; style-src 'self'; connect-src {' '.join(f'ws://{it}' for it in sorted(hosts))};"
        " img-src data:; base-uri 'none'; form-action 'none'; frame-ancestors 'none'"
    )

    def may(handler, given: str) -> None:
        origin = handler.request.headers.get("Origin")
        if handler.request.host not in hosts or origin is not None and origin.removeprefix("http://") not in hosts:
            raise web.HTTPError(403)
        if not hmac.compare_digest(given.encode(), token.encode()):
            raise web.HTTPError(403)

    class Page(web.RequestHandler):
        def set_default_headers(self):
            self.set_header("Content-Security-Policy", policy)
            self.set_header("Referrer-Policy", "no-referrer")
            self.set_header("X-Content-Type-Options", "nosniff")
            self.set_header("Cache-Control", "no-store")
            self.clear_header("Server")

        def get(self, given, name):
            may(self, given)
            if name not in FILES:
                raise web.HTTPError(404)
            file, kind = FILES[name]
            with open(os.path.join(HERE, file), "rb") as content:
                self.set_header("Content-Type", kind + "; charset=utf-8")
                self.finish(content.read())

        def write_error(self, status, **_):
            self.finish(f"{status}\n")

    class NoPage(Page):
        def prepare(self):
            raise web.HTTPError(404)

    class Tab(websocket.WebSocketHandler):
        closing = False

        def check_origin(self, origin):
            return origin.removeprefix("http://") in hosts

        def prepare(self):
            may(self, self.path_args[0])

        def open(self, given):
            tabs.add(self)
            worker.submit(desk.ask, {"do": "look"})

        def on_message(self, text):
            try:
                asked = json.loads(text)
            except ValueError:
                return
            if not isinstance(asked, dict):
                return
            if asked.get("do") == "give up":
                desk.give_up()
            elif asked.get("do") == "offer":
                self.write_message(json.dumps(desk.offer(str(asked.get("typed", "")))))
            else:
                worker.submit(desk.ask, asked)

        def on_close(self):
            self.closing = True
            tabs.discard(self)

        def write_error(self, status, **_):
            self.finish(f"{status}\n")

    def pulse() -> None:
        if desk.since:
            seconds = time.monotonic() - desk.since
            if seconds > 0.15:
                of = len(desk.kept.bench.replications) if desk.kept else 0
                tell({"kind": "busy", "done": desk.done, "of": of, "seconds": round(seconds, 1), "keeps": desk.keeps})

    pages = [(r"/([^/]+)/ws", Tab), (r"/([^/]+)/([a-z.]*)", Page)]
    return web.Application(pages, default_handler_class=NoPage), desk, pulse


def main(words: list[str]) -> int:
    read = Words(words, "--port --replications --seed --start --every --workers")
    if len(read.rest) not in (1, 2):
        raise Problem("a MODEL is wanted; --help shows how")
    with open(read.rest[0], "rb"):
        pass
    lines = script.read(lines_of(read.rest[1])) if len(read.rest) == 2 else []
    port = read.number("--port", 8080, 1, 65535)
    seed = read.number("--seed", 1945846388, 1, 2147483646)
    count, start = read.number("--replications", 8, 1, 32), read.number("--start", None, 1, 10**9)
    every, workers = read.number("--every", None, 1, 10**6), read.number("--workers", None, 0, 16)
    with_packages("tornado")
    import asyncio
    import logging

    from tornado.httpserver import HTTPServer
    from tornado.ioloop import PeriodicCallback
    from tornado.netutil import bind_sockets

    logging.getLogger("tornado.access").setLevel(logging.ERROR)

    async def serve() -> None:
        token = secrets.token_urlsafe(24)
        hosts = {f"127.0.0.1:{port}", f"localhost:{port}"}
        desk_of = lambda tell: Desk(read.rest[0], seed, count, start, tell, lines, {"every": every, "workers": workers})
        try:
            sockets = bind_sockets(port, "127.0.0.1")
        except OSError as why:
            raise Problem(f"port {port}: {why.strerror}; --port takes another one") from None
        app, desk, pulse = application(desk_of, token, hosts)
        server = HTTPServer(app)
        server.add_sockets(sockets)
        if desk.kept and desk.kept.replayed:
            print(f"the edits of {desk.path}.edits were made again: {desk.kept.replayed}", flush=True)
            if lines:
                warn(f"{read.rest[1]} is left out, since {desk.path} has edits of its own; move that .edits away for it")
        print(f"http://127.0.0.1:{port}/{token}/", flush=True)
        PeriodicCallback(pulse, 250).start()
        try:
            await asyncio.Event().wait()
        finally:
            server.stop()
            desk.end()

    try:
        asyncio.run(serve())
    except KeyboardInterrupt:
        print()
    return 0


