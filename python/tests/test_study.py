"""Studies: the same files whichever engine runs them, what goes wrong in between, and bad plans."""
import contextlib
import csv
import io
import json
import os
import signal
import subprocess
import sys
import time
import unittest

from common import DESK, ROOT, SEED, InFolder, tool
from gpssbench import Bench, plan, seeds, stats, study
from gpssbench.command import SYSTEM, Problem, has

PLAN = """model = "desk.gps"
replications = 40
[factors.service]
edit = "change @Serve ADVANCE {}"
values = ["160,40", "150,40", "140,40", "130,40"]
[factors.between]
edit = "change @/GENERATE 180,60/ GENERATE {},60"
values = [180, 190, 200]
[measures]
wait = "queue LINE AVE.TIME"
busy = "facility CLERK UTIL."
"""
# Half of the replications never end.
ENDLESS = "GENERATE 10,,,1\nQUEUE Line\nTRANSFER .5,,Round\nDEPART Line\nTERMINATE 1\nRound BUFFER\nTRANSFER ,Round\nSTART 1\n"


FAKE_PYARROW = {
    "__init__.py": "int64, string, float64 = (lambda name=name: name for name in ('int64', 'string', 'float64'))\n",
    "csv.py": """class ConvertOptions:
    def __init__(self, column_types):
        self.column_types = column_types
read_csv = lambda path, convert_options: (path, convert_options.column_types)
""",
    "parquet.py": """import json
def write_table(table, path):
    with open(path, "w") as file:
        json.dump(table, file)
""",
}


class Studies(InFolder):
    def setUp(self):
        super().setUp()
        self.write("desk.gps", DESK)
        self.plan = self.write("plan.toml", PLAN)

    def study(self, to, *words, **more):
        return tool("study", self.plan, "--to", self.path(to), *words, **more)

    def table(self, *names):
        with open(os.path.join(self.folder, *names), newline="") as file:
            return list(csv.DictReader(file))

    def same_files(self, one, other):
        names = sorted(os.listdir(self.path(one)))
        self.assertEqual(names, sorted(os.listdir(self.path(other))))
        for name in names:
            self.assertEqual(self.read(one, name), self.read(other, name), name)

    def test_one_process_and_four_write_the_same(self):
        ran = self.study("one", "--jobs", "1")
        self.assertEqual(ran.returncode, 0, ran.stderr)
        self.assertIn(b"12 scenarios, 480 runs", ran.stderr)
        self.assertEqual(self.study("four", "--jobs", "4").returncode, 0)
        self.same_files("one", "four")
        self.assertNotIn("parts", os.listdir(self.path("one")))
        # the same by hand: eight of the runs, with the seeds that the study says it took
        listed = [int(row["seed"]) for row in self.table("one", "seeds.csv")]
        self.assertEqual(len(set(listed)), 40)
        self.assertGreaterEqual(seeds.least_gap(listed, seeds.PLAIN), 200_000)
        lines = "".join(f"replicate {at} {seed}\n" for at, seed in enumerate(listed[1:8], 2))
        given = f"change 5 ADVANCE 140,40\nchange 1 GENERATE 190,60\n{lines}all 1\n".encode()
        command = [os.environ["GPSSBENCH"], self.path("desk.gps"), "--seed", str(listed[0])]
        written = subprocess.run(command, input=given, capture_output=True).stdout.decode()
        times = [line.split()[6] for line in written.split("\n") if line.startswith("LINE ") and "." in line]
        runs = self.table("one", "runs.csv")
        found = [
            row["value"] for row in runs
            if row["cell"] == "service=140,40 between=190" and row["entity"] == "LINE" and row["column"] == "AVE.TIME"
        ]
        self.assertEqual([float(it) for it in found[:8]], [float(it) for it in times])
        cell = next(
            row for row in self.table("one", "cells.csv")
            if row["cell"] == "service=140,40 between=190" and row["measure"] == "wait"
        )
        wanted = stats.estimate(float(it) for it in found)
        self.assertAlmostEqual(float(cell["mean"]), wanted.mean, places=5)
        self.assertAlmostEqual(float(cell["half"]), wanted.half, places=5)
        kinds = {row["kind"]: 0 for row in self.table("one", "pairs.csv")}
        for row in self.table("one", "pairs.csv"):
            kinds[row["kind"]] += row["measure"] == "wait"
        # 12 cells: 11 others, 3 * 3 steps of service and 4 * 2 of the time between, 66 pairs
        self.assertEqual(kinds, {"base": 11, "neighbour": 17, "all": 66})
        shown = tool("summary", self.path("one"))
        self.assertEqual((shown.returncode, shown.stderr), (0, b""))
        self.assertIn(" best\n", shown.stdout.decode())
        for name, written, told in (
            ("plan.toml", b"\xff", "plan.toml is no TOML"),
            ("pairs.csv", b"kind,measure\n", "pairs.csv has no column cell"),
            ("cells.csv", b"\xff", "cells.csv is no CSV"),
        ):
            with open(os.path.join(self.folder, "one", name), "wb") as file:
                file.write(written)
            bad = tool("summary", self.path("one"))
            self.assertEqual((bad.returncode, bad.stderr.count(b"\n"), told.encode() in bad.stderr), (2, 1, True), bad.stderr)

    def test_a_cluster_that_loses_a_worker_writes_the_same(self):
        python = sys.executable if has("distributed") else SYSTEM
        if not has("distributed", python):
            self.skipTest("no package distributed: tools/study --on")
        file = self.path("scheduler.json")
        quiet = {"stdout": subprocess.DEVNULL, "stderr": subprocess.DEVNULL, "cwd": self.folder}
        start = lambda *words: subprocess.Popen([python, "-m", *words], **quiet)
        running = [start("distributed.cli.dask_scheduler", "--host", "127.0.0.1", "--port", "0", "--no-dashboard",
                         "--scheduler-file", file)]
        worker = ("distributed.cli.dask_worker", "--scheduler-file", file, "--nthreads", "1", "--no-nanny", "--no-dashboard")
        running += [start(*worker), start(*worker)]

        def stop():
            for process in running:
                process.kill()
                process.wait()

        self.addCleanup(stop)
        for _ in range(300):
            if os.path.exists(file):
                break
            time.sleep(0.1)
        with open(file) as told:
            address = json.load(told)["address"]
        count = f"import distributed; print(len(distributed.Client({address!r}).scheduler_info()['workers']))"
        for _ in range(60):
            told = subprocess.run([python, "-c", count], capture_output=True, cwd=self.folder).stdout.strip()
            if told == b"2":
                break
            time.sleep(0.2)
        command = [os.path.join(ROOT, "tools", "study"), self.plan, "--to", self.path("cluster"), "--on", address]
        study = subprocess.Popen(command, stderr=subprocess.PIPE)
        parts = os.path.join(self.folder, "cluster", "parts")
        for _ in range(600):
            if os.path.isdir(parts) and len(os.listdir(parts)) > 3 or study.poll() is not None:
                break
            time.sleep(0.02)
        running[1].kill()
        told = study.communicate(timeout=300)[1]
        self.assertEqual(study.returncode, 0, told)
        self.assertEqual(self.study("local").returncode, 0)
        self.same_files("cluster", "local")
        wrong = self.study("none", "--on", "tcp://127.0.0.1:9")
        self.assertEqual((wrong.returncode, b"no scheduler answers" in wrong.stderr), (2, True), wrong.stderr)

    def small_plan(self):
        return PLAN.replace("replications = 40", "replications = 4").replace(', "150,40", "140,40", "130,40"', "").replace(", 200", "")

    def test_parquet_has_the_rows_of_runs(self):
        python = next((it for it in (sys.executable, SYSTEM) if has("pyarrow", it)), None)
        if python is None:
            ran = self.study("none", "--parquet")
            self.assertEqual((ran.returncode, ran.stderr), (2, b"tools/study: pyarrow is not here: `pip install pyarrow`\n"))
            self.skipTest("no package pyarrow: tools/study --parquet")
        self.write("plan.toml", self.small_plan())
        self.assertEqual(self.study("parquet", "--parquet").returncode, 0)
        code = "import json, sys, pyarrow.parquet as p; print(json.dumps(p.read_table(sys.argv[1]).to_pylist()))"
        told = subprocess.run([python, "-c", code, self.path("parquet/runs.parquet")], capture_output=True).stdout
        found = [{name: str(value) for name, value in row.items() if name != "value"} for row in json.loads(told)]
        wanted = [{name: value for name, value in row.items() if name != "value"} for row in self.table("parquet", "runs.csv")]
        self.assertEqual(found, wanted)

    def test_parquet_is_given_the_types_of_its_columns(self):
        # a package that writes down how it is called
        for name, text in FAKE_PYARROW.items():
            os.makedirs(self.path("fake/pyarrow"), exist_ok=True)
            self.write(f"fake/pyarrow/{name}", text)
        self.write("plan.toml", self.small_plan())
        ran = self.study("parquet", "--parquet", PYTHONPATH=self.path("fake"))
        self.assertEqual(ran.returncode, 0, ran.stderr)
        path, types = json.loads(self.read("parquet", "runs.parquet"))
        self.assertEqual(path, self.path("parquet/runs.csv"))
        text = dict.fromkeys(("cell", "service", "outcome", "section", "entity", "column"), "string")
        self.assertEqual(types, {**text, "between": "int64", "replication": "int64", "seed": "int64", "value": "float64"})
        self.assertEqual(set(types), set(self.table("parquet", "runs.csv")[0]))

    def test_a_study_that_is_stopped_goes_on(self):
        command = [os.path.join(ROOT, "tools", "study"), self.plan, "--to", self.path("stopped"), "--jobs", "1"]
        study = subprocess.Popen(command, stderr=subprocess.PIPE)
        parts = os.path.join(self.folder, "stopped", "parts")
        while study.poll() is None and not (os.path.isdir(parts) and len(os.listdir(parts)) > 4):
            time.sleep(0.005)
        study.send_signal(signal.SIGTERM)
        study.communicate(timeout=60)
        self.assertNotEqual(study.returncode, 0)
        kept = {name: os.stat(os.path.join(parts, name)).st_mtime_ns for name in os.listdir(parts) if name[-5:] == ".json"}
        self.assertTrue(0 < len(kept) < 24, len(kept))
        again = self.study("stopped")
        self.assertEqual((again.returncode, b"--resume goes on" in again.stderr), (2, True), again.stderr)
        self.assertEqual(self.study("stopped", "--resume").returncode, 0)
        self.assertEqual(self.study("whole").returncode, 0)
        self.same_files("stopped", "whole")
        # another plan does not go on from these parts
        os.makedirs(parts)
        with open(os.path.join(parts, "key"), "w") as file:
            file.write("another\n")
        other = self.study("stopped", "--resume")
        self.assertEqual((other.returncode, b"of another plan" in other.stderr), (2, True), other.stderr)

    def test_a_program_that_is_killed_costs_its_chunk_alone(self):
        # the second session that is begun dies, once
        mark = self.path("died")
        shim = self.write("shim", f"""#!/usr/bin/env bash
case "$*" in *--every*) if [ ! -e {mark}.1 ]; then touch {mark}.1; elif [ ! -e {mark}.2 ]; then touch {mark}.2; kill -9 $$; fi;; esac
exec {os.environ['GPSSBENCH']} "$@"
""")
        os.chmod(shim, 0o755)
        ran = self.study("killed", "--jobs", "1", GPSSBENCH=shim)
        self.assertEqual(ran.returncode, 0, ran.stderr)
        self.assertEqual(ran.stderr.count(b"it is tried again"), 1, ran.stderr)
        self.assertEqual(self.study("plain").returncode, 0)
        self.same_files("killed", "plain")

    def test_failed_runs_are_counted(self):
        self.write("desk.gps", ENDLESS)
        self.write("plan.toml", 'model = "desk.gps"\nreplications = 40\nlimit = 100\n[measures]\nline = "queue LINE ENTRY"\n')
        ran = self.study("failed")
        self.assertEqual(ran.returncode, 1, ran.stderr)
        failed = self.table("failed", "failed.csv")
        self.assertTrue(5 < len(failed) < 35 and {row["outcome"] for row in failed} == {"TOOLONG"})
        self.assertIn(f"{len(failed)} not COMPLETE".encode(), ran.stderr)
        cell = self.table("failed", "cells.csv")[0]
        self.assertEqual((int(cell["n"]), cell["of"], cell["mean"]), (40 - len(failed), "40", "1"))

    def test_progress_counts_cells(self):
        class Terminal(io.StringIO):
            isatty = lambda self: True

        with contextlib.redirect_stderr(Terminal()) as told:
            # the first of three was made before, the second has two sessions
            progress = study.Progress(3, ["b", "b", "c"])
            for cell in ("b", "c", "b"):
                progress.shown = 0.0
                progress.step(cell)
        lines = [line.split("  ")[0] for line in told.getvalue().split("\r")[1:]]
        self.assertEqual(lines, ["1/3 cells", "2/3 cells", "3/3 cells"])
        self.assertTrue(told.getvalue().endswith("  0 s, 0 s to go  "))

    def test_classes_and_blocks_are_measured(self):
        table = "Times TABLE M1,200,100,3\n"
        self.write("desk.gps", table + DESK.replace("TERMINATE 1", "TABULATE Times\nTERMINATE 1"))
        measures = {"few": "class TIMES 300 FREQUENCY", "share": "class TIMES 300 CUM.%", "served": "block Serve ENTRY COUNT",
                    "held": "block 5 CURRENT COUNT"}
        listed = "".join(f'{name} = "{text}"\n' for name, text in measures.items())
        self.write("plan.toml", f'model = "desk.gps"\nreplications = 4\n[measures]\n{listed}')
        ran = self.study("of")
        self.assertEqual(ran.returncode, 0, ran.stderr)
        with Bench(self.path("desk.gps"), seed=SEED) as bench:
            bench.replicate(4)
            rows = [report.text.split("\n") for report in bench.reports()]
        cells = [[line.split() for line in text] for text in rows]
        wanted = {
            "few": [int(row[3]) for text in cells for row in text if row[:3] == ["200", "-", "300"]],
            "share": [float(row[4]) for text in cells for row in text if row[:3] == ["200", "-", "300"]],
            "served": [int(row[3]) for text in cells for row in text if row[:1] == ["SERVE"] and len(row) == 6],
            "held": [int(row[4]) for text in cells for row in text if row[:1] == ["SERVE"] and len(row) == 6],
        }
        for row in self.table("of", "cells.csv"):
            listed = wanted[row["measure"]]
            self.assertEqual((row["n"], float(row["least"])), ("4", min(listed)), row)
            self.assertAlmostEqual(float(row["mean"]), sum(listed) / 4, places=5)
        for text, told in (
            ("class TIMES 250 FREQUENCY", "no class of TIMES goes up to 250, but to 200, 300"),
            ("class TIMES 300 TO", "has no column TO"),
            ("block Sevre ENTRY COUNT", "no block SEVRE, but SERVE"),
            ("block 9 ENTRY COUNT", "no block 9"),
            ("block Serve BLOCK TYPE", "has no column BLOCK TYPE"),
            ("queue LINE QUEUE", "has no column QUEUE"),
        ):
            self.write("plan.toml", f'model = "desk.gps"\n[measures]\nof = "{text}"\n')
            ran = self.study("bad")
            self.assertEqual((ran.returncode, ran.stderr.count(b"\n"), told.encode() in ran.stderr), (2, 1, True), ran.stderr)

    def test_precision_adds_replications(self):
        self.write("plan.toml", PLAN.replace("replications = 40", 'replications = 8\nprecision = "4%"\nmost = 500')
                   .replace(', "150,40", "140,40", "130,40"', "").replace(", 190, 200", ""))
        ran = self.study("precise")
        self.assertEqual(ran.returncode, 0, ran.stderr)
        for row in self.table("precise", "cells.csv"):
            self.assertLessEqual(float(row["half"]), .04 * float(row["mean"]))
            self.assertGreater(int(row["n"]), 32)
        self.write("plan.toml", PLAN.replace("replications = 40", 'replications = 8\nprecision = "0.1%"\nmost = 32'))
        ran = self.study("imprecise")
        self.assertEqual((ran.returncode, b"do not reach a half-width of" in ran.stderr), (1, True), ran.stderr)

    def test_first_draws_are_warned_of(self):
        model = "GENERATE ,,,1\nADVANCE RN2\nADVANCE RN3\nTERMINATE 1\nSTART 1\n"
        self.write("desk.gps", model)
        self.write("plan.toml", 'model = "desk.gps"\n[measures]\nend = "head END TIME"\n')
        ran = self.study("first")
        self.assertIn(b"fewer than 10 numbers of streams 2, 3", ran.stderr)

    def test_bad_plans_are_one_line(self):
        for old, new, wanted in (
            ("[factors.service]", "[factor.service]", "the plan has no key factor"),
            ("{}\"\nvalues = [\"160", "5\"\nvalues = [\"160", "has no {} for the value"),
            ("values = [180, 190, 200]", "values = []", "wants values"),
            ("@Serve", "@Sevre", "no statement has the label SEVRE; meant: SERVE"),
            ("ADVANCE {}", "ADVANCE {}.5", "scenario service=160,40 between=180: the edit"),
            ("queue LINE AVE.TIME", "queue LIEN AVE.TIME", "no queue LIEN, but LINE"),
            ("queue LINE AVE.TIME", "queue LINE AVE.TIMES", "has no column AVE.TIMES"),
            ("queue LINE", "Queues LINE", "is no measure"),
            ('model = "desk.gps"', 'model = "none.gps"', "No such file"),
            ("replications = 40", "replications = 1", "from 2 to"),
            ("change @Serve ADVANCE {}", "replicate 2 {}", "the study chooses the replications"),
            ("replications = 40", 'edits = ["seed 1 7"]', "the study chooses the replications"),
            ("replications = 40", 'edits = ["drop 1"]', "the study chooses the replications"),
            ("replications = 40", "start = 3", "the model has 1 START"),
            ("replications = 40", 'design = "cube"', "one-at-a-time"),
            ("replications = 40", 'precision = "5"', "a share of the mean"),
            ("replications = 40", "replications = ", "no TOML"),
            ("[measures]\n", "[measure]\n", "no key measure"),
        ):
            self.write("plan.toml", PLAN.replace(old, new))
            ran = self.study("bad")
            told = ran.stderr.decode()
            self.assertEqual((ran.returncode, told.count("\n"), wanted in told), (2, 1, True), told)
            self.assertFalse(os.path.exists(self.path("bad")), new)
        with open(self.plan, "wb") as file:
            file.write(b'model = "\xff"\n')
        told = self.study("bad")
        self.assertEqual((told.returncode, told.stderr), (2, f"tools/study: {self.plan} is no TOML: byte 10 is no UTF-8\n".encode()))
        self.write("desk.gps", DESK.replace("QUEUE", "QEUE"))
        self.write("plan.toml", PLAN)
        told = self.study("bad").stderr.decode()
        self.assertTrue("line 2 L3" in told and "QUEUE?" in told and told.count("\n") == 1, told)

    def test_alternatives_and_one_at_a_time(self):
        text = PLAN.replace("replications = 40", 'design = "one-at-a-time"') + "[alternatives.both]\nedits = [\"change @Serve ADVANCE 100\"]\n"
        found = [cell.name for cell in plan.read(text).cells]
        self.assertEqual(found[0], "as it is")
        self.assertEqual(len(found), 1 + 4 + 3 + 1)
        self.assertEqual(found[-1], "both")
        with self.assertRaises(Problem):
            plan.read(text.replace("alternatives.both", 'alternatives."as it is"'))

    def test_warmup_of_an_empty_desk(self):
        # a desk that is asked for 9 tenths of what it can do, and begins empty
        ran = tool("warmup", self.write("warm.gps", DESK), "queue", "LINE", "AVE.CONT.", "--every", "900", "--until", "90000")
        self.assertEqual((ran.returncode, ran.stderr), (0, b""))
        self.assertIn("by MSER-5 over the mean of 8 replications", ran.stdout.decode().split("\n")[-2])
        bad = tool("warmup", self.path("warm.gps"), "queue", "LINE", "CONT.")
        self.assertEqual((bad.returncode, bad.stderr.count(b"\n")), (2, 1))
        self.write("bad.gps", DESK.replace("QUEUE", "QEUE"))
        for model, entity, told in (("warm.gps", "LIEN", b"no queue LIEN, but LINE"), ("none.gps", "LINE", b"No such file"),
                                    ("bad.gps", "LINE", b"is refused: line 2 L3")):
            bad = tool("warmup", self.path(model), "queue", entity, "CONT.", "--every", "900", "--until", "90000")
            self.assertEqual((bad.returncode, bad.stderr.count(b"\n"), told in bad.stderr), (2, 1, True), bad.stderr)


if __name__ == "__main__":
    unittest.main()
