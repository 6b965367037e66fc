"""A model that is kept open: reports, edits, refusals, and a program that dies."""
import os
import shutil
import signal
import subprocess
import sys
import unittest

from common import DESK, ROOT, SEED, InFolder
from gpssbench import Bench, Ended, NoReplication, NoStart, Problem, Refused, TooLong
from gpssbench.command import SYSTEM, has

# What a Python with pandas is asked.
FRAME = """
import sys
from gpssbench import Bench

with Bench(sys.argv[1], seed=1945846388) as bench:
    bench.replicate(4)
    reports = bench.reports()
    queues, blocks, none = map(reports.frame, ("queue", "block", "table"))
assert list(queues["AVE.TIME"]) == list(reports.queues["LINE"].ave_time), queues
assert list(queues.replication) == [1, 2, 3, 4] and set(queues.QUEUE) == {"LINE"}, queues
assert queues["AVE.TIME"].dtype == "float64" and queues.ENTRY.dtype == "int64", queues.dtypes
assert len(blocks) == 4 * 7 and list(blocks[blocks.LABEL == "SERVE"].LOC) == [5] * 4, blocks
assert len(none) == 0 and list(none)[4:] == ["TABLE", "MEAN", "STD.DEV.", "RETRY", "VALUES"], none
print("framed")
"""


class OpenModel(InFolder):
    def open(self, text=DESK, **words):
        bench = Bench("-", text=text, **{"seed": SEED, **words})
        self.addCleanup(bench.close)
        return bench

    def test_a_line_that_is_no_edit_is_named(self):
        with Bench(self.write("desk.gps", DESK), seed=SEED) as bench, self.assertRaises(Refused) as told:
            bench.edit("insert x")
        self.assertIn("`insert x` has other arguments than its word takes", str(told.exception))

    def test_figures_are_those_of_the_readme(self):
        with open(os.path.join(ROOT, "README.md")) as file:
            self.assertIn("CLERK           201    0.893     160.159", file.read())
        report = self.open().report()
        self.assertEqual((report.facilities["CLERK"].util, report.queues["LINE"].entry_0), (0.893, 105))
        self.assertEqual((report.head.end_time, report.outcome, report.seed), (36026, "COMPLETE", SEED))
        self.assertEqual(report.measure("facility CLERK AVE.TIME"), 160.159)

    def test_replications_and_paired_differences(self):
        bench = self.open()
        bench.replicate(8)
        base = bench.reports()
        bench.change("@Serve", "ADVANCE 140,40")
        more = bench.reports()
        self.assertEqual(len(more.queues["Line"].ave_time), 8)
        found = more.compare(base, "queue LINE AVE.TIME")
        # as the README has it, from tools/intervals
        self.assertEqual((round(found.mean, 3), round(found.mean - found.half, 3)), (-15.186, -18.624))
        self.assertEqual(bench.list()[4], "SERVE ADVANCE 140,40")
        self.assertEqual(len(more.rows("queue")), 8)
        self.assertIn("<td>queue LINE</td>", more._repr_html_())

    def test_nothing_of_a_model_is_html(self):
        report = self.open(DESK.replace("Serve", "Script")).report()
        self.assertIn("<td>SCRIPT</td>", report._repr_html_())
        from gpssbench.bench import html_table

        self.assertIn("&lt;script&gt;", html_table(["a"], [["<script>"]]))

    def test_refusals_have_their_code_and_sentence(self):
        bench = self.open()
        with self.assertRaises(Refused) as refused:
            bench.change(5, "ADVANCE 1.5")
        self.assertEqual(refused.exception.code, "E2 L5 1")
        self.assertIn("no decimals", refused.exception.sentence)
        with self.assertRaises(Refused) as refused:
            bench.capacity("Clerk", 2)
        self.assertIn("CLERK is a facility", refused.exception.sentence)
        self.assertTrue(str(refused.exception).startswith("E6: no `STORAGE` has the name. What to do: "))
        with self.assertRaises(Refused) as refused:
            bench.change("@Serve", "ADVANCE Lot")
        self.assertEqual(refused.exception.code, "E3 M3")
        self.assertIn("The name that is meant is LOT, in `SERVE ADVANCE Lot`.", refused.exception.sentence)
        with self.assertRaises(Refused) as refused:
            bench.edit("seed 1 0")
        self.assertEqual(refused.exception.code, "E3 M6")
        with self.assertRaises(Refused) as refused:
            self.open("GENERATE 5\nTRANSFER ,Out\n").list()
        self.assertIn("The name that is meant is OUT, in `TRANSFER ,Out`.", refused.exception.sentence)
        with self.assertRaisesRegex(Problem, "no statement has the label"):
            bench.change("@Nobody", "ADVANCE 5")
        self.assertEqual(bench.version, 0)
        with self.assertRaises(Refused) as refused:
            self.open("GENERATE 5\nADVANSE 3\n").list()
        self.assertEqual(refused.exception.code, "line 2 L3")
        self.assertIn("ADVANCE?", refused.exception.sentence)

    def test_a_class_is_called_by_its_limit(self):
        bench = self.open("Times TABLE M1,2,2,4\nGENERATE 10\nADVANCE 3\nTABULATE Times\nTERMINATE 1\nSTART 5\n")
        found = bench.reports()
        self.assertEqual(found.values("class TIMES 4 FREQUENCY"), [5.0])
        self.assertEqual(found.values("class TIMES 2 FREQUENCY"), [0.0])
        with self.assertRaisesRegex(Problem, "no class of TIMES goes up to 3, but to 2, 4, 6"):
            found.values("class TIMES 3 FREQUENCY")

    def test_queries_without_a_report(self):
        bench = self.open(limit=100)
        self.assertRaises(TooLong, bench.report)
        self.assertRaises(NoStart, bench.report, 1, 2)
        self.assertRaises(NoReplication, bench.report, 5, 1)
        some = self.open("GENERATE 10,,,1\nTRANSFER .5,,Round\nTERMINATE 1\nRound BUFFER\nTRANSFER ,Round\nSTART 1\n", limit=50)
        some.replicate(16)
        reports = some.reports()
        self.assertEqual(len(reports) + len(reports.missing), 16)
        self.assertEqual(set(reports.missing.values()), {"toolong"})

    def test_a_program_that_dies_says_so(self):
        bench = self.open()
        first = bench.report()
        os.kill(bench.session.process.pid, signal.SIGKILL)
        with self.assertRaises(Ended):
            bench.report()
        with self.assertRaises(Ended):
            bench.list()
        self.assertEqual(first.head.end_time, 36026)
        with self.assertRaisesRegex(Ended, "no such file"):
            Bench(self.path("none.gps")).list()

    def test_rows_have_names_as_text(self):
        reports = self.open(DESK.replace("Line", "2")).reports()
        self.assertEqual([(row["QUEUE"], row["CONT."], row["replication"]) for row in reports.rows("queue")], [("2", 1, 1)])
        with self.assertRaisesRegex(Problem, "no kind queues, but head, name, block"):
            reports.rows("queues")

    def test_a_frame_has_the_rows(self):
        python = next((it for it in (sys.executable, SYSTEM) if has("pandas", it)), None)
        if python is None:
            self.skipTest("no package pandas: Reports.frame()")
        ran = subprocess.run([python, "-c", FRAME, self.write("desk.gps", DESK)], capture_output=True, timeout=60,
                             env={**os.environ, "PYTHONPATH": os.path.join(ROOT, "python")})
        self.assertEqual((ran.returncode, ran.stdout), (0, b"framed\n"), ran.stderr.decode())

    def test_peek_says_how_many_steps_there_are(self):
        self.assertEqual(self.open().peek(), 0)


class Installed(InFolder):
    def test_pip_installs_all_of_it_without_a_network(self):
        missing = [it for it in ("pip", "setuptools", "wheel") if not has(it, SYSTEM)]
        if missing:
            self.skipTest(f"no package {', '.join(missing)}: an installation by pip")
        shutil.copytree(os.path.join(ROOT, "python"), self.path("python"))
        words = ["--no-index", "--no-build-isolation", "--no-deps", "--disable-pip-version-check", "--target", self.path("there")]
        ran = subprocess.run([SYSTEM, "-m", "pip", "install", *words, self.path("python")], capture_output=True, timeout=300)
        self.assertEqual(ran.returncode, 0, ran.stderr.decode()[-2000:])
        names = lambda *folder: {
            os.path.join(place, name).removeprefix(self.path(os.path.join(*folder)))
            for place, _, files in os.walk(self.path(os.path.join(*folder)))
            for name in files if not name.endswith(".pyc")
        }
        self.assertEqual(names("there", "gpssbench"), names("python", "gpssbench"))


if __name__ == "__main__":
    unittest.main()
