"""The prompt, over a pipe and at a terminal, and the model that is kept under it."""
import os
import pty
import select
import subprocess
import time
import unittest

from common import DESK, ROOT, SEED, InFolder, tool
from gpssbench import offers
from gpssbench.ask import words_for
from gpssbench.command import Problem
from gpssbench.kept_model import KeptModel, Refused, compare, cost


class Prompts(InFolder):
    def ask(self, *lines, words=()):
        path = self.write("desk.gps", DESK)
        ran = tool("ask", path, "--seed", str(SEED), *words, given="".join(f"{line}\n" for line in lines).encode())
        self.assertEqual((ran.returncode, ran.stderr), (0, b""))
        return ran.stdout.decode()

    def test_a_difference_is_that_of_the_readme(self):
        told = self.ask("replicate 8", "change @Serve ADVANCE 140,40", "compare")
        self.assertIn("5: SERVE ADVANCE 160,40 -> SERVE ADVANCE 140,40\n", told)
        # -15.186, from -18.624 to -11.747, stands in the README
        line = next(line for line in told.split("\n") if line.startswith("queue LINE AVE.TIME"))
        self.assertEqual(line.split()[3:], ["20.490", "5.305", "-15.186", "3.438", "*"])

    def test_undo_and_redo(self):
        told = self.ask("delete @Serve", "undo", "compare", "redo", "list", "redo", "undo", "undo")
        self.assertIn("5: deleted SERVE ADVANCE 160,40\n5: inserted SERVE ADVANCE 160,40\nnothing differs\n", told)
        self.assertIn("    5   RELEASE CLERK\n", told)
        self.assertEqual(told.count("there is nothing to redo"), 1)
        self.assertEqual(told.count("there is nothing to undo"), 1)
        self.assertIn("undone: horizon 500\n", self.ask("horizon 500", "undo"))

    def test_a_baseline_has_its_horizon(self):
        told = self.ask("horizon 5000", "compare", "base", "compare", "undo", "compare")
        self.assertIn("queue LINE ENTRY", told.split("is the baseline")[0])
        after = told.split("is the baseline")[1].split("\n")
        self.assertEqual(after[1], "nothing differs")
        self.assertIn("undone: horizon 5000", after)
        self.assertTrue(any(line.startswith("queue LINE ENTRY") for line in after), after)
        kept = KeptModel(self.path("desk.gps"), replications=2)
        self.addCleanup(kept.bench.close)
        kept.edit("horizon 5000")
        kept.name_version("short")
        kept.undo()
        for name, differs in (("", False), ("short", True)):
            kept.compare_with(name)
            found = compare(kept.baseline(1), kept.reports(1))
            self.assertEqual(any(it.change.mean for it in found), differs, name)

    def test_what_is_wrong_is_said(self):
        told = self.ask("report \u00b2", "seed \u00b2 4", "change 1 \u20ac", "delete 9\u00b2")
        self.assertEqual(told.count("\n"), 4, told)
        self.assertIn("plain letters", told)
        told = self.ask("change 5 ADVANCE 1.5", "hlep", "explain M3", "save /nowhere/x.gps", "report 1 9", "report 7")
        for part in ("no decimals", "no command hlep, help?; ", "M3: ", "/nowhere/x.gps: No such file", "nostart: ", "noreplication: "):
            self.assertIn(part, told)
        bad = tool("ask", self.write("bad.gps", "GENERATE 5\nADVANSE 3\n"))
        self.assertEqual((bad.returncode, bad.stderr.count(b"\n"), b"ADVANCE?" in bad.stderr), (2, 1, True), bad.stderr)

    def test_a_model_is_saved_with_its_comments(self):
        text = "* A desk\nGENERATE 10 ; come\n* two\nQUEUE Line ; waits\nTERMINATE 1\nSTART 2\n* the end\n"
        kept = KeptModel(self.write("desk.gps", text))
        self.addCleanup(kept.bench.close)
        self.assertEqual(kept.model_text(), text)
        kept.edit("insert 3 DEPART Line")
        kept.edit("change 2 QUEUE Other")
        kept.edit("delete 1")
        self.assertEqual(kept.model_text().split("\n")[:3], ["* A desk", "* two", "        QUEUE    OTHER"])
        for _ in range(3):
            kept.undo()
        self.assertEqual(kept.texts(), ["GENERATE 10", "QUEUE LINE", "TERMINATE 1", "START 2"])
        self.assertIn("QUEUE Line ; waits", kept.model_text())

    def test_each_edit_is_on_the_disk(self):
        journal = self.path("desk.edits")
        path = self.write("desk.gps", DESK)
        kept = KeptModel(path, journal=journal)
        kept.edit("change @Serve ADVANCE 140,40")
        kept.bench.session.process.kill()
        kept.bench.close()
        self.assertEqual(self.read("desk.edits"), b"change 5 SERVE ADVANCE 140,40\n")
        with open(journal, "a") as file:
            file.write("change 5 ADV")  # the disk was full: nobody was shown this one
        again = KeptModel(path, journal=journal)
        self.addCleanup(again.bench.close)
        self.assertEqual((again.replayed, again.texts()[4]), (1, "SERVE ADVANCE 140,40"))
        found = compare(again.baseline(1), again.reports(1))
        self.assertTrue(any(it.change.mean for it in found))
        again.edit("change 1 GENERATE 190,60")
        self.assertEqual(self.read("desk.edits"), b"change 5 SERVE ADVANCE 140,40\nchange 1 GENERATE 190,60\n")

    def test_names_are_offered_by_their_place(self):
        text = """Beds STORAGE 3
Urgent EQU 2
Work VARIABLE P$Lot+1
Stay TABLE M1,10,10,5
GENERATE 20
ASSIGN Lot,4
QUEUE Line
QUEUE Urgent
Into ENTER Beds
SEIZE Nurse
ADVANCE V$Work
TABULATE Stay
LOGIC S Open
LINK Wait,FIFO
SAVEVALUE Sum+,1
Out TERMINATE 1
START 5
"""
        kept = KeptModel(self.write("ward.gps", text), SEED)
        self.addCleanup(kept.bench.close)
        names = kept.names()
        for typed, words in (
            ("QU", ["QUEUE"]), ("Into EN", ["ENTER"]), ("queue ", ["LINE", "URGENT"]), ("DEPART li", ["LINE"]),
            ("ENTER ", ["BEDS"]), ("SEIZE ", ["NURSE"]), ("Into SEIZE N", ["NURSE"]), ("TRANSFER .5,,O", ["OUT"]),
            ("TRANSFER ,", ["INTO", "OUT"]), ("GATE ", ["U", "NU", "LS", "LR", "SE", "SNE", "SF", "SNF"]), ("GATE LR ", ["OPEN"]),
            ("Tested TEST E Q$", ["Q$LINE", "Q$URGENT"]), ("TEST E Q$Line,0,I", ["INTO"]), ("GATE SF ", ["BEDS"]),
            ("LINK Wait,", ["FIFO", "LIFO"]), ("TABULATE ", ["STAY"]), ("SAVEVALUE S", ["SUM"]), ("ASSIGN ", ["LOT"]),
            ("ADVANCE U", ["URGENT"]), ("ADVANCE (P$", ["P$LOT"]), ("ADVANCE ((1+2)#V", ["V$WORK"]), ("ADVANCE N$", ["N$INTO", "N$OUT"]),
            ("UNLINK Wait,Into,A", ["ALL"]), ("START 5,", ["NP"]), ("QUEUE Line,1,", []), ("QUEUE Line a comment ", []),
            ("SAVEVALUE Sum+", []), ("nothing of the kind ", []), ("QUEUE " + "L" * 300, []),
        ):
            self.assertEqual(offers.offered(names, typed)[1], words, typed)
        self.assertEqual(offers.offered(names, "Into ENTER be"), ("Into ENTER ", ["BEDS"]))
        for front, word, words in (
            ("", "sh", ["show"]), ("show ", "q", ["queue"]), ("show queue ", "", ["LINE", "URGENT"]), ("capacity ", "", ["BEDS"]),
            ("change ", "@b", ["@BEDS"]), ("change @Into ", "EN", ["ENTER"]), ("insert before @Into SEIZE ", "", ["NURSE"]),
            ("insert 3 QUEUE ", "l", ["LINE"]), ("change @/QUEUE LINE/ DEPART ", "", ["LINE", "URGENT"]),
        ):
            self.assertEqual(words_for(kept, front, word), words, front + word)

    def test_what_an_edit_keeps_is_counted(self):
        kept = KeptModel(self.write("desk.gps", DESK), SEED, 2, words={"every": 50})
        self.addCleanup(kept.bench.close)
        known = [report.text for report in kept.reports(1)]
        all_steps = kept.recorded()
        self.assertTrue(all(steps > 800 for steps in all_steps.values()), all_steps)
        # it is counted by a START at the end, which leaves no trace
        self.assertEqual((kept.bench.list(), kept.bench.version, kept.recorded()), (kept.texts(), 1, all_steps))
        self.assertEqual(kept.kept_steps(1), {1: None, 2: None})
        self.assertEqual([report.text for report in kept.reports(1)], known)
        # a further START keeps all steps; a seed keeps those of the other replications
        kept.edit("insert 9 START 10")
        steps = kept.kept_steps(2)
        self.assertEqual(steps, all_steps)
        kept.reports(2)
        more = kept.recorded()
        self.assertEqual(cost(steps, more),
                         f"{sum(all_steps.values()):,} of {sum(more.values()):,} steps were kept, and "
                         f"{sum(more.values()) - sum(all_steps.values()):,} made anew")
        kept.edit("seed 2 1474719581")
        self.assertEqual(kept.kept_steps(2), {1: None, 2: 0})

    def test_an_edit_is_tried_before_it_is_made(self):
        kept = KeptModel(self.write("desk.gps", DESK), SEED, 2, words={"every": 50})
        self.addCleanup(kept.bench.close)
        kept.reports(1)
        whole = kept.recorded()
        listed, version = kept.bench.list(), kept.bench.version
        told = {line: kept.trial(line, 1) for line in ("insert 9 START 10", "change @Serve ADVANCE 150", "change 7 TERMINATE 2")}
        self.assertEqual(told["insert 9 START 10"], f"it would keep {whole[1]:,} of the {whole[1]:,} steps of replication 1")
        self.assertEqual(told["change @Serve ADVANCE 150"], f"it would keep 0 of the {whole[1]:,} steps of replication 1")
        # nothing has changed, and what was told comes true
        self.assertEqual((kept.bench.list(), kept.bench.version, kept.recorded()), (listed, version, whole))
        kept.edit("change 7 TERMINATE 2")
        self.assertIn(f"keep {kept.recorded()[1]:,} of the", told["change 7 TERMINATE 2"])
        self.assertRaises(Refused, kept.trial, "change 5 ADVANCE 1.5", 1)
        self.assertRaisesRegex(Problem, "begins with one of change", kept.trial, "drop 1", 1)
        asked = self.ask("try change @Serve ADVANCE 150", "compare")
        self.assertIn("it would keep 0 of the", asked)
        self.assertIn("nothing differs", asked)

    def test_runs_that_never_end_are_not_counted(self):
        text = "GENERATE 10,,,1\nTRANSFER .5,,Round\nTERMINATE 1\nRound BUFFER\nTRANSFER ,Round\nSTART 1\n"
        kept = KeptModel(self.write("round.gps", text), SEED, 16, words={"limit": 50})
        self.addCleanup(kept.bench.close)
        reports = kept.reports(1)
        self.assertTrue(0 < len(reports) < 16)
        counted = [number for number, steps in kept.recorded().items() if steps is not None]
        self.assertTrue(set(counted) >= {report.replication for report in reports}, counted)
        self.assertEqual(cost({1: 0}, {1: None}), "the steps are not counted, since no run reaches the end of the last START")
        self.assertEqual(cost({1: None, 2: 0}, {1: 7, 2: None}), "7 of 7 steps were kept, and 0 made anew, in 1 of 2 replications")

    def test_completion_at_a_terminal(self):
        path = self.write("desk.gps", DESK)
        master, slave = pty.openpty()
        env = {**os.environ, "HOME": self.folder, "TERM": "dumb"}
        asking = subprocess.Popen([os.path.join(ROOT, "tools", "ask"), path], stdin=slave, stdout=slave, stderr=slave, env=env)
        os.close(slave)
        told = b""

        def until(part):
            nonlocal told
            ends = time.monotonic() + 20
            while part not in told and time.monotonic() < ends:
                if select.select([master], [], [], 0.2)[0]:
                    told += os.read(master, 4096)
            self.assertIn(part, told)

        until(b"gpss> ")
        os.write(master, b"sho\tqueue LI\tENTRY\n")
        until(b"queue LINE ENTRY")
        until(b"201.000")
        os.write(master, b"quit\n")
        self.assertEqual(asking.wait(timeout=60), 0)
        os.close(master)
        self.assertIn(b"show queue LINE ENTRY", self.read(".gpssbench_history"))


if __name__ == "__main__":
    unittest.main()
