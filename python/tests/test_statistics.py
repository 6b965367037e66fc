"""Statistics, seeds and distributions, by tables and formulas from outside."""
import math
import os
import random
import unittest

from common import ROOT, SEED, InFolder, tool
from gpssbench import bench, draw, seeds, stats
from gpssbench.command import Problem


class Statistics(unittest.TestCase):
    def test_student_is_as_in_printed_tables(self):
        # two-sided points as tables of Student's t have them
        for freedom, level, wanted in (
            (1, .95, 12.706), (2, .95, 4.303), (7, .95, 2.365), (31, .95, 2.040), (60, .95, 2.000), (120, .95, 1.980),
            (1000, .95, 1.962), (10, .99, 3.169), (1, .99, 63.657), (5, .999, 6.869), (30, .9, 1.697), (10**6, .99, 2.576),
        ):
            self.assertAlmostEqual(stats.student(freedom, level), wanted, delta=0.0005, msg=(freedom, level))

    def test_estimate_by_hand(self):
        # 2, 4, 9: mean 5, deviation sqrt(13), half-width 4.30265 * sqrt(13 / 3)
        found = stats.estimate([2, None, 4, 9])
        self.assertEqual((found.n, found.of, found.mean, found.least, found.greatest), (3, 4, 5, 2, 9))
        self.assertAlmostEqual(found.half, 8.956686, places=5)
        self.assertIsNone(stats.estimate([None]))
        self.assertIsNone(stats.estimate([7]).half)
        # three comparisons at 95 per cent together are 98.333 per cent each
        self.assertAlmostEqual(stats.estimate([2, 4, 9], .95, 3).half, stats.estimate([2, 4, 9], 1 - .05 / 3).half)

    def test_an_interval_holds_the_mean_as_often_as_it_says(self):
        source, held = random.Random(3), 0
        for _ in range(2000):
            low, high = stats.estimate([source.gauss(10, 3) for _ in range(5)]).interval
            held += low <= 10 <= high
        self.assertAlmostEqual(held / 2000, .95, delta=4 * math.sqrt(.95 * .05 / 2000))

    def test_no_minus_in_front_of_a_zero(self):
        self.assertEqual([stats.fixed(it) for it in (-0.0001, 0, -1.5)], ["0.000", "0.000", "-1.500"])

    def test_mser_cuts_what_differs_at_the_front(self):
        source = random.Random(5)
        steady = [source.gauss(10, 1) for _ in range(400)]
        rising = [10 * at / 60 for at in range(60)]
        self.assertTrue(50 <= stats.mser(rising + steady) <= 70)
        self.assertTrue(stats.mser(steady) <= 20)

    def test_moving_average_by_hand(self):
        self.assertEqual(stats.moving_average([1, 2, 6, 7, 4], 1), [1, 3, 5, 17 / 3])


class Seeds(unittest.TestCase):
    def test_logarithms(self):
        for power in (1, 2, 777, 12345678, 2147483645):
            self.assertEqual(seeds.place(pow(16807, power, 2147483647)), power % 2147483646)

    def test_seeds_are_far_apart(self):
        for streams in (seeds.RMULT, seeds.PLAIN):
            found = seeds.far_apart(100, 50_000, streams)
            self.assertEqual(len(set(found)), 100)
            self.assertGreaterEqual(seeds.least_gap(found, streams), 50_000)
        self.assertEqual(seeds.far_apart(32, 1_000_000), list(seeds.RECOMMENDED))
        self.assertEqual(seeds.far_apart(40, 20_000)[:32], seeds.far_apart(50, 20_000)[:32])

    def test_the_recommended_ones_are_those_of_the_page(self):
        with open(os.path.join(ROOT, "docs", "seeds.md")) as file:
            text = file.read()
        self.assertTrue(all(str(seed) in text for seed in seeds.RECOMMENDED))
        self.assertIn("RMULT " + ",".join(map(str, seeds.RMULT)), text)

    def test_too_many_are_impossible(self):
        with self.assertRaisesRegex(Problem, "impossible"):
            seeds.far_apart(1000, 1_000_000)


class Distributions(InFolder):
    # the words, the mean and the standard deviation by formulas
    CASES = [
        (["expo"], 1, 1), (["normal", "--deviation", ".2"], 1, .2), (["lognormal", "--deviation", ".5"], 1, .5),
        (["gamma", "--shape", "4"], 1, .5), (["weibull", "--shape", "2"], 1, math.sqrt(4 / math.pi - 1)),
        (["triangle", "--low", "200", "--mode", "500", "--high", "1100"], 600, math.sqrt(210000 / 6)),
    ]

    def test_each_function_has_the_mean_and_deviation_of_its_distribution(self):
        for words, mean, deviation in self.CASES:
            ran = tool("draw", *words, "--name", "Drawn", "--stream", "3")
            self.assertEqual((ran.returncode, ran.stderr), (0, b""), words)
            scaled = words[0] != "triangle"
            held = "1000,FN$Drawn" if scaled else "FN$Drawn"
            model = f"Times TABLE M1,500,500,9\n{ran.stdout.decode()}GENERATE 1,,,20000\nADVANCE {held}\nTABULATE Times\nTERMINATE 1\nSTART 20000\n"
            with bench.Bench("-", text=model, seed=SEED) as opened:
                row = opened.report().tables["TIMES"]
            mean, deviation = (mean * 1000, deviation * 1000) if scaled else (mean, deviation)
            # half a tick is cut off, and the mean of 20,000 draws has this error; the deviation may be off by 3 per cent
            error = 5 * deviation / math.sqrt(20000)
            self.assertAlmostEqual(row["MEAN"], mean - .5, delta=error + .5, msg=words)
            self.assertAlmostEqual(row["STD.DEV."], deviation, delta=.04 * deviation, msg=words)

    def test_data_have_their_mean(self):
        path = self.write("times.csv", "stay\n" + "".join(f"{at}\n" for at in range(100, 301)))
        ran = tool("draw", "--data", path, "--column", "stay")
        self.assertIn("mean 200.000", ran.stdout.decode().split("\n")[0])
        bad = tool("draw", "--data", path, "--column", "none")
        self.assertEqual((bad.returncode, bad.stderr.count(b"\n")), (2, 1))
        for figure in ("nan", "inf", "1e400", "5e9", "-1"):
            bad = tool("draw", "--data", self.write("bad.csv", f"5\n{figure}\n"))
            self.assertEqual((bad.returncode, bad.stderr.count(b"\n")), (2, 1), bad.stderr)
        bad = tool("draw", "--data", self.write("bad.csv", "no time" * 1000))
        self.assertEqual((bad.returncode, len(bad.stderr) < 200), (2, True), bad.stderr)

    def test_shares_of_the_gamma_distribution(self):
        # 1 - e^-x (1 + x) for the shape 2, and 1 - e^-x for 1
        for x in (.1, 1, 3.5, 20):
            self.assertAlmostEqual(draw.gamma_share(1, x), 1 - math.exp(-x))
            self.assertAlmostEqual(draw.gamma_share(2, x), 1 - math.exp(-x) * (1 + x))


if __name__ == "__main__":
    unittest.main()
