"""The page of a study, in a real browser where there is one, and as text."""
import os
import re
import shutil
import subprocess
import unittest
from html.parser import HTMLParser

from common import ROOT, InFolder, no_browser, tool
from gpssbench.command import SYSTEM, has

PLAN = """model = "clinic.gps"
start = 2
replications = 8
[factors.docs]
edit = "capacity Docs {}"
values = [3, 4, 5]
[factors.service]
edit = "change @Serve ADVANCE {},FN$Talk"
values = [400, 360]
[alternatives."<script>alert(1)</script>"]
edits = ["capacity Desk 2"]
[measures]
wait = "queue LINE AVE.TIME"
stay = "table STAY MEAN"
"""
# What the browser is asked, run by the Python that has Selenium: a page, and a folder for pictures.
BROWSE = """
import sys
from selenium import webdriver
from selenium.webdriver.common.by import By
from selenium.webdriver.common.keys import Keys

page, folder = sys.argv[1:]
options = webdriver.ChromeOptions()
for word in ("--headless=new", "--no-sandbox", "--disable-gpu", "--disable-dev-shm-usage"):
    options.add_argument(word)
options.set_capability("goog:loggingPrefs", {"browser": "ALL"})
driver = webdriver.Chrome(options=options)
try:
    for width in (1280, 400):
        size = {"width": width, "height": 1600, "deviceScaleFactor": 1, "mobile": False}
        driver.execute_cdp_cmd("Emulation.setDeviceMetricsOverride", size)
        driver.get("file://" + page)
        driver.save_screenshot(f"{folder}/{width}.png")
        assert driver.execute_script("return document.documentElement.scrollWidth") <= width, f"wider than {width}"
    figures = driver.find_elements(By.CSS_SELECTOR, "figure > svg")
    assert len(figures) == 2 * 4 + 2 and all(it.size["height"] > 50 for it in figures), len(figures)
    tables = driver.find_elements(By.CSS_SELECTOR, "table.sortable")
    assert len(tables) == 2 * 3 + 2, len(tables)
    table = driver.find_element(By.ID, "table-1-cells")
    means = lambda: [float(it.text.replace(",", "")) for it in table.find_elements(By.CSS_SELECTOR, "tbody td:nth-child(3)")]
    head = table.find_elements(By.CSS_SELECTOR, "th button")[2]
    before = means()
    head.click()
    assert means() == sorted(before), means()
    head.send_keys(Keys.ENTER)
    assert means() == sorted(before, reverse=True), "descending, by the keyboard"
    assert table.find_elements(By.CSS_SELECTOR, "th")[2].get_attribute("aria-sort") == "descending"
    assert "<script>alert(1)</script>" in table.text
    told = [it for it in driver.get_log("browser") if it["level"] in ("SEVERE", "WARNING")]
    assert not told, told
    colours = []
    for scheme in ("light", "dark"):
        driver.execute_cdp_cmd("Emulation.setEmulatedMedia", {"features": [{"name": "prefers-color-scheme", "value": scheme}]})
        colours.append(driver.execute_script("return getComputedStyle(document.body).backgroundColor"))
    assert colours[0] != colours[1], colours
    driver.execute_cdp_cmd("Emulation.setScriptExecutionDisabled", {"value": True})
    driver.get("file://" + page)
    assert len(driver.find_elements(By.CSS_SELECTOR, "table.sortable tbody tr")) > 20, "readable without a script"
finally:
    driver.quit()
print("seen")
"""


class Reader(HTMLParser):
    def __init__(self):
        super().__init__()
        self.ids, self.tags, self.links = [], [], []

    def handle_starttag(self, tag, attributes):
        self.tags.append(tag)
        self.ids += [value for name, value in attributes if name == "id"]
        self.links += [value for name, value in attributes if name in ("href", "src", "xlink:href")]


class Pages(InFolder):
    def setUp(self):
        super().setUp()
        python = None if has("matplotlib") and has("jinja2") else SYSTEM
        if python and not (has("matplotlib", python) and has("jinja2", python)):
            self.skipTest("no package matplotlib or jinja2: tools/page")
        shutil.copy(os.path.join(ROOT, "examples", "clinic.gps"), self.folder)
        ran = tool("study", self.write("plan.toml", PLAN), "--to", self.path("study"))
        self.assertEqual(ran.returncode, 0, ran.stderr)
        words = ["queue", "LINE", "CONT.", "--every", "7200", "--until", "360000"]
        ran = tool("warmup", self.path("clinic.gps"), *words, "--csv", self.path("study/warmup.csv"))
        self.assertEqual(ran.returncode, 0, ran.stderr)
        ran = tool("page", self.path("study"))
        self.assertEqual((ran.returncode, ran.stderr), (0, b""))
        self.page, self.text = self.path("study.html"), ran.stdout.decode()
        with open(self.page, "w", encoding="utf-8") as file:
            file.write(self.text)

    def test_the_page(self):
        reader = Reader()
        reader.feed(self.text)
        self.assertEqual(len(reader.ids), len(set(reader.ids)), "each name stands once")
        self.assertTrue(all(link.startswith("#") and link[1:] in reader.ids for link in reader.links), "no link leads out")
        self.assertFalse(re.search(r"(?:src|href)=\"(?:https?:)?//", self.text))
        self.assertEqual(reader.tags.count("script"), 1, "no text of a plan is a script")
        for name in ("figure-1-points", "figure-1-heat", "figure-1-curve", "figure-1-differences", "figure-histogram-0",
                     "figure-warmup", "table-1-cells", "table-2-base", "table-model-0"):
            self.assertIn(name, reader.ids)
        self.assertNotIn("#0a0", self.text, "each colour is the page's")
        with open(self.path("study/cells.csv")) as file:
            first = next(line for line in file if "docs=5 service=360" in line and ",wait," in line)
        mean = float(first.split(",")[7])
        self.assertIn(f"{mean:.3f}", self.text)
        again = tool("page", self.path("study"))
        self.assertEqual(again.stdout.decode(), self.text, "the same page each time")
        none = tool("page", self.folder)
        self.assertEqual((none.returncode, none.stderr.count(b"\n")), (2, 1), none.stderr)
        if why := no_browser():
            self.skipTest(f"{why}: the page in a browser")
        ran = subprocess.run([SYSTEM, "-c", BROWSE, self.page, self.folder], capture_output=True, timeout=300)
        self.assertEqual((ran.returncode, ran.stdout), (0, b"seen\n"), ran.stderr.decode())
        if pictures := os.environ.get("GPSSBENCH_PICTURES"):
            for width in (1280, 400):
                shutil.copy(self.path(f"{width}.png"), pictures)


if __name__ == "__main__":
    unittest.main()
