"""What the tests of the package share."""
import functools
import os
import shutil
import subprocess
import sys
import tempfile
import unittest

ROOT = os.path.dirname(os.path.dirname(os.path.dirname(os.path.realpath(__file__))))
sys.path.insert(0, os.path.join(ROOT, "python"))
os.environ.setdefault("GPSSBENCH", os.path.join(ROOT, "crates", "gw_main", "out", "gw_main"))

from gpssbench.command import SYSTEM, has  # noqa: E402

SEED = 1945846388
DESK = """GENERATE 180,60
QUEUE Line
SEIZE Clerk
DEPART Line
Serve ADVANCE 160,40
RELEASE Clerk
TERMINATE 1
START 200
"""


def tool(name, *words, given=b"", cwd=None, **more):
    """Runs a tool as one does from a clone."""
    command = [os.path.join(ROOT, "tools", name), *words]
    return subprocess.run(command, input=given, capture_output=True, timeout=300, cwd=cwd, env={**os.environ, **more})


START = """
from selenium import webdriver

options = webdriver.ChromeOptions()
for word in ("--headless=new", "--no-sandbox", "--disable-gpu", "--disable-dev-shm-usage"):
    options.add_argument(word)
webdriver.Chrome(options=options).quit()
"""


@functools.cache
def no_browser():
    """Why no test can look at a page: what is missing, or that Chromium does not start on this machine."""
    if not (shutil.which("chromium") and shutil.which("chromedriver") and has("selenium", SYSTEM)):
        return "no chromium, chromedriver or selenium"
    try:
        subprocess.run([SYSTEM, "-c", START], capture_output=True, timeout=120, check=True)
    except (subprocess.CalledProcessError, subprocess.TimeoutExpired):
        return "chromium does not start here"
    return None


class InFolder(unittest.TestCase):
    """A test in a folder of its own."""

    def setUp(self):
        held = tempfile.TemporaryDirectory()
        self.addCleanup(held.cleanup)
        self.folder = held.name

    def path(self, name):
        return os.path.join(self.folder, name)

    def write(self, name, text):
        with open(self.path(name), "w", encoding="utf-8") as file:
            file.write(text)
        return self.path(name)

    def read(self, *names):
        with open(os.path.join(self.folder, *names), "rb") as file:
            return file.read()
