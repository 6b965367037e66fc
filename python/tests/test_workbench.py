"""The workbench in a browser: edits, refusals, two tabs, a program that dies, and who may come in."""
import http.client
import os
import re
import shutil
import signal
import socket
import subprocess
import time
import unittest
import urllib.parse

from common import ROOT, InFolder, no_browser, tool
from gpssbench.command import SYSTEM, has
from gpssbench.workbench import Desk

# What the browser is asked, run by the Python that has Selenium.
BROWSE = """
import json, os, re, signal, subprocess, sys, time
from selenium import webdriver
from selenium.common.exceptions import StaleElementReferenceException
from selenium.webdriver.common.by import By
from selenium.webdriver.common.keys import Keys
from selenium.webdriver.support.select import Select

address, folder, server = sys.argv[1], sys.argv[2], int(sys.argv[3])
options = webdriver.ChromeOptions()
for word in ("--headless=new", "--no-sandbox", "--disable-gpu", "--disable-dev-shm-usage"):
    options.add_argument(word)
options.set_capability("goog:loggingPrefs", {"browser": "ALL"})
driver = webdriver.Chrome(options=options)
find = lambda what: driver.find_element(By.CSS_SELECTOR, what)
text = lambda what: find(what).text


def until(holds, what, seconds=90):
    ends = time.monotonic() + seconds
    while time.monotonic() < ends:
        try:
            if holds():
                return
        except Exception:
            pass
        time.sleep(0.02)
    raise AssertionError(f"{what}: {text('body')}")


def again(act):
    # a page that is shown anew meanwhile is tried again
    for _ in range(400):
        try:
            return act()
        except StaleElementReferenceException:
            time.sleep(0.05)
    raise AssertionError("the page does not come to rest")


def press(key):
    # a key for the page, wherever the focus is
    webdriver.ActionChains(driver).send_keys(key).perform()


def journal():
    with open(os.path.join(folder, "ward.gps.edits")) as file:
        return file.read().strip().split("\\n")[7:]


def change(place, words):
    again(lambda: driver.find_elements(By.CSS_SELECTOR, "#model td.statement")[place - 1].click())
    given = find("#model input")
    given.clear()
    given.send_keys(words, Keys.ENTER)


def size(width, dark):
    size = {"width": width, "height": 1000, "deviceScaleFactor": 1, "mobile": False}
    driver.execute_cdp_cmd("Emulation.setDeviceMetricsOverride", size)
    scheme = [{"name": "prefers-color-scheme", "value": "dark" if dark else "light"}]
    driver.execute_cdp_cmd("Emulation.setEmulatedMedia", {"features": scheme})


try:
    size(1280, False)
    driver.get(address)
    until(lambda: "storage BEDS UTIL." in text("#table"), "open")
    assert len(driver.find_elements(By.CSS_SELECTOR, "#model tbody tr")) == 17
    assert "a stay" in text("#model"), "comments of the file"

    # an edit: its difference, with the interval that is worked out over the eight replications
    change(1, "Beds STORAGE 11")
    until(lambda: "without 0" in text("#table"), "differences")
    row = next(it for it in text("#table").split("\\n") if it.startswith("queue WAITING AVE.TIME"))
    assert row.split()[3:] == ["8", "0.206", "0.228", "1.734", "-1.528", "0.865", "without", "0"], row
    assert journal() == ["change 1 Beds STORAGE 11"], journal()
    until(lambda: "BEDS STORAGE 10 -> BEDS STORAGE 11" in text("#said"), "what was replaced")
    assert find("#model tr.changed").text.startswith("1"), "what differs is marked"
    kept = re.search(r"([0-9,]+) of ([0-9,]+) steps were kept, and ([0-9,]+) made anew", text("#about"))
    stood, whole, anew = (int(it.replace(",", "")) for it in kept.groups())
    assert 0 < stood < whole and stood + anew == whole, kept
    driver.save_screenshot(f"{folder}/edited.png")

    # a refusal stands beside its statement, and changes nothing
    change(7, "ADVANCE 1.5")
    until(lambda: "no decimals" in text("#model .refusal"), "refusal")
    find("#model input").send_keys(Keys.ESCAPE)
    assert len(journal()) == 1 and not driver.find_elements(By.CSS_SELECTOR, ".refusal")
    change(7, "<script>alert(1)</script> ADVANCE 5")
    until(lambda: "&lt;script" in find("#model .refusal").get_attribute("innerHTML").lower(), "a label that is HTML")
    find("#model input").send_keys(Keys.ESCAPE)

    # names are offered by their place
    again(lambda: driver.find_elements(By.CSS_SELECTOR, "#model td.statement")[4].click())
    given, offered = find("#model input"), lambda: [it.get_attribute("value") for it in driver.find_elements(By.CSS_SELECTOR, "#words option")]
    for typed, lines in (("DEPART ", ["DEPART URGENT", "DEPART WAITING"]), ("ENTER B", ["ENTER BEDS"])):
        given.clear()
        given.send_keys(typed)
        until(lambda: offered() == lines, typed)
    given.send_keys(Keys.ESCAPE)

    # what an edit would keep is told before it is made
    again(lambda: driver.find_elements(By.CSS_SELECTOR, "#model td.statement")[0].click())
    given = find("#model input")
    given.clear()
    given.send_keys("Beds STORAGE 9", Keys.CONTROL, Keys.ENTER)
    until(lambda: re.fullmatch("it would keep [0-9]+ of the [0-9]+ steps of replication 1", text("#model .trial")), "a trial")
    given.send_keys(Keys.NULL, Keys.ESCAPE)
    assert len(journal()) == 1 and "BEDS STORAGE 11" in text("#model"), journal()

    # the keyboard alone: down to a statement, a line after it, undo, redo
    first = lambda: driver.find_elements(By.CSS_SELECTOR, "#model td.statement")[0]
    again(lambda: first().send_keys(Keys.ARROW_DOWN, Keys.ARROW_DOWN, "a"))
    find("#model input").send_keys("QUEUE All", Keys.ENTER)
    until(lambda: "4: inserted QUEUE ALL" in text("#said"), "an insert")
    until(lambda: "queue ALL" in text("#table"), "its figures")
    press("u")
    until(lambda: "4: deleted QUEUE ALL" in text("#said"), "undo")
    press("r")
    until(lambda: "queue ALL" in text("#table"), "redo")
    press("u")
    until(lambda: "queue ALL" not in text("#table"), "undo again")
    press("p")
    until(lambda: "Differences are to version" in text("#about"), "a baseline")
    until(lambda: not driver.find_elements(By.CSS_SELECTOR, "#model tr.changed"), "nothing differs from it")

    # a version that has a name is a baseline to choose
    find("#version-name").send_keys("eleven beds", Keys.ENTER)
    until(lambda: "this version is called eleven beds" in text("#said"), "a name")
    again(lambda: Select(find("#baseline")).select_by_visible_text("as it was opened"))
    until(lambda: "to the model as it was opened" in text("#about") and "without 0" in text("#table"), "the first baseline")
    again(lambda: Select(find("#baseline")).select_by_visible_text("eleven beds"))
    until(lambda: "Differences are to eleven beds" in text("#about"), "the one with a name")

    # the report is the program's, byte for byte
    find("#tab-figures").send_keys(Keys.ARROW_RIGHT)
    until(lambda: text("#bytes").startswith("REPLICATION 1 SEED 1945846388"), "a report")
    kept = open(os.path.join(folder, "ward.gps.edits")).read().strip().split("\\n")
    assert "# eleven beds" in kept, kept
    script = "\\n".join([it for it in kept if not it.startswith("#")] + ["report 1 1", ""])
    ran = subprocess.run([os.environ["GPSSBENCH"], os.path.join(folder, "ward.gps"), "--seed", "1945846388"],
                         input=script.encode(), capture_output=True).stdout.decode()
    told = driver.execute_script("return document.getElementById('bytes').textContent")
    assert ran.endswith(told) and len(told) > 900, told
    find("#tab-figures").click()

    # two tabs: what one edits, the other shows; one that is out of date is told so
    first = driver.current_window_handle
    driver.switch_to.new_window("tab")
    driver.get(address)
    until(lambda: "BEDS STORAGE 11" in text("#model"), "a second tab")
    change(17, "START 60")
    until(lambda: "START 60" in text("#model") and "replications" in text("#about") or "kept" in text("#about"), "an edit there")
    driver.switch_to.window(first)
    until(lambda: "START 60" in text("#model"), "the first tab shows it")
    stale = {"do": "edit", "line": "delete 1", "seen": 0}
    answer = driver.execute_async_script('''
        const [stale, done] = arguments, told = [];
        const socket = new WebSocket(new URL("ws", location.href.replace(/^http/, "ws")));
        socket.onopen = () => socket.send(JSON.stringify(stale));
        socket.onmessage = (event) => { const it = JSON.parse(event.data); if (it.kind === "refused") done(it.sentence); };
    ''', stale)
    assert "another tab has edited" in answer, answer

    # a program that is killed: nothing is lost
    children = subprocess.run(["pgrep", "-P", str(server)], capture_output=True, text=True).stdout.split()
    before, row = journal(), lambda: next(it for it in text("#table").split("\\n") if it.startswith("storage BEDS UTIL."))
    figures = row()
    for child in children:
        os.kill(int(child), signal.SIGKILL)
    change(7, "ADVANCE 150,49")
    until(lambda: "no edit is lost" in text("#said"), "a program that died")
    press(Keys.ESCAPE)
    until(lambda: row() == figures, "the same figures as before")
    assert journal() == before, journal()

    for width in (1280, 400):
        for dark in (False, True):
            size(width, dark)
            time.sleep(0.2)
            wide = driver.execute_script("return document.documentElement.scrollWidth")
            assert wide <= width, f"{wide} of {width}"
            cut = driver.execute_script('''
                return [...document.querySelectorAll("button, input, select")].map((it) => [it.id, it.getBoundingClientRect()])
                    .filter(([id, box]) => box.left < 0 || box.right > arguments[0]).map(([id]) => id);
            ''', width)
            assert not cut, f"out of sight at {width}: {cut}"
            driver.save_screenshot(f"{folder}/{width}-{'dark' if dark else 'light'}.png")
    find("#figures .wide").send_keys(Keys.ARROW_RIGHT)
    until(lambda: driver.execute_script("return document.querySelector('#figures .wide').scrollLeft > 0"), "sideways by a key")
    driver.execute_script("arguments[0].scrollIntoView()", find("#table"))
    driver.save_screenshot(f"{folder}/400-figures.png")
    size(1280, False)

    # files stay in the folder
    for name, says in (("../out.gps", "no folder"), ("ward.gps", "is there already"), ("saved.gps", "saved.gps is written")):
        find("#name").clear()
        find("#name").send_keys(name)
        find("#save").click()
        until(lambda: says in text("header"), name)
    saved = open(os.path.join(folder, "saved.gps")).read()
    assert "a stay" in saved and "STORAGE  11" in saved and "START    60" in saved, saved
    find("#tab-script").click()
    find("#plan-name").send_keys("plan.toml")
    find("#plan").click()
    until(lambda: os.path.exists(os.path.join(folder, "plan.toml")), "a plan")

    # a model that is refused is shown with its line, and can be mended
    driver.execute_script("const it = document.getElementById('files'); it.value = 'bad.gps'; it.dispatchEvent(new Event('change'))")
    until(lambda: "no verb is called ADVANSE; ADVANCE?" in text("#wrong"), "a refused model")
    find("#text").clear()
    find("#text").send_keys("GENERATE 10\\nADVANCE 3\\nTERMINATE 1\\nSTART 5\\n")
    find("#mend button").click()
    until(lambda: "ADVANCE 3" in text("#model") and not text("#wrong"), "mended")
    find("#tab-figures").click()
    until(lambda: "START 1" in text("#about"), "its figures")

    driver.get(address.rsplit("/", 2)[0] + "/wrong/")
    assert "403" in text("body"), "a wrong token"
    told = [it["message"] for it in driver.get_log("browser") if it["level"] == "SEVERE" and "403" not in it["message"]]
    assert not told, told
finally:
    driver.quit()
print("seen")
"""


# The same by its websocket alone: how fast an edit is answered, progress, and a run that is given up.
LISTEN = """
import asyncio, json, sys, time
from tornado.websocket import websocket_connect

address, long = sys.argv[1].replace("http", "ws") + "ws", sys.argv[2]


async def main():
    socket = await websocket_connect(address)

    async def until(kind, seconds=60):
        told = []
        while True:
            it = json.loads(await asyncio.wait_for(socket.read_message(), seconds))
            told.append((time.monotonic(), it))
            if it["kind"] == kind:
                return told

    state = (await until("state"))[-1][1]
    await until("figures")
    took = []
    for version, half in enumerate((49, 50, 49), state["version"]):
        began = time.monotonic()
        await socket.write_message(json.dumps({"do": "edit", "line": f"change 7 ADVANCE 150,{half}", "seen": version}))
        await until("figures")
        took.append(time.monotonic() - began)
    print(f"an edit is answered within {min(took):.2f} s")
    await socket.write_message(json.dumps({"do": "open", "name": long}))
    told = [at for at, it in await until("figures", 100) if it["kind"] == "busy"]
    gaps = [after - before for before, after in zip(told, told[1:])]
    assert len(told) > 2 and sorted(gaps)[len(gaps) // 2] <= 0.5, gaps
    await socket.write_message(json.dumps({"do": "edit", "line": "change 2 ADVANCE 40001", "seen": 7}))
    await until("busy")
    await socket.write_message(json.dumps({"do": "give up"}))
    said = (await until("said"))[-1][1]
    while "given up" not in said["text"]:
        said = (await until("said"))[-1][1]
    assert "no edit is lost" in said["text"], said
    await socket.write_message(json.dumps({"do": "look"}))
    state = (await until("state"))[-1][1]
    assert state["statements"][1]["text"] == "ADVANCE 40001", state["statements"][1]
    await socket.write_message(json.dumps({"do": "give up"}))


asyncio.run(main())
print("heard")
"""


def contrast(one, other):
    """The contrast of two colours, by WCAG 2."""

    def light(colour):
        parts = [int(colour[at : at + 2], 16) / 255 for at in (1, 3, 5)]
        return sum(share * (it / 12.92 if it <= 0.04045 else ((it + 0.055) / 1.055) ** 2.4)
                   for share, it in zip((0.2126, 0.7152, 0.0722), parts))

    least, most = sorted((light(one), light(other)))
    return (most + 0.05) / (least + 0.05)


class Desks(InFolder):
    """What a tab is told, without a browser."""

    def desk(self, text, replications=2, words=None):
        with open(self.path("desk.gps"), "wb") as file:
            file.write(text)
        self.told = []
        desk = Desk(self.path("desk.gps"), 1945846388, replications, None, self.told.append, words=words)
        self.addCleanup(desk.end)
        return desk

    def ask(self, desk, **asked):
        self.told.clear()
        desk.ask(asked)
        return {it["kind"]: it for it in self.told}

    def test_a_baseline_without_the_start(self):
        desk = self.desk(b"GENERATE 10\nQUEUE Line\nADVANCE 3\nDEPART Line\nTERMINATE 1\nSTART 5\n")
        told = self.ask(desk, do="edit", line="insert 7 START 5", seen=1)
        self.assertEqual(told["figures"]["start"], 2)
        row = next(it for it in told["figures"]["rows"] if it["column"] == "AVE.TIME")
        self.assertEqual((row["now"], row["before"]), (["3.000", "0.000"], ""))
        self.assertIn("the baseline has no report of START 2", told["figures"]["missing"][0])
        told = self.ask(desk, do="pin")
        self.assertEqual(told["figures"]["missing"], [])

    def test_comments_have_any_letters(self):
        desk = self.desk("* Café €\nGENERATE 10 ; größer\nQUEUE Größe\nTERMINATE 1\nSTART 5\n".encode())
        told = self.ask(desk, do="look")
        self.assertIn("Café €", told["state"]["fault"]["text"])
        self.assertIn("`QUEUE Größe`", told["state"]["fault"]["sentence"])
        text = told["state"]["fault"]["text"].replace("Größe", "Size")
        told = self.ask(desk, do="text", text=text)
        self.assertEqual(self.read("desk.gps"), text.encode())
        first = told["state"]["statements"][0]
        self.assertEqual((first["comment"], first["front"]), ("größer", ["* Café €"]))

    def test_workers_do_not_show(self):
        text = b"GENERATE 10,5\nQUEUE Line\nSEIZE Desk\nDEPART Line\nADVANCE 9,5\nRELEASE Desk\nTERMINATE 1\nSTART 500\n"
        seen = []
        for words in ({}, {"workers": 3}):
            desk = self.desk(text, 8, words)
            figures = self.ask(desk, do="edit", line="change 5 ADVANCE 8,5", seen=7)["figures"]
            seen.append((figures["rows"], self.ask(desk, do="report", replication=8)["report"]["text"]))
            desk.end()
            os.remove(self.path("desk.gps.edits"))
        self.assertEqual(*seen)
        self.assertEqual(figures["cost"], "what was kept is not counted beside workers")
        self.assertIn("it would keep", self.ask(self.desk(text, 2, words), do="try", line="change 5 ADVANCE 8,5")["trial"]["text"])

    def test_a_program_that_dies_has_no_further_replication(self):
        desk = self.desk(b"GENERATE 10,5\nTERMINATE 1\nSTART 5\n", 3)
        told = self.ask(desk, do="edit", line="drop 2", seen=2)
        before = told["state"]["replications"]
        desk.kept.bench.session.process.kill()
        desk.kept.bench.session.process.wait()
        told = self.ask(desk, do="edit", line="change 1 GENERATE 9,5", seen=3)
        self.assertIn("no edit is lost", told["said"]["text"])
        self.assertEqual(told["state"]["replications"], before)


def started(command, folder=None):
    """A process that heeds an interrupt: a shell ignores them for what it runs in the background, and programs inherit
    that."""
    heeds = lambda: signal.signal(signal.SIGINT, signal.SIG_DFL)
    pipes = {"stdout": subprocess.PIPE, "stderr": subprocess.PIPE, "text": True}
    return subprocess.Popen(command, cwd=folder, preexec_fn=heeds, **pipes)


class Workbench(InFolder):
    def setUp(self):
        super().setUp()
        if not has("tornado") and not has("tornado", SYSTEM):
            self.skipTest("no package tornado: tools/workbench")
        for name in ("ward.gps", "clinic.gps"):
            shutil.copy(os.path.join(ROOT, "examples", name), self.folder)
        self.write("bad.gps", "GENERATE 10\nADVANSE 3\nTERMINATE 1\nSTART 5\n")
        with socket.socket() as free:
            free.bind(("127.0.0.1", 0))
            self.port = free.getsockname()[1]

    def serve(self, *more):
        command = [os.path.join(ROOT, "tools", "workbench"), self.path("ward.gps"), *more, "--port", str(self.port)]
        server = started(command)

        def stop():
            server.send_signal(signal.SIGINT)
            try:
                server.communicate(timeout=60)
            except subprocess.TimeoutExpired:
                server.kill()
                server.communicate()

        self.addCleanup(stop)
        line = server.stdout.readline()
        if "edits of" in line:
            line = server.stdout.readline()
        return server, line.strip()

    def status(self, path, **headers):
        asked = http.client.HTTPConnection("127.0.0.1", self.port, timeout=60)
        asked.request("GET", path, headers=headers)
        answer = asked.getresponse()
        answer.read()
        asked.close()
        return answer

    def test_nobody_else_gets_in(self):
        _, address = self.serve()
        path = urllib.parse.urlparse(address).path
        self.assertGreater(len(path), 30)
        answer = self.status(path)
        self.assertEqual(answer.status, 200)
        policy = answer.headers["Content-Security-Policy"]
        self.assertTrue("default-src 'none'" in policy and "unsafe" not in policy and "frame-ancestors 'none'" in policy)
        nowhere = self.status("/")
        self.assertEqual((nowhere.status, nowhere.headers["Content-Security-Policy"]), (404, policy))
        self.assertEqual(self.status("/wrong/").status, 403)
        self.assertEqual(self.status(path + "app.js").status, 200)
        self.assertEqual(self.status(path + "..").status, 404)
        self.assertEqual(self.status(path, Host="evil.example").status, 403)
        self.assertEqual(self.status(path, Origin="http://evil.example").status, 403)
        upgrade = {"Upgrade": "websocket", "Connection": "Upgrade", "Sec-WebSocket-Version": "13",
                   "Sec-WebSocket-Key": "dGhlIHNhbXBsZSBub25jZQ=="}
        self.assertEqual(self.status(path + "ws", Origin="http://evil.example", **upgrade).status, 403)
        self.assertEqual(self.status("/wrong/ws", Origin=f"http://127.0.0.1:{self.port}", **upgrade).status, 403)
        self.assertEqual(self.status(path + "ws", Origin=f"http://127.0.0.1:{self.port}", **upgrade).status, 101)
        # this machine alone
        listening = subprocess.run(["cat", "/proc/net/tcp"], capture_output=True, text=True).stdout
        self.assertIn(f"0100007F:{self.port:04X} 00000000:0000 0A", listening)
        self.assertNotIn(f"00000000:{self.port:04X} 00000000:0000 0A", listening)

    def test_colours_can_be_told_apart(self):
        with open(os.path.join(ROOT, "python", "gpssbench", "browser", "app.css")) as file:
            themes = re.findall(r":root \{(.*?)\}", file.read(), re.S)
        self.assertEqual(len(themes), 2)
        for theme in themes:
            colours = dict(re.findall(r"--(\w+): (#[0-9a-f]{6})", theme))
            for name in ("ink", "soft", "verb", "label", "bad", "good"):
                for ground in ("paper", "shade", "mark"):
                    self.assertGreater(contrast(colours[name], colours[ground]), 4.5, f"{name} on {ground}")

    def test_bad_input_is_one_line(self):
        self.serve()
        for words, part in ((["ward.gps", "--port", str(self.port)], b"--port takes another one"), (["none.gps"], b"No such file"),
                            (["ward.gps", "--port", "0"], b"--port 0"), ([], b"a MODEL is wanted")):
            ran = tool("workbench", *words, cwd=self.folder)
            self.assertEqual((ran.returncode, ran.stderr.count(b"\n"), part in ran.stderr), (2, 1, True), ran.stderr)

    def test_a_model_has_one_workbench(self):
        self.serve()
        with socket.socket() as free:
            free.bind(("127.0.0.1", 0))
            port = free.getsockname()[1]
        before = self.read("ward.gps.edits")
        ran = tool("workbench", "ward.gps", "--port", str(port), cwd=self.folder)
        told = b"is open in another workbench"
        self.assertEqual((ran.returncode, ran.stderr.count(b"\n"), told in ran.stderr), (2, 1, True), ran.stderr)
        self.assertEqual(self.read("ward.gps.edits"), before)
        # a port that is in use leaves no edits
        ran = tool("workbench", "clinic.gps", "--port", str(self.port), cwd=self.folder)
        self.assertEqual((ran.returncode, os.path.exists(self.path("clinic.gps.edits"))), (2, False), ran.stderr)

    def test_in_a_browser(self):
        if why := no_browser():
            self.skipTest(f"{why}: the workbench in a browser")
        server, address = self.serve("--every", "50")
        words = [SYSTEM, "-c", BROWSE, address, self.folder, str(server.pid)]
        ran = subprocess.run(words, capture_output=True, timeout=300)
        self.assertEqual((ran.returncode, ran.stdout), (0, b"seen\n"), ran.stderr.decode()[-3500:])
        if pictures := os.environ.get("GPSSBENCH_PICTURES"):
            for name in os.listdir(self.folder):
                if name.endswith(".png"):
                    shutil.copy(self.path(name), os.path.join(pictures, "workbench-" + name))

    def test_progress_and_a_run_that_is_given_up(self):
        # some 950,000 steps in each of eight replications, and 4,000 transactions that are held, so that they take a while
        self.write("long.gps", "GENERATE 10\nADVANCE 40000\nTERMINATE 1\nSTART 135000\n")
        _, address = self.serve()
        python = SYSTEM if has("tornado", SYSTEM) else "python3"
        ran = subprocess.run([python, "-c", LISTEN, address, "long.gps"], capture_output=True, timeout=300)
        self.assertEqual((ran.returncode, ran.stdout.decode().split("\n")[-2:]), (0, ["heard", ""]), ran.stderr.decode())
        if os.environ.get("GPSSBENCH_PICTURES"):
            print(ran.stdout.decode().split("\n")[0])

    def test_it_goes_on_where_it_ended(self):
        self.write("ward.gps.edits", "replicate 2 1553200962\ncapacity Beds 11\n")
        server, address = self.serve()
        self.assertTrue(address.startswith("http://127.0.0.1:"))
        time.sleep(0.2)
        with open(self.path("ward.gps.edits")) as file:
            self.assertEqual(file.read().split("\n")[:3], ["replicate 2 1553200962", "capacity Beds 11", "replicate 3 1474719581"])

    def test_the_edits_of_a_script_come_first(self):
        self.serve(self.write("what.script", "# eleven\nchange @Beds STORAGE 11\nall 1\n"), "--replications", "1")
        self.assertEqual(self.read("ward.gps.edits"), b"change 1 BEDS STORAGE 11\n")
        # where there are edits, those of a script are left out, and one is told
        shutil.copy(self.path("ward.gps"), self.path("other.gps"))
        shutil.copy(self.path("ward.gps.edits"), self.path("other.gps.edits"))
        with socket.socket() as free:
            free.bind(("127.0.0.1", 0))
            port = free.getsockname()[1]
        command = [os.path.join(ROOT, "tools", "workbench"), "other.gps", "what.script", "--port", str(port)]
        other = started(command, self.folder)
        self.assertIn("other.gps.edits were made again: 1\n", other.stdout.readline())
        other.stdout.readline()
        other.send_signal(signal.SIGINT)
        self.assertIn("what.script is left out", other.communicate(timeout=60)[1])
        bad = self.write("bad.script", "change @Nowhere STORAGE 11\n")
        ran = tool("workbench", self.path("clinic.gps"), bad, "--port", str(port))
        self.assertEqual((ran.returncode, ran.stderr.count(b"\n"), b"line 1 of the script" in ran.stderr), (2, 1, True), ran.stderr)


if __name__ == "__main__":
    unittest.main()
