#!/usr/bin/env python3
"""Compares the page of `tools/desk`, and the judge inside it, with the program.

    examples/desk.py [FOLDER]            first the module alone, under node: random questions about each example and about
                                         a station of 40 feeders, good ones and bad ones, and the times of a click with 60
                                         feeders; then stories on the page by real clicks in headless Chromium. Each answer
                                         is held against the program's, and each story against what it says here;
                                         screenshots go to FOLDER
    examples/desk.py --node              the module alone
    examples/desk.py --serve [FOLDER]    the stories on the page of `tools/desk --serve`, which asks the program
    examples/desk.py --firefox [FOLDER]  the stories in headless Firefox; --serve goes with it

It wants node from version 20, and for the stories Debian's packages chromium and chromium-driver, or firefox-esr. DESK_PROGRAM names
another program than the proved one to compare with. Status 1 where anything differs.
"""
import importlib.machinery
import importlib.util
import json
import os
import pathlib
import random
import re
import shutil
import subprocess
import sys
import tempfile
import time

sys.dont_write_bytecode = True
HERE = pathlib.Path(__file__).resolve().parent
TOP = HERE.parent
sys.path[:0] = [str(HERE), str(TOP / "tools")]
import page_module
from webdriver import Browser, Firefox

# Keeps each question and its answer.
LISTEN = "if (!window.heard) { window.heard = []; const real = ask; ask = async (q) => { const a = await real(q); heard.push([q, a]); return a; }; }"
DONE = "return Number(document.body.dataset.done || 0)"
DOUBLE = HERE / "double_busbar.ssd"


def script_of(file):
    """A script as a module."""
    loader = importlib.machinery.SourceFileLoader(file.name, str(file))
    module = importlib.util.module_from_spec(importlib.util.spec_from_loader(file.name, loader))
    loader.exec_module(module)
    return module


class Page:
    """A page of a station in a browser, and what its stories found wrong."""

    def __init__(self, station, positions, folder, serves, browser=Browser, **more):
        self.station, self.folder, self.wrong, self.heard, self.server = station, folder, [], [], None
        files = [station, *([positions] if positions else [])]
        if serves:
            self.server = subprocess.Popen([TOP / "tools/desk", "--serve", *files], stdout=subprocess.PIPE, text=True)
            address = self.server.stdout.readline().strip()
        else:
            file = folder / f"{station.stem}.html"
            file.write_bytes(subprocess.run([TOP / "tools/desk", *files], stdout=subprocess.PIPE).stdout)
            address = file.as_uri()
        self.browser = browser(**more)
        self.browser.open(address)
        self.browser.wait("return document.body.dataset.done || document.body.dataset.failed")
        self.browser.run(LISTEN)

    def does(self, act, *words):
        """Does something, and waits until the page is done with it; the milliseconds."""
        before, start = self.browser.run(DONE), time.monotonic()
        act(*words)
        self.browser.wait(f"return Number(document.body.dataset.done) > {before}")
        return (time.monotonic() - start) * 1000

    def click(self, path):
        return self.does(self.browser.click, f'#picture .switch[data-path="{path}"]')

    def button(self, name):
        return self.does(self.browser.click, f"#{name}")

    def menu(self, path, item):
        self.browser.click(f'#picture .switch[data-path="{path}"]', 2)
        place = self.browser.run("return [...document.querySelectorAll('#menu button')].findIndex((e) => e.textContent.startsWith(arguments[0])) + 1", item)
        return self.does(self.browser.run, "document.querySelectorAll('#menu button')[arguments[0] - 1].click()", place)

    def text(self, name):
        return self.browser.run("return document.getElementById(arguments[0]).innerText", name)

    def word(self, path):
        return self.browser.run("return now()[arguments[0]]", path)

    def holds(self, what, is_so):
        print(f"{'ok   ' if is_so else 'WRONG'} {self.station.stem}: {what}", flush=True)
        if not is_so:
            self.wrong.append(what)
            print("      " + self.text("answer").replace("\n", "\n      "))

    def shot(self, name):
        self.browser.shot(self.folder / f"{name}.png")

    def end(self):
        self.heard = self.browser.run("return window.heard")
        said = [line for line in self.browser.log() if "favicon" not in line]
        self.holds(f"nothing in the browser's log {said}", not said)
        self.browser.close()
        if self.server:
            self.server.terminate()
            self.server.wait()
        return self.wrong


# ---- the stories; each path is of the double busbar

def earth_a_line(page):
    page.click("S/V1/Q1/QC9")
    page.holds("earthing a live line is denied by R1", "denied by R1" in page.text("answer") and page.word("S/V1/Q1/QC9") == "off")
    page.holds("the way to its own infeed is named and shown", "by Q1/E1" in page.text("answer") and page.browser.run("return document.querySelectorAll('.halo').length") > 0)
    for path in ("S/V1/Q1/QA1", "S/V1/Q1/QB9", "S/V1/Q1/QB1", "S/V1/Q1/E1"):
        page.click(path)
    page.click("S/V1/Q1/QC9")
    page.holds("after four steps the line is earthed", page.word("S/V1/Q1/QC9") == "on")
    page.holds("what the step denied is told", "denied by this:" in page.text("answer") and "close S/V1/Q1/E1" in page.text("answer"))
    page.shot("earthed")


def take_as_an_order(page):
    page.button("taken")
    page.button("whole")
    stored = (HERE / "orders/earth_line_1.txt").read_text()
    page.holds("the steps are an order, judged as the stored one", page.browser.run("return document.getElementById('judged').textContent") == stored)
    page.button("sheets")
    page.holds("the sheet has five steps with pictures", page.browser.run("return document.querySelectorAll('#sheet .step svg').length") == 5)
    page.shot("sheet")
    page.browser.run("document.getElementById('back').click()")


def undo_and_redo(page):
    while not page.browser.run("return document.getElementById('undo').disabled"):
        page.button("undo")
    page.holds("undo leads back to the start", page.word("S/V1/Q1/QA1") == "on" and page.word("S/V1/Q1/QC9") == "off")
    page.button("redo")
    page.holds("redo leads on", page.word("S/V1/Q1/QA1") == "off")
    page.button("undo")


def through_an_open_breaker(page):
    page.click("S/V1/Q1/E1")
    page.click("S/V1/Q1/QC9")
    page.holds("with its own infeed off the line is live from the busbar", all(f"over {name}" in page.text("answer") for name in ("Q1/QB9", "Q1/QA1", "Q1/QB1", "K0/QA1")) and "by Q2/E1" in page.text("answer"))
    page.shot("denied")
    page.click("S/V1/Q1/QA1")
    page.click("S/V1/Q1/QC9")
    page.holds("an open breaker counts as closed, and the page says so", "over open Q1/QA1 (an open breaker counts as closed)" in page.text("answer"))
    page.button("undo")
    page.button("undo")


def change_the_busbar(page):
    page.click("S/V1/Q1/QB2")
    page.holds("with the coupler closed the second disconnector may be closed", page.word("S/V1/Q1/QB2") == "on")
    page.click("S/V1/Q1/QB1")
    page.holds("and the first opened", page.word("S/V1/Q1/QB1") == "off")
    page.click("S/V1/Q1/QB1")
    page.click("S/V1/Q1/QB2")


def unknown_coupler(page):
    page.menu("S/V1/K0/QA1", "is intermediate")
    page.click("S/V1/Q1/QB1")
    page.holds("with the coupler not known the disconnector is denied, for example if it is on", "for example if K0/QA1 is on" in page.text("answer"))
    page.shot("coupler")
    page.click("S/V1/Q1/QC9")
    page.holds("earthing is denied whatever the coupler is", "denied whatever K0/QA1 is" in page.text("answer"))
    page.menu("S/V1/K0/QA1", "is lost")
    page.holds("a lost position is shown", page.browser.run("return [...document.querySelectorAll('.said.word')].map((e) => e.textContent).join()") == "lost")
    page.browser.run("document.getElementById('order').value = 'open S/V1/Q1/QA1\\n'; orderStart = now()")
    page.button("whole")
    page.holds("an order wants all positions known", "number 14" in page.text("judged"))


def files_of_positions(page):
    page.does(page.browser.type, "#file", str(HERE / "double_busbar.csv"))
    page.holds("a file is taken over", page.word("S/V1/K0/QA1") == "intermediate" and "taken over" in page.text("answer"))
    bad = page.folder / "bad.csv"
    bad.write_text("S/V1/Q1/QA1,on\nS/V1/Q9/QA1,on\n")
    page.does(page.browser.type, "#file", str(bad))
    page.holds("one with an unknown path is refused, with its line", "number 2, line 2" in page.text("answer"))
    page.button("alloff")
    page.holds("all off", page.word("S/V1/Q1/QA1") == "off")


def replay_an_order(page):
    page.does(page.browser.type, "#file", str(HERE / "orders/earth_line_1.csv"))
    page.browser.run("document.getElementById('order').value = arguments[0]", "open S/V1/Q1/QA1\nclose S/V1/Q1/QC9\n")
    page.button("step")
    page.holds("a step of an order is done", "done: open S/V1/Q1/QA1" in page.text("judged") and page.word("S/V1/Q1/QA1") == "off")
    page.button("step")
    page.holds("the next is denied, and stays", "denied: close S/V1/Q1/QC9" in page.text("judged") and "close S/V1/Q1/QC9" in page.browser.run("return document.getElementById('order').value"))


def list_and_keys(page):
    page.browser.type("#filter", "Q2 qb")
    rows = "return [...document.querySelectorAll('#switches tr')].filter((e) => !e.hidden).length"
    page.holds("the list is filtered", page.browser.run(rows) == 3)
    page.browser.run("document.getElementById('filter').blur(); document.querySelector('.switch[data-path=\"S/V1/Q2/QA1\"]').focus()")
    page.does(page.browser.keys, "o")
    page.holds("the key o opens the switch that has the focus", page.word("S/V1/Q2/QA1") == "off")
    page.does(page.browser.keys, "u")
    page.holds("the key u undoes it", page.word("S/V1/Q2/QA1") == "on")
    before = page.browser.run("return view.w")
    page.browser.keys("+")
    page.holds("the key + makes the picture larger", page.browser.run("return view.w") < before)
    page.browser.keys("0")


STORIES = [earth_a_line, take_as_an_order, undo_and_redo, through_an_open_breaker, change_the_busbar, unknown_coupler,
           files_of_positions, replay_an_order, list_and_keys]


def large_station(page, feeder="Q7"):
    switches = [path for path in page.browser.run("return switches") if f"/{feeder}/" in path]
    times = [page.click(path) for path in switches[:4]]
    own = page.browser.run("return document.getElementById('took').textContent")
    page.holds(f"clicks of {feeder} took {', '.join(f'{t:.0f}' for t in times)} ms with the driver; {own}", True)
    page.shot("large")


# ---- the program's answers to the same questions

# The line of a refusal: its number, and the byte, line, part or bay that is told.
LINE = re.compile(r"interlock: (?:station|input) refused (\d+)(?:.*? (?:at|line|part|bay) (\d+))?")


def program():
    """The program to compare with, as a path; none where only the checked build can be asked."""
    script = script_of(TOP / "interlock")
    return os.environ.get("DESK_PROGRAM") or (script.PROGRAM if script.is_proved() else None)


def answers(questions):
    """For each question, as a list of words, the status, the text, and the number and place of a refusal, where told."""
    if program() is None:
        return [(*answer, None) for answer in script_of(TOP / "interlock").answers(questions)]
    runs = [subprocess.run([program(), *words], stdin=subprocess.DEVNULL, capture_output=True, text=True) for words in questions]
    lines = [LINE.match(run.stderr) for run in runs]
    return [(run.returncode, run.stdout, line and (int(line[1]), int(line[2] or 0))) for run, line in zip(runs, lines)]


def commands_of(question, folder, number):
    """The commands whose texts the answer has, over files of these contents."""
    given, operation = question["positions"], ["close" if question.get("closes") else "open", question.get("path", "")]
    given = given.encode() if isinstance(given, str) else bytes(given.values() if isinstance(given, dict) else given)

    def file(name, content):
        (folder / name).write_bytes(content)
        return str(folder / name)

    positions = file(f"{number}.csv", given)
    if question["asks"] == "check":
        yield ["check", "STATION", positions]
        yield ["state", "STATION", positions]
    elif question["asks"] == "order":
        yield ["order", "STATION", positions, file(f"{number}.order", question["steps"].encode())]
    else:
        yield [question["asks"], "STATION", positions, *operation]


def expected(question, given):
    """The code, the texts and the refusal that the module is to answer where the program gives these answers."""
    status = max(-1 if answer[0] is None else answer[0] for answer in given)
    return status, [text for _, text, _ in given] if status < 2 else [], given[0][2]


def compared(runs, folder, refused=()):
    """Says for each station how many of its answers were held against the program's, and gives those that differ. `runs`
    has each station with its questions and answers, `refused` drawings with what opening them answered; the program is
    asked for all of them at once."""
    opened = [(station, {"asks": "opened"}, answer, [["state", "STATION", str(HERE / "double_busbar.csv")]]) for station, answer in refused]
    pairs = [(station, question, answer) for station, heard in runs for question, answer in heard]
    held = opened + [(*pair, list(commands_of(pair[1], folder, number))) for number, pair in enumerate(pairs)]
    asked = [[str(station) if word == "STATION" else word for word in words] for station, _, _, commands in held for words in commands]
    given, wrong = iter(answers(asked)), {}
    for station, question, answer, commands in held:
        code, texts, line = expected(question, [next(given) for _ in commands])
        told = (answer.get("number"), answer.get("place"))
        if answer["code"] != code or answer["texts"] != texts or (line and line != told):
            said = f"the program says {code} {line} {str(texts)[:200]}, the page {answer['code']} {told} {str(answer['texts'])[:200]}"
            wrong.setdefault(station, []).append(f"{station.name}: {question['asks']} {question.get('path', '')}: {said}")
    for station, heard in runs:
        print(f"{station.stem}: {len(heard)} questions held against the program, {len(wrong.get(station, []))} differ", flush=True)
    if refused:
        print(f"{len(refused)} drawings that are refused, {sum(len(wrong.get(station, [])) for station, _ in refused)} of them otherwise")
    return [line for lines in wrong.values() for line in lines]


def made_stations(folder, sizes=(40, 60)):
    """The stations of so many feeders that the program makes, as files."""
    made = {}
    for feeders, (status, text, _) in zip(sizes, answers([["make", str(feeders), "station"] for feeders in sizes])):
        if status != 0:
            sys.exit("desk.py: the program made no station")
        made[feeders] = folder / f"feeders_{feeders}.ssd"
        made[feeders].write_text(text)
    return made


def in_browser(folder, serves, station, browser):
    wrong = []
    page = Page(DOUBLE, HERE / "orders/earth_line_1.csv", folder, serves, browser)
    for story in STORIES:
        story(page)
    wrong += page.end()
    large = Page(station, None, folder, serves, browser)
    large_station(large)
    wrong += large.end()
    return wrong + compared([(one.station, one.heard) for one in (page, large)], folder)


# ---- the module alone, under node

def node():
    """The words that run node with a 64-bit memory; from version 24 on it needs no flag."""
    flagged = ["node", "--experimental-wasm-memory64"]
    return flagged if subprocess.run([*flagged, "-e", "0"], capture_output=True).returncode == 0 else ["node"]


# Asks the questions of its input, as often as the last word says, and writes each with its answer and the shortest time.
RUN = """
const fs = require("fs"), { Judge } = require(process.argv[2]);
(async () => {
  const judge = new Judge(await WebAssembly.compile(fs.readFileSync(process.argv[3])), new Uint8Array(fs.readFileSync(process.argv[4])));
  const from = performance.now(), opened = await judge.start(), open = performance.now() - from;
  const heard = [];
  for (const question of JSON.parse(fs.readFileSync(0, "utf8"))) {
    let answer, least = Infinity;
    for (let i = 0; i < Number(process.argv[5]); i++) {
      const start = performance.now();
      answer = await judge.answer(question);
      least = Math.min(least, performance.now() - start);
    }
    heard.push([question, answer, least]);
  }
  process.stdout.write(JSON.stringify({ opened, open, heard }));
})();
"""


def asked_module(station, questions, times=1):
    """How the drawing was opened, in how many milliseconds, and each question with its answer and the time of it."""
    module, _ = page_module.made()
    words = [*node(), "-e", RUN, "-", str(TOP / "tools/desk_page/judge.js"), str(module), str(station), str(times)]
    done = subprocess.run(words, input=json.dumps(questions), capture_output=True, text=True)
    if done.returncode != 0:
        sys.exit(f"desk.py: node cannot run the module: {done.stderr[-600:]}")
    return json.loads(done.stdout)


def paths_of(station):
    from drawing import Drawing

    return [item.path for item in Drawing(station).items if item.is_switch]


def text_of(words):
    return "".join(f"{path},{word}\n" for path, word in words.items())


def questions_of(station, count, seed):
    """Random positions of a station, each with `check`, `explain`, `why` and an order."""
    chance, paths = random.Random(seed), paths_of(station)
    for number in range(count):
        known = ["off", "on"] * 5
        words = {path: chance.choice(known if number % 2 else known + ["intermediate", "bad", "lost"]) for path in paths}
        path = chance.choice(paths)
        yield {"asks": "check", "positions": text_of(words)}
        closes = chance.random() < 0.5
        yield {"asks": "explain", "positions": text_of(words), "closes": closes, "path": path}
        yield {"asks": "why", "positions": text_of(words), "closes": closes, "path": path}
        step = f"{'close' if words[path] == 'off' else 'open'} {path}\n"
        yield {"asks": "order", "positions": text_of(words), "steps": step + step.replace("close", "open")}


def bad_questions_of(station):
    """Questions that are refused, each in another way; the first has a room that is too small for its text."""
    paths = paths_of(station)
    off = text_of({path: "off" for path in paths})
    for positions in ["", off, off + off, "S,on\n", f"{paths[0]},up\n", f"{paths[0]}\n", "\n" * 9 + f"{paths[0]},on,\n"]:
        yield {"asks": "check", "positions": positions}
        for asks in ("explain", "why"):
            yield {"asks": asks, "positions": positions, "closes": True, "path": "S/nowhere"}
        yield {"asks": "order", "positions": positions, "steps": f"close {paths[0]}\n\nshut {paths[0]}\n"}
    for steps in ["", "close S/nowhere\n", f"open {paths[0]}\n", f"close {paths[0]}\nclose {paths[0]}\n"]:
        yield {"asks": "order", "positions": off, "steps": steps}


def refused_drawings(folder):
    """Drawings that are refused, as files."""
    text = DOUBLE.read_text()
    for number, bad in enumerate(["", "<SCL>", text.replace("</SCL>", ""), text[:-200], text.replace('name="QB1"', "", 1), text.replace('name="QB2"', 'name="QB1"', 1)]):
        (folder / f"bad_{number}.ssd").write_text(bad)
        yield folder / f"bad_{number}.ssd"


def under_node(folder, stations):
    runs = []
    for station in [*sorted(HERE.glob("*.ssd")), stations[40]]:
        questions = [*questions_of(station, 6, station.stem), *bad_questions_of(station)]
        runs.append((station, [pair[:2] for pair in asked_module(station, questions)["heard"]]))
    refused = [(station, asked_module(station, [])["opened"]) for station in refused_drawings(folder)]
    return compared(runs, folder, refused) + times(stations[60])


def times(station, wanted=50):
    """A click asks for `check` and `state`; where it is denied, for `why` too."""
    questions = list(questions_of(station, 4, "times"))
    run = asked_module(station, questions, times=5)
    clicks = [run["heard"][i][2] + run["heard"][i + 2][2] for i in range(0, len(questions), 4)]
    print(f"{station.stem}: opened in {run['open']:.0f} ms; a click with its way {', '.join(f'{t:.1f}' for t in clicks)} ms")
    return [f"a click takes {max(clicks):.0f} ms, more than {wanted}"] if max(clicks) > wanted else []


def main(words):
    flags, words = [word for word in words if word.startswith("--")], [word for word in words if not word.startswith("--")]
    with tempfile.TemporaryDirectory() as room:
        folder = pathlib.Path(words[0] if words else room).resolve()
        folder.mkdir(parents=True, exist_ok=True)
        browser = Firefox if "--firefox" in flags else Browser
        needed = ["firefox-esr"] if browser is Firefox else ["chromium", "chromedriver"]
        stations = made_stations(folder)
        wrong = [] if "--serve" in flags or "--firefox" in flags else under_node(folder, stations)
        if "--node" not in flags and all(map(shutil.which, needed)):
            wrong += in_browser(folder, "--serve" in flags, stations[40], browser)
        elif "--node" not in flags:
            print(f"no stories: not all of {', '.join(needed)} stand here")
    for line in wrong:
        print(line)
    sys.exit(1 if wrong else 0)


if __name__ == "__main__":
    main(sys.argv[1:])
