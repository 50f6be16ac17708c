#!/usr/bin/env python3
"""Tests the page in Chromium, or some of it in Firefox, from the disk, as one uses it: by clicks and by keys.

    browser.py PAGE CT CT_TOOL FOLDER [SHOTS]

PAGE: the page; CT, CT_TOOL: the programs, which say what is right; FOLDER: what bindings/tests/inputs.py wrote; SHOTS: a folder for
screenshots. ONLY names tests, parted by spaces, that alone are run; BROWSER is firefox for that one. Ends with a line `N passed, M failed`.
"""
import contextlib
import http.server
import json
import os
import re
import subprocess
import sys
import tempfile
import threading
import time
import traceback
from typing import Iterator, List, Tuple

from opened import OPENED, logs
from page import Page
from seeking import SEEKING, finds
from table import TABLE

HERE = os.path.dirname(os.path.abspath(__file__))
ROOT = os.path.normpath(os.path.join(HERE, "..", ".."))
BIG_STEPS = 100000
BIG_SECONDS = 5.0
TRIES = 3
SMOOTH_SECONDS = 0.05
LINK_LETTERS = 4000
READABLE = 4.5
RANDOM_ACTS = 700


def read(*names: str) -> str:
    with open(os.path.join(ROOT, *names), encoding="utf-8") as file:
        return file.read()


def acts_of(schedule: str) -> list:
    """The lines of a schedule without what is blank or a comment."""
    lines = [line.split(" #")[0].strip() for line in schedule.splitlines()]
    return [line for line in lines if line and not line.startswith("#")]


def worked_example(page: Page) -> None:
    """The log of docs/TEN_MINUTES.md, with its mistake mended: each line by a button, and the report in the end."""
    page.open()
    lines = acts_of(page.told_by(os.path.join(ROOT, "docs", "TEN_MINUTES.md")))
    for line in lines[1:]:
        page.act(line)
        assert page.alert() == "", page.alert()
        assert page.marked() == page.next_steps(), line
    ran = subprocess.run([page.ct, "replay"], input=page.record().encode(), stdout=subprocess.PIPE, check=True)
    report = ran.stdout.decode().splitlines()[2:]
    assert report[3] == "delivered 1.1" and len(report) == 15, report
    for member in (1, 2, 3):
        assert "\n".join(report[5 * member - 4:5 * member]) in page.facts(member), (page.facts(member), report)
    assert page.lines()[:2] == ["members 3", "1 submit set 0 7"]
    page.shot("light")


def refused_step(page: Page) -> None:
    """A step that is refused tells its cause and the facts, and changes nothing."""
    page.open("#example=coordinator_crashes")
    before = page.lines()
    page.click("#members-now article[data-member='3'] summary")
    page.press("3 choose 1")
    assert page.alert().startswith("3 choose 1: refused 3 Idle: "), page.alert()
    assert page.lines() == before
    page.say("1 begin")
    assert page.alert() == "1 begin: refused 1 Nothing: instance 2 idle", page.alert()
    assert means(page, "#alert") == "Nothing"
    assert page.run("const it = document.getElementById('alert').getBoundingClientRect(); return it.top >= 0 && it.bottom < innerHeight")
    page.shot("refused")
    page.saved("#save-schedule", "run.schedule")
    assert page.alert() == "", page.alert()
    page.say("1 begin")
    page.say("limits")
    assert page.alert() == "" and page.text("#status").startswith("limits submissions 65535, "), page.text("#status")
    assert page.lines() == before


def means(page: Page, selector: str) -> str:
    """The name of the refusal that is told there, which leads to what it means."""
    link = f"document.querySelector('{selector} a')"
    address, name = page.run(f"return [{link}.getAttribute('href'), {link}.textContent]")
    path, heading = address.split("#")
    told = read("page", path)
    assert f"\n## {heading.capitalize()}\n" in told and f"\n| `{name}` | " in told, address
    return name


def undo_and_redo(page: Page) -> None:
    page.open()
    for line in ("1 submit set 0 7", "1 receive data 1.1 from 1", "1 begin"):
        page.act(line)
    page.click("#undo")
    page.until(lambda: page.steps() == 2)
    page.keys("body", "control+z")
    page.until(lambda: page.steps() == 1)
    page.click("#redo")
    page.until(lambda: page.steps() == 2)
    page.keys("body", "control+shift+z")
    page.until(lambda: page.steps() == 3)
    assert page.lines()[-1] == "1 begin"


def network(page: Page) -> None:
    """What is lost, postponed, repeated, cut off and healed."""
    page.open()
    page.act("1 submit set 0 7")
    page.press("2 lose data 1.1 from 1")
    page.press("3 postpone data 1.1 from 1")
    page.click("article[data-member='2'] details[data-repeats] summary")
    page.click("article[data-member='2'] button[data-repeat]")
    assert page.lines()[-1] == "2 repeat #2", page.lines()
    page.click("#cut input[value='3']")
    page.click("#do-cut")
    page.press("3 receive data 1.1 from 1")
    assert page.alert() == "3 receive data 1.1 from 1: across the cut: #3 data 1.1 from 1", page.alert()
    page.click("#heal")
    page.press("3 receive data 1.1 from 1")
    page.click("#settle")
    assert page.lines()[-1] == "all settle" and "delivered 1.1" in page.member(3), page.member(3)
    page.click("#suspected input[value='2']")
    page.click("#turn")
    assert page.lines()[-1] == "all turns 1 suspecting 2"
    page.press("crash 1")
    assert "crashed" in page.member(1)


def edited(page: Page) -> None:
    """The refused line is marked in the schedule, and mending it takes the run on."""
    page.open()
    page.write("members 3\n1 submit set 0 7\n1 enter\n1 receive data 1.1\n")
    page.until(lambda: page.fault() == "line 3: 1 enter: refused 1 Idle: instance 0 idle")
    assert json.loads(page.record())["steps"] == [["submit", 1, ["set", 0, 7]]], page.record()
    assert page.text("#gutter .refused") == "✕ 3" and means(page, "#fault") == "Idle", page.text("#gutter .refused")
    page.shot("edited")
    page.press("1 receive data 1.1 from 1")
    page.until(lambda: page.fault() == "line 4: 1 enter: refused 1 Idle: instance 0 idle")
    assert page.lines()[2:4] == ["1 receive data 1.1 from 1", "1 enter"], page.lines()
    page.write("members 3\n1 submit set 0 7\n1 receive data 1.1\n1 begin\n1 enter\n")
    page.until(lambda: page.fault() == "" and page.steps() == 4)


def arrows(page: Page) -> None:
    """Each envelope has an arrow, and each that was received ends at its receipt."""
    for name, width in (("coordinator_crashes", 2600), ("lost_and_repeated", 2600)):
        page.size(width, 1000)
        page.open(f"#example={name}")
        record = json.loads(page.record())
        serials = page.run("return [...new Set([...document.querySelectorAll('.way')].map((it) => +it.dataset.serial))].length")
        sent = page.run("return ct.app.run.trips.sender.length - 1")
        assert serials == sent > 0, (serials, sent)
        for name, selector in (("receive", "#sheet .tip"), ("lose", "#sheet .lost")):
            wanted = sum(step[0] == name for step in record["steps"])
            assert page.run(f"return document.querySelectorAll('{selector}').length") == wanted, name
        assert page.run(FAR_TIPS) == [], page.run(FAR_TIPS)
    page.size()


FAR_TIPS = """const { trips } = ct.app.run;
  const place = (it) => it.getAttribute(it.tagName === 'g' ? 'transform' : 'd').match(/-?[0-9.]+/g).slice(0, 2).map(Number);
  return [...document.querySelectorAll('.way')].filter((way) => way.querySelector('.tip, .lost')).map((way) => {
    const step = trips.to.at(Number(way.dataset.trip));
    const [x, y] = place(document.querySelector(`.mark[data-step="${step}"]`));
    const [tipX, tipY] = place(way.querySelector('.tip, .lost'));
    return [step, Math.hypot(x - tipX, y - tipY)];
  }).filter(([, far]) => far > 25);"""


def looked_at(page: Page) -> None:
    """A step that is clicked: its states, and its causal past."""
    page.open("#example=coordinator_crashes&at=62")
    page.run("ct.app.go(30, false)")
    assert page.run("const [a, b] = ['#gutter .here', '#editor'].map((it) => document.querySelector(it).getBoundingClientRect());"
                    "return a.top >= b.top && a.bottom <= b.bottom")
    page.run("document.querySelector('[data-step=\"24\"] circle').dispatchEvent(new MouseEvent('click', { bubbles: true }))")
    assert page.text("#step summary") == "Step 25: member 3, choose 1", page.text("#step summary")
    rows = page.text("#step table")
    assert "round 2 Gather" in rows and "round 2 Wait" in rows, rows
    assert "#26 prop 1/2 {1.1,3.1}, to 1: received in step 30" in page.text("#step ul"), page.text("#step ul")
    lit = page.run("return [...document.querySelectorAll('.mark:not(.dim)')].map((it) => +it.dataset.step + 1)")
    assert 25 in lit and 18 in lit and 19 not in lit and 26 not in lit, lit
    page.shot("past")
    page.click("#fork")
    page.until(lambda: page.steps() == 25)


def filtered(page: Page) -> None:
    page.open("#example=coordinator_crashes")
    page.click("#filter summary")
    for kind in ("data", "submit", "delivery", "crash", "network"):
        page.click(f"input[name=kind][value={kind}]")
    steps = page.run("return [...document.querySelectorAll('.mark')].map((it) => ct.app.run.steps[it.dataset.step][0])")
    assert steps and not {"submit", "deliver", "crash", "postpone"} & set(steps), steps
    page.click("#all")
    page.click("input[name=only][value='2']")
    assert page.text("#sheet .names") == "member 1member 3", page.text("#sheet .names")
    page.click("#all")
    for instance, first, last in ((2, 38, 61), (1, 8, 43)):
        page.run("const it = document.getElementById('only-instance'); it.value = arguments[0]; it.dispatchEvent(new Event('input'))",
                 instance)
        shown = page.run("return [ct.app.columns.shown[0] + 1, ct.app.columns.shown.at(-1) + 1]")
        assert shown == [first, last], shown


def saved_and_opened(page: Page) -> None:
    """What is saved opens as the same run: schedule, record and link; `ct` replays the record."""
    page.open("#example=lost_and_repeated")
    record = page.record()
    schedule = page.saved("#save-schedule", "run.schedule")
    assert schedule == read("examples", "lost_and_repeated.schedule")
    kept = page.saved("#save-record", "run.json")
    assert kept == record + "\n"
    ran = subprocess.run([page.ct, "replay"], input=kept.encode(), stdout=subprocess.PIPE, check=True)
    assert ran.stdout.decode() == read("examples", "lost_and_repeated.report")
    page.open("#example=bounded_proposals")
    bounded = page.record()
    assert '"batch":2,' in bounded
    page.open()
    page.give("bounded.json", bounded)
    page.until(lambda: page.record() == bounded)
    for text, name in ((schedule, "again.schedule"), (kept, "again.json")):
        page.open()
        page.give(name, text)
        page.until(lambda: page.record() == record)
    page.open()
    page.drop("dropped.json", kept)
    page.until(lambda: page.record() == record)
    picture = page.saved("#save-svg", "run.svg")
    assert picture.startswith("<svg ") and "var(" not in picture
    assert picture.count("data-trip=") == page.run("return ct.app.run.trips.from.length")
    page.click("#link")
    page.until(lambda: "#s=" in page.address())
    address = page.address()
    assert len(address) < LINK_LETTERS, len(address)
    page.open()
    page.open(address[address.index("#"):])
    page.until(lambda: page.record() == record)


def named_by_content(page: Page) -> None:
    """A record opens as the schedule that ct_tool makes of it, in which envelopes go by what they carry."""
    page.open()
    page.give("run.json", read("examples", "lost_and_repeated.json"))
    page.until(lambda: page.steps() == 34)
    written = page.of_tool("schedule", given=read("examples", "lost_and_repeated.json"))[0]
    assert page.lines() == written[:written.index("\n\nexpect ")].split("\n"), page.lines()
    assert "2 lose est 1/1 from 1" in page.lines(), page.lines()
    many = page.of_tool("record", given="members 1\n" + 900 * "1 submit set 0 7\n" + "all settle\n")[0]
    page.give("many.json", many)
    page.until(lambda: page.record() + "\n" == many)
    made = page.made(4, 2000, "--lose", "5", "--repeat", "5", "--crash", "1")
    page.give("lossy.json", made)
    page.until(lambda: page.steps() == 2000 and page.record() == made.strip())


def no_record(page: Page) -> None:
    """What is no record is told in the words of ct_tool, and leaves the run."""
    page.open("#example=locked_value")
    for text in NO_RECORDS:
        page.run("ct.app.alert('')")
        page.give("bad.json", text)
        page.until(lambda: page.alert() != "")
        assert page.alert() == f"bad.json: {page.of_tool('schedule', given=text)[1].strip()}", (text, page.alert())
        assert page.steps() == 153


NO_RECORDS = [
    '{"n":3,"cells":4,"steps":[],"version":9}',
    '{"n":3,"cells":4,"steps":[["fly",1]],"version":1}',
    '{"version":3,"n":3,"cells":4,"batch":9,"steps":[["submit","all",["set",0,7]]]}',
    '{"version":3,"n":"3\\n1 submit set 0 7","cells":4,"steps":[]}',
    '{"version":3,"n":3,"cells":4,"batch":9,"steps":[["submit",1,["set",0,7]],["settle","all"]]}',
    '{"version":1,"n":3,"cells":4,"batch":9,"steps":[]}',
    '{"version":3,"n":3,"cells":4,"batch":9,"steps":[["submit",1,["set",0,7.0]]]}',
    '\ufeff{"version":1,"n":3,"cells":4,"steps":[]}',
    '{"steps":' + 9000 * "[",
]


def long_numbers(page: Page) -> None:
    page.open()
    page.say("1 submit set 3 18446744073709551615")
    page.say("all settle")
    assert '["set",3,18446744073709551615]' in page.record()
    assert "table 3=18446744073709551615" in page.member(2), page.member(2)
    page.run("ct.app.look(1)")
    assert "#1 data 1.1 set 3 18446744073709551615, to 1" in page.text("#step ul"), page.text("#step ul")
    page.click("#last")
    page.say("1 submit set 4 9007199254740993")
    page.run("ct.app.look(ct.app.run.steps.length)")
    assert " data 1.2 set 4 9007199254740993, to 1" in page.text("#step ul"), page.text("#step ul")


def by_keys(page: Page) -> None:
    """A run by the keyboard alone: from the first button to a delivery, and back through the diagram."""
    page.open()
    page.walk_to("submit")
    page.type("\n")
    for _ in range(60):
        if "delivered 1.1" in page.member(1):
            break
        page.walk_to("A turn for all")
        page.type("\n")
    assert "delivered 1.1" in page.member(1), page.member(1)
    end = page.steps()
    page.walk_to_id("diagram")
    page.type("left")
    page.until(lambda: page.at() == end - 1)
    page.type("home")
    page.until(lambda: page.at() == 0)
    page.type("right")
    page.until(lambda: page.at() == 1)
    page.type("end")
    page.until(lambda: page.at() == end)
    page.type("\n")
    page.until(lambda: page.run("return ct.app.isPast"))


def named(page: Page) -> None:
    """Each control has a name for screen readers, and each field of a refused step is told by an alert."""
    page.open("#example=locked_value")
    nameless = page.run("""return [...document.querySelectorAll('button, input, select, textarea, summary, [role]')].filter((it) => {
      const label = it.getAttribute('aria-label') || it.getAttribute('aria-labelledby') || it.labels?.length || it.textContent.trim();
      return !label && !['alert', 'status'].includes(it.getAttribute('role'));
    }).map((it) => it.outerHTML.slice(0, 80))""")
    assert nameless == [], nameless


def smooth(page: Page) -> None:
    """A run of 1,000 steps: a step back or forth takes few milliseconds."""
    page.open()
    page.give("run.json", page.made(5, 1000))
    page.until(lambda: page.steps() == 1000)
    took = SMOOTH_SECONDS
    for _ in range(TRIES):
        took = page.run("""const start = performance.now();
          for (let at = 400; at < 460; at++) { ct.app.go(at, true); document.body.offsetHeight; }
          for (let at = 460; at > 400; at--) { ct.app.go(at, true); document.body.offsetHeight; }
          return (performance.now() - start) / 120000""")
        print(f"  a step of 1,000: {1000 * took:.1f} ms")
        if took < SMOOTH_SECONDS:
            break
    assert took < SMOOTH_SECONDS, took


def steady(page: Page) -> None:
    """A run that is judged again and again takes no more memory than after a few times."""
    page.open()
    page.give("run.json", page.made(5, 1000))
    page.until(lambda: page.steps() == 1000)
    again = "for (let i = 0; i < arguments[0]; i++) await ct.app.change([...ct.app.lines]);"
    memory = "return ct.app.run.library.calls.memory.buffer.byteLength"
    few, many = [page.run(f"return (async () => {{ {again} {memory} }})()", times) for times in (10, 100)]
    assert many == few, (few, many)


def big(page: Page) -> None:
    """A record of 100,000 steps opens within five seconds, the best of a few times on a machine that does other things. Its envelopes go by
    serials; what is no record of this size is refused as any other."""
    text = page.made(5, BIG_STEPS)
    took = BIG_SECONDS
    for _ in range(TRIES):
        page.open()
        page.give("big.json", text)
        page.until(lambda: page.steps() == BIG_STEPS and " s" in page.text("#status"), 60)
        took = float(page.text("#status").split(" in ")[1].split()[0])
        print(f"  {page.text('#status')}")
        if took < BIG_SECONDS:
            break
    assert took < BIG_SECONDS, took
    page.run("ct.app.go(50000, true)")
    assert page.text("#place") == "50000 of 100000"
    assert 0 < page.run("return document.querySelectorAll('.mark').length") < 500
    page.shot("big")
    assert page.run("return ct.app.lines.filter((it) => / #[0-9]+$/.test(it)).length") > BIG_STEPS / 2
    page.give("bad.json", text + "x")
    page.until(lambda: page.alert() != "")
    assert page.alert() == f"bad.json: {page.of_tool('schedule', given=text + 'x')[1].strip()}" and page.steps() == BIG_STEPS


def blocks(page: Page) -> None:
    """What lies behind the first block of lines, of steps, and of what a byte holds is as what lies in it."""
    page.open()
    receipts = [f"{i % 3 + 1} receive data 1.{i // 3 + 1} from 1" for i in range(900)]
    before = ["members 3", *300 * ["1 submit set 0 7"], *3800 * ["expect 1 up"]]
    page.give("long.schedule", "\n".join([*before, *receipts, "1 enter", "1 begin"]))
    page.until(lambda: page.fault().startswith("line 5002: 1 enter: refused 1 Idle"), 60)
    assert page.steps() == len(json.loads(page.record())["steps"]) == 1200
    assert page.run("return ct.app.run.world.envelope(900).message.name") == "1.300"
    assert page.run("return document.getElementById('text').readOnly")
    found = page.run("""const { steps, trips } = ct.app.run;
      const last = [-1, -1, -1];
      const others = [];
      steps.forEach(([, member], at) => {
        if (trips.lastBefore(at, steps).join() !== last.join()) others.push(at);
        last[member - 1] = at;
      });
      return others""")
    assert found == [], found
    told = page.run("""const { live, library } = ct.app.run;
      const session = new live.constructor({ library: ct.app.library });
      try { return session.record(); } catch (error) { return error.message; } finally { session.close(); }""")
    assert told == "no step was told yet", told


def dark_and_narrow(page: Page) -> None:
    page.open("#example=locked_value&at=60")
    page.click("#theme")
    page.shot("dark")
    page.size(500, 1500)
    page.run("document.getElementById('step').open = true")
    assert page.run("return document.documentElement.scrollWidth <= innerWidth")
    page.shot("narrow")
    page.size()


def printed(page: Page) -> None:
    """On paper are the diagram and the schedule, whole and light, and no controls; behind it the page is as it was."""
    seen = "[...document.querySelectorAll('{0}')].filter((it) => it.getClientRects().length > 0)"
    for name, refused in (("coordinator_crashes", []), ("broken", ["3 choose 1"])):
        page.open(f"#example={name}")
        page.run("document.documentElement.classList.add('dark')")
        page.run("addEventListener('beforeprint', () => { window.printout = document.getElementById('print').innerHTML })")
        page.driver.print_page()
        assert page.run("return document.getElementById('print').innerHTML") == ""
        page.driver.execute_cdp_cmd("Emulation.setEmulatedMedia", {"media": "print"})
        page.run("document.getElementById('print').innerHTML = printout")
        steps = page.run(f"return {seen.format('#print [data-step]')}.map((it) => Number(it.dataset.step))")
        assert sorted(steps) == list(range(page.steps())), (name, steps)
        widths = page.run(f"return {seen.format('#print > svg')}.map((it) => it.getBoundingClientRect().width / innerWidth)")
        assert widths and all(0.9 < it <= 1 for it in widths), widths
        assert page.run(f"return {seen.format('#print li')}.map((it) => it.textContent)") == page.lines()
        assert page.run(f"return {seen.format('#print .refused')}.map((it) => it.textContent)") == refused
        assert page.run(f"return {seen.format('button, input, select, textarea, summary, #diagram')}") == []
        assert page.run("return getComputedStyle(document.body).backgroundColor") == "rgb(255, 255, 255)"
        page.shot(f"printed_{name}")
        page.driver.execute_cdp_cmd("Emulation.setEmulatedMedia", {"media": ""})


def readable(page: Page) -> None:
    """What is told of a member that crashed stands out from its ground, by the ratio that WCAG asks for."""
    page.open("#example=coordinator_crashes")
    for _ in range(2):
        page.click("#theme")
        for selector in (".down .facts", ".down .label"):
            ink, paper = page.run(COLOURS, selector)
            assert ratio(ink, paper) >= READABLE, (selector, ratio(ink, paper))


COLOURS = """const it = document.querySelector(arguments[0]);
  return [getComputedStyle(it).color, getComputedStyle(it.closest('.down')).backgroundColor];"""


def ratio(one: str, other: str) -> float:
    """How far two colours stand apart, as WCAG has it."""
    lights = []
    for colour in (one, other):
        parts = [int(it) / 255 for it in re.findall(r"\d+", colour)]
        red, green, blue = (it / 12.92 if it <= 0.04045 else ((it + 0.055) / 1.055) ** 2.4 for it in parts)
        lights.append(0.2126 * red + 0.7152 * green + 0.0722 * blue)
    return (max(lights) + 0.05) / (min(lights) + 0.05)


def scenarios(page: Page) -> None:
    """The links of the documents open, and their runs are taken whole."""
    names = page.links(["README.md", "docs", "page"])
    assert len(names) >= 5, names
    for name in names:
        page.open(f"#example={name}")
        assert page.steps() > 0, name
        wanted = "line 29: 3 choose 1: refused 3 NotLargest: instance 1 round 2 Gather, " if name == "broken" else ""
        assert page.fault().startswith(wanted) and bool(page.fault()) == bool(wanted), page.fault()


def at_random(page: Page) -> None:
    """Whatever is pressed in whatever order, lines, steps, record and text fit together."""
    with open(os.path.join(HERE, "at_random.js"), encoding="utf-8") as file:
        script = file.read()
    for seed in (1, 77):
        page.open()
        found = page.run_async(script, seed, RANDOM_ACTS)
        assert found == [], found


@contextlib.contextmanager
def serving(folder: str) -> Iterator[Tuple[str, List[str]]]:
    """A web server of this folder: its address, and what it is asked for."""
    asked: List[str] = []

    class Handler(http.server.SimpleHTTPRequestHandler):
        """Serves the folder, and keeps what was asked for."""

        def __init__(self, *words) -> None:
            super().__init__(*words, directory=folder)

        def log_message(self, *words) -> None:
            asked.append(self.path)

    with http.server.ThreadingHTTPServer(("127.0.0.1", 0), Handler) as server:
        threading.Thread(target=server.serve_forever, daemon=True).start()
        yield f"http://127.0.0.1:{server.server_port}", asked
        server.shutdown()


def served(page: Page) -> None:
    """The page comes from a web server, too, which is asked for nothing else."""
    with serving(os.path.dirname(page.path)) as (address, asked):
        page.visit(f"{address}/{os.path.basename(page.path)}#example=locked_value")
        assert page.steps() == 153
        page.open()
    assert set(asked) <= {f"/{os.path.basename(page.path)}", "/favicon.ico"}, asked


def packaged(page: Page) -> None:
    """The package for node and browsers does in one what it does there."""
    with serving(os.path.join(ROOT, "bindings", "node")) as (address, _):
        page.driver.get(f"{address}/tests/")
        told = page.run_async("""const done = arguments[0];
          import("/index.js").then(async ({ World, Session, tool, version }) => {
            const world = new World(3);
            const sent = world.apply(["submit", 1, ["set", 0, 7]]);
            const [answer] = new Session().tellAll(["members 17"]);
            done([sent.count, world.refusal(["choose", 2, 2]), answer, version, await tool(["record"], { input: "members 1\\n" })]);
          }).catch((error) => done(String(error)))""")
        page.console()  # which tells that there is no icon
        page.open()
    answer = subprocess.run([page.tool, "interact"], input=b"members 17\n", stdout=subprocess.PIPE, check=False).stdout.decode().strip()
    out = subprocess.run([page.tool, "record"], input=b"members 1\n", stdout=subprocess.PIPE, check=True).stdout.decode()
    with open(os.path.join(ROOT, "VERSION"), encoding="utf-8") as file:
        version = file.read().strip()
    assert told == [3, "Idle", answer, version, {"status": 0, "out": out, "err": ""}], told


def same_answers(page: Page) -> None:
    """The module answers 200,000 lines as `ct_tool interact` does."""
    with open(os.path.join(page.inputs, "lines_told"), encoding="utf-8") as file:
        lines = file.read()
    wanted = subprocess.run([page.tool, "interact"], input=lines.encode(), stdout=subprocess.PIPE, check=True).stdout.decode()
    page.open()
    print(f"  {os.path.getsize(page.path):,} bytes, loaded in {page.run('return ct.loaded'):.0f} ms")
    for size in (1, 5000):
        took, answers = page.run(TELL, lines, size)
        assert answers == wanted, first_other(answers, wanted)
        count = lines.count("\n")
        print(f"  {count:,} lines, {size} at once: {count / took:,.0f} a second")


TELL = """const session = new ct.app.run.live.constructor({ library: ct.app.run.library });
  const lines = arguments[0].split('\\n').slice(0, -1);
  const answers = [];
  const start = performance.now();
  for (let at = 0; at < lines.length; at += arguments[1]) answers.push(...session.tellAll(lines.slice(at, at + arguments[1])));
  const took = (performance.now() - start) / 1000;
  session.close();
  return [took, answers.join('\\n') + '\\n'];"""


def first_other(one: str, other: str) -> str:
    for number, (left, right) in enumerate(zip(one.splitlines(), other.splitlines()), 1):
        if left != right:
            return f"answer {number}: {left} and not {right}"
    return "another number of answers"


def same_steps(page: Page) -> None:
    """Steps as typed calls send what the lines of the same record send."""
    with open(os.path.join(page.inputs, "serials_told"), encoding="utf-8") as file:
        lines = file.read()
    answers = subprocess.run([page.tool, "interact"], input=lines.encode(), stdout=subprocess.PIPE, check=True).stdout.decode()
    page.open()
    with open(os.path.join(page.inputs, "record.json"), encoding="utf-8") as file:
        sent = page.run("""const record = JSON.parse(arguments[0].replace(/\\b[0-9]{16,}\\b/g, '"$&"'));
          const { library, constructor: World } = ct.app.run.world;
          const world = new World(record.n, { cells: record.cells, bound: record.batch, library });
          const sent = ({ first, count }) => count ? [first, first + count - 1] : [];
          return record.steps.map((step) => sent(world.apply(step)));""", file.read())
    wanted = [[int(it) for it in (line[3:].split("-") * 2)[:2]] if len(line) > 2 else [] for line in answers.splitlines()]
    assert sent == wanted[len(wanted) - len(sent):], "serials of another step"


def same_envelopes(page: Page) -> None:
    """What a world tells of envelopes by typed calls is what a session tells of those that wait."""
    page.open("#example=five_members")
    told = page.run("""const { run } = ct.app;
      const told = new Map();
      for (let at = 0; at <= run.steps.length; at += 7) {
        for (const answer of run.askAt(at, [1, 2, 3, 4, 5].map((member) => `waiting ${member}`))) {
          for (const text of answer.replace(/^waiting -?/, '').split(/, (?=#)/).filter(Boolean)) told.set(text.split(' ')[0], text);
        }
      }
      ct.app.look(run.steps.length);
      return [...told.values()]""")
    assert len(told) > 400, len(told)
    shown = {}
    for text in page.run("return Array.from({ length: ct.app.run.trips.from.length }, (_, trip) => ct.app.parts.diagram.titleOf(trip))"):
        shown[text.split(" ")[0]] = text.split(", sent by ")[0]
    for text in told:
        serial = text.split(" ")[0]
        assert without_sender(shown[serial]) == without_sender(text), (shown[serial], text)


def without_sender(text: str) -> str:
    return re.sub(r" from \d+", "", text)


TESTS = [worked_example, refused_step, undo_and_redo, network, edited, arrows, looked_at, filtered, saved_and_opened, named_by_content,
         no_record, long_numbers, by_keys, named, smooth, steady, big, blocks, dark_and_narrow, printed, readable, scenarios, at_random,
         served, packaged, same_answers, same_steps, same_envelopes, *OPENED, *TABLE, *SEEKING]

IN_FIREFOX = [undo_and_redo, edited, arrows, filtered, blocks, dark_and_narrow, packaged, logs, finds]


def main() -> int:
    failed = 0
    only = os.environ.get("ONLY", "").split()
    usual = IN_FIREFOX if os.environ.get("BROWSER") == "firefox" else TESTS
    tests = [it for it in TESTS if it.__name__ in only] if only else usual
    with tempfile.TemporaryDirectory() as folder:
        page = Page([os.path.abspath(it) for it in sys.argv[1:5]], ROOT, folder, sys.argv[5] if len(sys.argv) > 5 else None)
        for test in tests:
            start = time.time()
            try:
                test(page)
                faults = page.console()
                assert faults == [], faults
                print(f"ok {test.__name__} ({time.time() - start:.1f} s)")
            except Exception:  # pylint: disable=broad-except
                failed += 1
                print(f"FAILED {test.__name__}")
                traceback.print_exc(file=sys.stdout)
                page.console()
        page.close()
    print(f"{len(tests) - failed} passed, {failed} failed")
    return 1 if failed else 0


if __name__ == "__main__":
    sys.exit(main())
