"""The page looks for runs and makes them smaller: what ct_tool does in it is what the built program does."""
import json
import os
import re
import time
from typing import List

from page import Page

OPTIONS = "--turns 300 --rate 32 --lose 40 --repeat 80 --batch 1"
GOALS = ["any round >= 5", "any chooses unseen", "any delivered 2.1 before 1.1"]
NOWHERE = "any round >= 90"
SEEDS = 3000
MANY_SEEDS = 4000000
SECONDS = 60.0
LONGER_THAN_A_LINE = 2.2


def find_words(goal: str, last: int, options: str = OPTIONS) -> List[str]:
    return ["find", "--jobs", "1", "--members", "3", "--goal", goal, "--seeds", f"1..{last}", *options.split()]


def fill(page: Page, **fields) -> None:
    """Writes into the fields of the search."""
    page.run("for (const [id, value] of Object.entries(arguments[0])) document.getElementById(id).value = value",
             {name.replace("_", "-"): value for name, value in fields.items()})


def is_over(page: Page) -> bool:
    return page.run("return !ct.search.job && !document.getElementById('do-find').disabled && document.getElementById('waiting').hidden")


def look(page: Page, goal: str, last: int = 1000, options: str = OPTIONS, button: str = "#do-find") -> dict:
    """Has the page look for the goal, and waits until it is done: what its ct_tool wrote."""
    fill(page, goal=goal, seed_last=str(last), options=options)
    page.run("window.before = ct.search.last")
    page.click(button)
    page.until(lambda: is_over(page) and page.run("return ct.search.last !== window.before"), SECONDS)
    page.until(lambda: page.text("#progress") != "" or page.alert() != "" or page.text("#found") != "")
    return page.run("return ct.search.last")


def seed_of(goal: str, root: str) -> int:
    """The seed that docs/GOALS.md tells."""
    with open(os.path.join(root, "docs", "GOALS.md"), encoding="utf-8") as file:
        return int(re.search(rf"^\| `{re.escape(goal)}` \|[^|]*\| (\d+) \|", file.read(), re.M)[1])


def finds(page: Page) -> None:
    """The same seed and the same record as the built program's, and meanwhile no text of what it writes."""
    page.open()
    page.run("""window.shown = [];
      const show = ct.search.show;
      ct.search.show = function (...texts) { shown.push(texts[0]); return show.apply(this, texts); };""")
    for goal in GOALS:
        ended = look(page, goal)
        out, err, status = page.of_tool(*find_words(goal, 1000))
        assert ended["words"] == find_words(goal, 1000), ended["words"]
        assert (ended["out"], ended["status"]) == (out, status), goal
        assert err.startswith(f"seed {seed_of(goal, page.root)}: ") and page.text("#found") == err.strip(), (err, page.text("#found"))
        assert json.loads(page.record())["steps"] == json.loads(out)["steps"], goal
        assert page.text("#progress") == f"Opened: {page.steps()} steps.", page.text("#progress")
    assert page.run("return shown.some((text) => text.includes('{'))") is False
    page.shot("found")


def finds_elsewhere(page: Page) -> None:
    """Another range of seeds, and another group."""
    page.open()
    fill(page, seed_first="500", find_members="5")
    ended = look(page, GOALS[0], 900)
    words = ["find", "--jobs", "1", "--members", "5", "--goal", GOALS[0], "--seeds", "500..900", *OPTIONS.split()]
    out, err, status = page.of_tool(*words)
    assert (ended["words"], ended["out"], ended["status"]) == (words, out, status), ended["words"]
    assert page.text("#found") == err.strip() and page.run("return ct.app.run.group.members") == 5


def makes_smaller(page: Page) -> None:
    """The same schedule as the built program's, of the whole run that was found, whatever step one looks at."""
    page.open()
    for goal in GOALS[:2]:
        record = look(page, goal)["out"]
        page.click("#back")
        ended = look(page, goal, button="#shrink")
        out, err, _ = page.of_tool("shrink", "--goal", goal, given=record)
        assert (ended["out"], ended["status"]) == (out, 0), goal
        assert page.lines() == out.rstrip("\n").split("\n") and page.fault() == "", page.fault()
        assert page.text("#found") == err.strip() and re.search(r"\d+ steps \d+ are left", err), page.text("#found")
        assert page.run("const { scrollLeft, scrollWidth, clientWidth } = document.getElementById('diagram'); "
                        "return scrollLeft === 0 && scrollWidth === clientWidth"), "the diagram of a short run is scrolled"
    page.shot("smaller")
    page.click("#undo")
    page.until(lambda: json.loads(page.record())["steps"] == json.loads(record)["steps"])
    look(page, "any round >= 60", button="#shrink")
    assert page.text("#progress") == "the goal is not shown", page.text("#progress")


def no_goal(page: Page) -> None:
    """A goal that is none, words that are none, and a goal that no walk shows: what the program tells, without the usage."""
    page.open()
    before = page.lines()
    for words in (("any rounds >= 4", OPTIONS), ("4 crashed", OPTIONS), ("any round >= 5", "--loose 4")):
        look(page, words[0], options=words[1])
        told = page.of_tool(*find_words(words[0], 1000, words[1]))[1].split("\n\nUsage: ")[0]
        assert page.alert() == told.strip(), (page.alert(), told)
    assert "not understood" in page.of_tool(*find_words("any rounds >= 4", 9))[1]
    page.shot("no_goal")
    look(page, NOWHERE, 20)
    assert page.alert() == "" and page.text("#progress") == f"no seed of 1..20 shows {NOWHERE}", page.text("#progress")
    assert page.lines() == before


def other_options(page: Page) -> None:
    """A count is shown, and no run is opened; of several runs the smallest one is."""
    page.open()
    before = page.lines()
    look(page, "any decided 2", 200, "--turns 100 --count")
    assert page.text("#found") == page.of_tool(*find_words("any decided 2", 200, "--turns 100 --count"))[0].strip()
    look(page, NOWHERE, 20, "--turns 100 --count")
    out, err, _ = page.of_tool(*find_words(NOWHERE, 20, "--turns 100 --count"))
    assert (page.text("#found"), page.text("#progress")) == (out.strip(), err.strip()), page.text("#progress")
    assert page.lines() == before
    look(page, "any chooses unseen", 60, f"{OPTIONS} --best 3")
    assert "\n".join(page.lines()) + "\n" == page.of_tool(*find_words("any chooses unseen", 60, f"{OPTIONS} --best 3"))[0]


def cancelled(page: Page) -> None:
    """A long search tells how far it is, lets the page go on meanwhile, and is ended by the button and by a key."""
    page.open()
    page.run("""window.under = 0;
      window.Worker = class extends Worker {
        constructor(...words) { super(...words); window.under += 1; }
        terminate() { super.terminate(); window.under -= 1; }
      };""")
    for end in (lambda: page.click("#cancel"), lambda: escape(page)):
        fill(page, goal=NOWHERE, seed_last=str(MANY_SEEDS), options=OPTIONS)
        page.click("#do-find")
        page.until(lambda: re.match(rf"\d+ of {MANY_SEEDS} seeds ", page.text("#progress")) is not None, SECONDS)
        first = page.text("#progress")
        page.until(lambda: page.text("#progress") != first, SECONDS)
        page.act("1 submit set 0 7")
        page.click("#undo")
        page.until(lambda: page.steps() == 0)
        page.shot("searching")
        end()
        page.until(lambda: is_over(page))
        assert page.text("#progress") == "Cancelled.", page.text("#progress")
        assert page.run("return window.under") == 0, "a worker goes on"
    time.sleep(LONGER_THAN_A_LINE)
    assert page.text("#progress") == "Cancelled.", page.text("#progress")
    assert look(page, GOALS[0])["status"] == 0


def escape(page: Page) -> None:
    page.run("document.getElementById('goal').focus()")
    page.type("escape")


def found_by_keys(page: Page) -> None:
    """Without a mouse: the goal is written, Enter looks for it, and the next key makes it smaller."""
    page.open()
    page.walk_to_id("goal")
    page.type("\n")
    page.until(lambda: is_over(page) and page.text("#found") != "", SECONDS)
    assert page.run("return document.activeElement.id") == "goal"
    page.walk_to_id("shrink")
    page.type("\n")
    page.until(lambda: is_over(page) and "are left" in page.text("#found"), SECONDS)
    assert page.run("return document.activeElement.id") == "shrink"


def on_narrow_screens(page: Page) -> None:
    """The search in the dark and on a narrow screen, in which nothing goes beyond the edge."""
    page.size(390, 900)
    page.open()
    page.click("#theme")
    look(page, GOALS[0])
    assert page.run("return document.documentElement.scrollWidth <= innerWidth")
    page.run("document.getElementById('search').scrollIntoView()")
    page.shot("search_narrow")
    page.size()


def speed(page: Page) -> None:
    """How many seeds are tried in a second, beside the built program in one thread."""
    page.open()
    start = time.time()
    assert look(page, NOWHERE, SEEDS)["status"] == 1
    here = time.time() - start
    start = time.time()
    page.of_tool(*find_words(NOWHERE, SEEDS))
    built = time.time() - start
    print(f"  {SEEDS:,} seeds: {SEEDS / here:,.0f} a second, the built program {SEEDS / built:,.0f}")


SEEKING = [finds, finds_elsewhere, makes_smaller, no_goal, other_options, cancelled, found_by_keys, on_narrow_screens, speed]
