"""What the page opens: files, links and logs, good, damaged, large and many; and that nothing of it is mixed, locked or lost."""
import base64
import json
import os
import re
import zlib
from typing import List

from page import Page

MEGABYTE = 1 << 20
SOME = 5000
MANY = 1900000  # lines that take some seconds
TRIES = 3
PHONE = (400, 800)


def give(page: Page, script: str) -> None:
    """Drops a file on the page, of which the script makes the parts."""
    page.run(f"""const dataTransfer = new DataTransfer();
      dataTransfer.items.add(new File({script}, 'it'));
      dispatchEvent(new DragEvent('drop', {{ dataTransfer, cancelable: true }}));""")


def state(page: Page) -> List:
    return page.run("return [ct.app.run.live.record(), ct.app.lines, ct.app.run.steps.length, document.getElementById('page').inert]")


def policy(page: Page) -> None:
    """No script runs but the page's own, and no style is in force but its own."""
    page.open()
    page.run("""const box = document.createElement('div');
      box.innerHTML = '<img src="x:" onerror="window.ran = 1"><b style="color: red">b</b>';
      document.body.append(box);
      const script = document.createElement('script');
      script.textContent = 'window.ran = 2';
      document.body.append(script);""")
    page.until(lambda: len(page.console()) > 0)
    assert page.run("return window.ran") is None
    assert "unsafe-inline" not in page.run("return document.querySelector('meta[http-equiv]').content")
    page.console()


def one_behind_the_other(page: Page) -> None:
    """What is typed before a file is opened, and what is asked for meanwhile, is judged for itself: the run is that of the lines beside it."""
    page.open()
    page.run("""const text = document.getElementById('text');
      text.focus();
      text.value = 'members 5\\n1 submit set 0 9';
      text.dispatchEvent(new Event('input'));
      ct.app.open('members 3\\n' + '1 submit set 0 7\\n'.repeat(arguments[0]) + 'all turns 2\\n'.repeat(3000), null, 'big');
      ct.app.change(['members 2', '1 submit set 0 1', '2 begin', '1 begin']);
      ct.app.tell('2 submit set 0 2');
      ct.app.undo();
      return ct.app.tell('1 submit set 0 3');""", SOME)
    page.until(lambda: page.run("return document.getElementById('waiting').hidden"))
    record, lines, steps, _ = state(page)
    assert lines == ["members 2", "1 submit set 0 1", "1 submit set 0 3", "2 begin", "1 begin"], lines
    assert [step[1] for step in json.loads(record)["steps"]] == [1, 1] and steps == 2, record
    assert page.fault().startswith("line 4: 2 begin: "), page.fault()
    firsts = [page.run("return ct.app.undo().then(() => ct.app.lines[0])") for _ in range(4)]
    assert firsts == ["members 2", "members 3", "members 5", "members 3"], firsts


def failed(page: Page) -> None:
    """Where the library fails, this is told, the run is as it was, and the page goes on."""
    page.open("#example=coordinator_crashes")
    before = state(page)
    break_it = """const world = Object.getPrototypeOf(ct.app.run.world), whole = world.apply;
      world.apply = () => { throw new Error('no memory'); };"""
    mend_it = "world.apply = whole;"
    for act in ("ct.app.open('members 2\\n1 submit set 0 7')", "ct.app.change(['members 2', '1 submit set 0 7'])", "ct.app.undo()"):
        page.run("return ct.app.change([...ct.app.lines, ''])")
        before = state(page)
        page.run(f"{break_it} return {act}.then(() => {{ {mend_it} }})")
        assert page.alert() == "the page failed: no memory", page.alert()
        assert state(page) == before
    assert page.run("return ct.app.undo().then(() => ct.app.lines)") == before[1][:-1]
    before = state(page)
    page.run(f"""{break_it}
      world.apply = function (...words) {{ {mend_it} throw new Error('no memory'); }};
      return ct.app.tell('1 submit set 0 7')""")
    assert page.alert() == "the page failed: no memory" and state(page) == before, page.alert()
    page.say("1 submit set 0 7")
    assert page.steps() == 63 and page.alert() == ""
    page.run("return ct.app.open('members 3\\n1 submit set 0 7\\n1 enter\\n1 receive data 1.1')")
    before = state(page)
    page.run(f"{break_it} return ct.app.tell('1 receive data 1.1').then(() => {{ {mend_it} }})")
    assert page.alert() == "the page failed: no memory" and state(page) == before, page.alert()
    page.say("1 begin")
    assert page.alert().startswith("1 begin: refused 1 Nothing: ") and state(page) == before, page.alert()


def refused_first(page: Page) -> None:
    """A log that is refused shows the refusal before all else, on a phone, too."""
    page.size(*PHONE)
    page.open("#example=broken")
    assert page.alert().startswith("broken: line 29: 3 choose 1: refused 3 NotLargest: "), page.alert()
    assert page.text("#status").startswith("broken: refused at line 29; before it 22 steps in "), page.text("#status")
    assert page.run("const it = document.getElementById('alert').getBoundingClientRect(); return it.height > 0 && it.bottom < innerHeight")
    page.shot("refused_phone")
    page.open("#example=locked_value")
    assert page.alert() == "" and "# " + page.text("#status").split(" s. ")[1] == page.lines()[0], page.text("#status")
    page.size()


def told_what_it_is(page: Page) -> None:
    """A sentence says what the page is, and where to go on; and it says what it is made of."""
    page.open()
    assert "Chandra and Toueg" in page.text("#what")
    for link in page.run("return [...document.querySelectorAll('#what a')].map((it) => it.getAttribute('href'))"):
        if link.startswith("#"):
            page.click(f"#what a[href='{link}']")
            page.until(lambda: page.steps() > 0)
        else:
            assert os.path.exists(os.path.join(page.root, "page", link)), link
    made = page.run("return [...document.querySelectorAll('#made code')].map((it) => it.textContent)")
    sums = page.run("""const sum = async (id) => {
        const bytes = Uint8Array.from(atob(document.getElementById(id).textContent), (it) => it.charCodeAt(0));
        const whole = new Blob([bytes]).stream().pipeThrough(new DecompressionStream('gzip'));
        const sum = await crypto.subtle.digest('SHA-256', await new Response(whole).arrayBuffer());
        return [...new Uint8Array(sum)].map((it) => it.toString(16).padStart(2, '0')).join('');
      };
      return Promise.all([sum('module'), sum('tool')])""")
    assert len(made) == 4 and all(made) and made[2:] == sums, (made, sums)


def damaged_links(page: Page) -> None:
    """A link that is damaged says so, and opens nothing."""
    large = base64.urlsafe_b64encode(zlib.compress(b"\n" * (80 * MEGABYTE), 9)[2:-4]).decode().rstrip("=")
    for link, wanted in (("#example=constructor", "the link: no example constructor; "),
                         ("#example=__proto__", "the link: no example __proto__; "),
                         ("#example=locked_value&at=abc", "the link is damaged: at=abc is no step; "),
                         ("#example=locked_value&at=1.5", "the link is damaged: at=1.5 is no step; "),
                         ("#s=", "the link is damaged: "), ("#s=nothing", "the link is damaged: "), ("#s=%%%", "the link is damaged: "),
                         (f"#s={large}", "the link holds more than 67,108,864 bytes")):
        page.open(link)
        assert page.alert().startswith(wanted), (link[:40], page.alert())
        assert state(page)[1:3] == [["members 3"], 0], link[:40]
    page.open("#example=locked_value")
    page.run("location.hash = '#s=nothing'")
    page.until(lambda: page.alert().startswith("the link is damaged"))
    assert page.steps() == 153


def addresses(page: Page) -> None:
    """Back and forth go to what was opened, also to the page without a link."""
    page.open()
    page.click("#what a[href='#example=coordinator_crashes']")
    page.until(lambda: page.steps() == 62)
    page.run("examples.value = 'locked_value'; examples.dispatchEvent(new Event('change'))")
    page.until(lambda: page.steps() == 153)
    for steps in (62, 0):
        page.run("history.back()")
        page.until(lambda: page.steps() == steps)
    assert page.lines() == ["members 3"]


def bounds(page: Page) -> None:
    """What is too large is told, and leaves the run."""
    page.open("#example=coordinator_crashes")
    before = state(page)
    for script, wanted in (
            (f"['x'.repeat({100 * MEGABYTE})]", "104,857,600 bytes; at most 67,108,864 are opened"),
            ("['members 3\\n', 'x'.repeat(70000)]", "line 2 has more than 65,536 letters, so this is no schedule"),
            (f"['\\n'.repeat({60 * MEGABYTE})]", "more than 2,000,000 lines; a run has at most 1,000,000 steps"),
            ("[new Uint8Array([0x7f, 0x45, 0xff, 0xfe])]", "no UTF-8: a schedule, a record or a log is a text")):
        page.run("ct.app.alert('')")
        give(page, script)
        page.until(lambda: page.alert() != "")
        assert page.alert() == f"it: {wanted}", page.alert()
        assert state(page) == before
    give(page, "['members 3\\n', 'x'.repeat(60000)]")
    page.until(lambda: page.fault() != "")
    assert page.fault().startswith("line 2: not understood: ") and len(page.fault()) < 300, page.fault()


def left(page: Page) -> None:
    """What takes long is ended by the button and by a key, and leaves the run."""
    page.open("#example=coordinator_crashes")
    before = state(page)
    for end in ("click()", "dispatchEvent(new KeyboardEvent('keydown', { key: 'Escape', bubbles: true }))"):
        give(page, f"['members 16\\n', 'all turns 20\\n'.repeat({MANY})]")
        page.until(lambda: page.run("return !document.getElementById('waiting').hidden"))
        assert page.run("return document.getElementById('page').inert && document.activeElement.id") == "leave"
        page.shot("waiting")
        page.run(f"document.activeElement.{end}")
        page.until(lambda: page.text("#status") == "Cancelled.")
        assert state(page) == before and page.run("return document.getElementById('waiting').hidden") and page.alert() == ""
        page.run("ct.app.status('')")
    page.run("""const { tool } = ct.app.parts.opening;
      tool.run = () => { let cancel; const ended = new Promise((done) => { cancel = () => done(null); }); return { ended, cancel }; };""")
    page.drop("endless.json", "{}")
    page.until(lambda: page.text("#waiting") == "ct_tool schedule ..Cancel")
    page.click("#leave")
    page.until(lambda: page.text("#status") == "Cancelled.")
    assert state(page) == before
    page.say("1 submit set 0 7")
    assert page.steps() == 63


def costs(page: Page) -> None:
    """Behind 100,000 steps a click reads its own steps alone, and keeps no copy of the lines."""
    page.open()
    page.give("big.json", page.made(5, 100000))
    page.until(lambda: page.steps() == 100000 and " s" in page.text("#status"), 60)
    for _ in range(TRIES):
        took, same, read = page.run("""const { app } = ct;
          const { parse } = JSON;
          const lines = app.lines;
          let read = 0;
          JSON.parse = (text) => { if (text.startsWith('[')) read = Math.max(read, text.length); return parse(text); };
          return (async () => {
            const start = performance.now();
            await app.tell('1 submit set 0 7');
            const took = (performance.now() - start) / 1000;
            JSON.parse = parse;
            return [took, lines === app.lines && app.history.before.at(-1).lines === lines, read];
          })()""")
        print(f"  a click behind 100,000 steps: {1000 * took:.0f} ms")
        assert same and 0 < read < 100, (same, read)
    page.run("return ct.app.undo()")
    page.until(lambda: page.steps() == 100002)


def kept(page: Page) -> None:
    """The browser asks before it leaves a run that nothing holds."""
    asks = "return !dispatchEvent(new Event('beforeunload', { cancelable: true }))"
    page.open()
    assert page.run(asks) is False
    for hold in ("#save-schedule", "#save-record", "#link"):
        page.say("1 submit set 0 7")
        assert page.run(asks) is True, hold
        page.click(hold)
        page.until(lambda: page.run(asks) is False)
    page.say("1 submit set 0 8")
    page.click("#undo")
    page.until(lambda: page.run(asks) is False)
    page.give("two.schedule", "members 3\n1 submit set 0 7")
    page.until(lambda: page.steps() == 1 and page.run(asks) is False)
    page.press("crash 2")
    assert page.run(asks) is True
    page.click("#new")
    page.until(lambda: page.steps() == 0 and page.run(asks) is False)


def logs(page: Page) -> None:
    """Several files are the logs of all members, in the order of their names: the run that ct_tool merges of them is opened, or what it
    refuses is told."""
    texts = {"9.log": "members 2\nsubmit set 0 7\nreceive data 1.1 from 1\n", "10.log": "receive data 1.1 from 1\nreceive data 1.1 from 2\n"}
    wrong = {**texts, "10.log": "receive data 1.1 from 1 set 0 8\n"}
    for names in (["9.log", "10.log"], ["10.log", "9.log"]):
        page.open()
        paths = written(page, {name: texts[name] for name in names})
        page.driver.find_element("id", "open").send_keys("\n".join(paths))
        page.until(lambda: page.steps() == 4)
        schedule, told, _ = page.of_tool("merge", *sorted(paths, key=len))
        assert page.lines() == schedule[:schedule.index("\n\nexpect ")].split("\n"), page.lines()
        assert page.alert() == "" and page.text("#status").startswith(", ".join(names)), page.text("#status")
        assert page.text("#status").endswith(re.sub(r"[^\s(]*/", "", told.strip())) and "accepted: " in told, page.text("#status")
    paths = written(page, wrong)
    page.driver.find_element("id", "open").send_keys("\n".join(paths))
    page.until(lambda: page.alert() != "")
    told = re.sub(r"[^\s(]*/", "", page.of_tool("merge", *paths)[1].strip())
    assert page.alert() == f"9.log, 10.log: {told}" and told.startswith("refused: "), (page.alert(), told)
    assert page.steps() == 4


def written(page: Page, files: dict) -> List[str]:
    """The paths of files with these texts."""
    paths = [os.path.join(page.folder, name) for name in files]
    for path, text in zip(paths, files.values()):
        with open(path, "w", encoding="utf-8") as file:
            file.write(text)
    return paths


OPENED = [policy, one_behind_the_other, failed, refused_first, told_what_it_is, damaged_links, addresses, bounds, left, costs, kept, logs]
