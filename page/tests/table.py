"""Each button, field and key of the page, with what it has to leave: a row each, and one loop over them."""
import re
from typing import Callable, NamedTuple, Union

from page import Page

CRASH = "#example=coordinator_crashes"  # 62 steps of 3 members
REFUSED = "members 3\n1 submit set 0 7\n1 enter\n1 receive data 1.1"  # the third line is refused
TWO = "members 3\n1 submit set 0 7\n2 submit add 3 300"


class Row(NamedTuple):
    """What is clicked, or a key in an element as `#diagram Home`; the page before: a link, or a schedule; what is done in place of a click;
    and what has to hold then, in the page or by a function."""
    control: str
    begin: str
    leaves: Union[str, Callable[[Page], bool]]
    act: Union[str, Callable[[Page], None], None] = None


def same_run(page: Page, name: str, text: str, again: str) -> bool:
    """A file that was saved opens as the same run."""
    record = page.record()
    page.open()
    page.give(name, text)
    page.until(lambda: page.run("return ct.app.held.length > 1"))
    return page.record() == record and again in page.alert() and page.run("return ct.app.isKept")


def schedule_saved(page: Page) -> bool:
    text = page.saved("#save-schedule", "run.schedule")
    return text == REFUSED + "\n" and same_run(page, "again.schedule", text, "line 3: 1 enter: refused 1 Idle")


def record_saved(page: Page) -> bool:
    """The whole run, whatever step one looks at, also behind steps that were told one by one."""
    page.click("#forth")
    page.click("#last")
    page.say("3 submit set 5 18446744073709551615")
    page.run("ct.app.go(3, false)")
    text = page.saved("#save-record", "run.json")
    return text == page.record() + "\n" and same_run(page, "again.json", text, "")


def picture_saved(page: Page) -> bool:
    text = page.saved("#save-svg", "run.svg")
    return text.count("data-trip=") == page.run("return ct.app.run.trips.from.length") > 60 and "var(" not in text


def link_copied(page: Page) -> bool:
    page.run("ct.app.go(30, false)")
    record, lines = page.record(), page.lines()
    page.click("#link")
    page.until(lambda: "#s=" in page.address())
    address = page.address()
    page.open()
    page.open(address[address.index("#"):])
    return (page.record(), page.lines(), page.at()) == (record, lines, 30) and page.run("return ct.app.isKept")


def done(js: str) -> Callable[[Page], None]:
    return lambda page: page.run(js)


def filled(field: str, value: str, button: str) -> Callable[[Page], None]:
    """Writes into a field, and clicks."""
    def act(page: Page) -> None:
        page.run("document.querySelector(arguments[0]).value = arguments[1]", field, value)
        page.click(button)
    return act


def typed(text: str) -> Callable[[Page], None]:
    return lambda page: page.write(text)


def pressed(line: str) -> Callable[[Page], None]:
    return lambda page: page.press(line)


def told(line: str) -> str:
    """This line was told behind those that there were, and its steps are there."""
    return f"ct.app.lines.at(-1) === '{line}' && ct.app.isEnd && text.value.endsWith('{line}')"


AT = "ct.app.at === {}"
STEPS = "ct.app.run.steps.length === {}"
WIDE = "ct.app.parts.diagram.zoom === {}"
ONE_BACK = "ct.app.undo()"
ROWS = [
    Row("#new", "", "ct.app.run.group.members === 5 && ct.app.lines.join() === 'members 5'", filled("#members", "5", "#new")),
    Row("#members", CRASH, STEPS.format(62), filled("#members", "17", "#new")),
    Row("#members", "#example=five_members", "members.value === '5'", done("")),
    Row("#examples", "", "location.hash === '#example=followers' && examples.value === 'followers' && ct.app.isKept",
        done("examples.value = 'followers'; examples.dispatchEvent(new Event('change'))")),
    Row("#open", "", STEPS.format(2), lambda page: page.give("two.schedule", TWO)),
    Row("#undo", TWO, "ct.app.lines.length === 1 && !redo.disabled", done("ct.app.tell('1 begin'); undo.click()")),
    Row("#redo", TWO, STEPS.format(2), done(f"{ONE_BACK}.then(() => redo.click())")),
    Row("#redo", TWO, "redo.disabled && ct.app.lines.join() === 'members 3,crash 1'",
        done(f"{ONE_BACK}; ct.app.tell('crash 1'); ct.app.redo()")),
    Row("#save-schedule", REFUSED, schedule_saved, done("")),
    Row("#save-record", CRASH, record_saved, done("")),
    Row("#save-svg", CRASH, picture_saved, done("")),
    Row("#link", CRASH, link_copied, done("")),
    Row("&at", CRASH + "&at=30", AT.format(30), done("")),
    Row("#theme", "", "document.documentElement.classList.contains('dark') && theme.textContent === 'Light'",
        done("matchMedia('(prefers-color-scheme: dark)').matches || theme.click()")),
    Row("#narrower", CRASH, WIDE.format(4)),
    Row("#wider", CRASH, WIDE.format(6)),
    Row("#filter summary", CRASH, "document.getElementById('filter').open"),
    Row("[name=only]", CRASH, "String(ct.app.columns.members) === '1,3'",
        done("document.querySelector('[name=only][value=\"2\"]').click()")),
    Row("[name=kind]", CRASH, "ct.app.columns.length === 59", done("document.querySelector('[name=kind][value=submit]').click()")),
    Row("#only-instance", CRASH, "ct.app.columns.shown[0] === 37", done("const it = document.getElementById('only-instance');"
        "it.value = 2; it.dispatchEvent(new Event('input'))")),
    Row("#all", CRASH, "ct.app.columns.isAll", done("document.querySelector('[name=only]').click(); all.click()")),
    Row("#first", CRASH, AT.format(0)),
    Row("#back", CRASH, AT.format(61)),
    Row("#slider", CRASH, AT.format(17), done("slider.value = 17; slider.dispatchEvent(new Event('input'))")),
    Row("#forth", CRASH + "&at=30", AT.format(31)),
    Row("#last", CRASH + "&at=30", AT.format(62)),
    Row("#past", CRASH + "&at=30", "ct.app.isPast && past.getAttribute('aria-pressed') === 'true'"),
    Row("#fork", CRASH + "&at=30", STEPS.format(30) + " && !/ #[0-9]/.test(ct.app.lines.join())"),
    Row("#step summary", CRASH + "&at=25", "step.querySelector('table').rows.length === 4"),
    Row("#diagram .mark", CRASH, AT.format(60), done("document.querySelector('[data-step=\"59\"] circle')"
                                                      ".dispatchEvent(new MouseEvent('click', { bubbles: true }))")),
    Row("#text", "", STEPS.format(2) + " && ct.app.lines.length === 3", typed(TWO)),
    Row("#text control+Enter", "", STEPS.format(1), done("text.value = 'members 2\\n1 submit set 0 1';"
        "text.dispatchEvent(new Event('input'));"
        "text.dispatchEvent(new KeyboardEvent('keydown', { key: 'Enter', ctrlKey: true }))")),
    Row("#line", TWO, told("1 receive data 1.1"), lambda page: page.say("1 receive data 1.1")),
    Row("#further button", TWO, told("crash 3"), filled("#line", " crash 3 ", "#further button")),
    Row("#turn", TWO, told("all turns 1")),
    Row("#go", TWO, told("all turns 3"), filled("#turns", "3", "#go")),
    Row("#settle", TWO, told("all settle")),
    Row("[name=suspect]", TWO, told("all turns 1 suspecting 2,3"), done("document.querySelectorAll('[name=suspect]')[1].click();"
        "document.querySelectorAll('[name=suspect]')[2].click(); turn.click()")),
    Row("#do-cut", TWO, told("cut 3"), done("document.querySelectorAll('[name=side]')[2].click();"
        "document.getElementById('do-cut').click()")),
    Row("#heal", TWO + "\ncut 1", told("heal")),
    Row("[data-line].turn", TWO, told("2 turns 1"), pressed("2 turns 1")),
    Row("[data-line].stop", TWO, told("crash 2"), pressed("crash 2")),
    Row("[data-line].may", TWO + "\n1 receive data 1.1\n1 begin", told("1 enter"), pressed("1 enter")),
    Row("[data-line].not", TWO, STEPS.format(2) + " && document.getElementById('alert').textContent.startsWith('2 begin: refused 2 ')",
        done("document.querySelector('[data-line=\"2 begin\"]').click()")),
    Row(".envelope receive", TWO, told("3 receive data 2.1 from 2"), pressed("3 receive data 2.1 from 2")),
    Row(".envelope postpone", TWO, told("3 postpone data 1.1 from 1"), pressed("3 postpone data 1.1 from 1")),
    Row(".envelope lose", TWO, told("3 lose data 1.1 from 1"), pressed("3 lose data 1.1 from 1")),
    Row("form.submit", TWO, told("2 submit copy 4 9"), lambda page: page.submit("2", ["copy", "4", "9"])),
    Row("[data-repeat]", TWO + "\n3 lose #3", told("3 repeat #3"), done("const it = document.querySelector('[data-repeats=\"3\"]');"
        "it.open = true; it.dispatchEvent(new Event('toggle')); it.querySelector('button').click()")),
    Row("[data-whole]", "members 1\n" + 20 * "1 submit set 0 7\n", "document.querySelectorAll('.envelope').length === 20",
        done("document.querySelector('[data-whole]').click()")),
    Row("#diagram ArrowLeft", CRASH, AT.format(61)),
    Row("#diagram ArrowRight", CRASH + "&at=30", AT.format(31)),
    Row("#diagram ArrowUp", CRASH + "&at=25", "ct.app.at < 25 && " + "ct.app.run.steps[ct.app.at - 1][1] === ct.app.run.steps[24][1]"),
    Row("#diagram ArrowDown", CRASH + "&at=25", "ct.app.at > 25 && " + "ct.app.run.steps[ct.app.at - 1][1] === ct.app.run.steps[24][1]"),
    Row("#diagram PageUp", CRASH + "&at=30", AT.format(10)),
    Row("#diagram PageDown", CRASH + "&at=30", AT.format(50)),
    Row("#diagram Home", CRASH, AT.format(0)),
    Row("#diagram End", CRASH + "&at=30", AT.format(62)),
    Row("#diagram +", CRASH, WIDE.format(6)),
    Row("#diagram -", CRASH, WIDE.format(4)),
    Row("#diagram Enter", CRASH + "&at=30", "ct.app.isPast"),
]
# What other tests go over: the search (seeking.py), and leaving what takes long (opened.py).
ELSEWHERE = ["#goal", "#find-members", "#seed-first", "#seed-last", "#options", "#do-find", "#shrink", "#cancel", "#leave",
             "#trust summary", "#turns", ".submit select", ".submit input", "[data-repeats] select", "[data-repeats] summary",
             "[data-key=others] summary", "[name=side]"]


# The page as it is at first, with a link or a schedule: quicker than to load it anew.
AT_FIRST = """const [link, schedule] = arguments;
  const { app } = ct;
  document.getElementById('all').click();
  app.parts.diagram.zoom = 5;
  for (const it of document.querySelectorAll('#suspected input, #cut input')) it.checked = false;
  for (const it of document.querySelectorAll('details')) it.open = false;
  history.replaceState(null, '', location.href.split('#')[0] + link);
  dispatchEvent(new Event('hashchange'));
  return app.last.then(() => {
    Object.assign(app.history, { before: [], behind: [] });
    return schedule ? app.open(schedule) : app.show();
  });"""


def begin(page: Page, how: str) -> None:
    """The page with this link, or this schedule."""
    link = how if how.startswith("#") else ""
    page.run(AT_FIRST, link, "" if link else how)


def do(page: Page, row: Row) -> None:
    key = re.fullmatch(r"(#diagram) (\S+)", row.control)
    if callable(row.act):
        row.act(page)
    elif key and key[2] != ".mark":
        page.run("diagram.dispatchEvent(new KeyboardEvent('keydown', { key: arguments[0], cancelable: true }))", key[2])
    else:
        page.click(row.control)


def fault_of(page: Page, row: Row) -> str:
    """What is not as the row says, or nothing."""
    begin(page, row.begin)
    do(page, row)
    try:
        if callable(row.leaves):
            return "" if row.leaves(page) else f"{row.control}: {row.leaves.__name__}"
        page.until(lambda: page.run(f"try {{ return {row.leaves} }} catch (_) {{ return false }}"), 5)   # what isn't there yet
        return ""
    except AssertionError:
        return f"{row.control}: {row.leaves}; there is step {page.at()} of {page.lines()[-3:]}, {page.alert()!r}"


def each_control(page: Page) -> None:
    """What each row says."""
    page.open()
    faults = [fault_of(page, row) for row in ROWS]
    assert not any(faults), [it for it in faults if it]


def no_other_control(page: Page) -> None:
    """Each control of the page has a row, or a test elsewhere."""
    page.open()
    begin(page, TWO + "\n3 lose #3\n1 receive data 1.1\n1 begin")
    known = {row.control for row in ROWS} | set(ELSEWHERE)
    selectors = [it for it in known if not it.startswith((".envelope ", "&", "#diagram ", "#text "))]
    found = page.run("""const all = [...document.querySelectorAll('button, input, select, textarea, summary')];
      const parts = '.envelope button, form.submit button, #gutter';
      return all.filter((it) => !arguments[0].some((one) => it.matches(one)) && !it.matches(parts)
        && !(it.dataset.line && it.matches('.next'))).map((it) => it.outerHTML.slice(0, 90))""", selectors)
    assert found == [], found


TABLE = [each_control, no_other_control]
