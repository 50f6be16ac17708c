"""The page in Chromium or Firefox, and what tests do with it."""
import os
import re
import subprocess
import sys
import tempfile
import time
from typing import Callable, List, Optional, Tuple

from selenium import webdriver
from selenium.webdriver.chrome.options import Options
from selenium.webdriver.chrome.service import Service
from selenium.webdriver.common.action_chains import ActionChains
from selenium.webdriver.common.by import By
from selenium.webdriver.common.keys import Keys

from firefox import Firefox

WIDE = (1400, 1000)
WAIT_SECONDS = 20
SCRIPT_SECONDS = 120
TABS = 400
NAMES = {"left": Keys.ARROW_LEFT, "right": Keys.ARROW_RIGHT, "home": Keys.HOME, "end": Keys.END, "\n": Keys.ENTER, "escape": Keys.ESCAPE}


class Page:
    """A browser with the page, whose downloads go to a folder."""

    def __init__(self, paths: List[str], root: str, folder: str, shots: Optional[str]) -> None:
        self.path, self.ct, self.tool, self.inputs = paths
        self.root, self.folder, self.shots = root, folder, shots
        is_firefox = os.environ.get("BROWSER") == "firefox"
        self.driver = Firefox(tempfile.mkdtemp(dir=folder)) if is_firefox else self.chromium()
        self.driver.set_script_timeout(SCRIPT_SECONDS)
        self.size()

    def chromium(self) -> webdriver.Chrome:
        options = Options()
        for word in ("--headless=new", "--no-sandbox", "--disable-gpu", "--disable-dev-shm-usage", "--force-color-profile=srgb"):
            options.add_argument(word)
        options.set_capability("goog:loggingPrefs", {"browser": "ALL"})
        driver = webdriver.Chrome(service=Service("/usr/bin/chromedriver"), options=options)
        driver.execute_cdp_cmd("Browser.setDownloadBehavior", {"behavior": "allow", "downloadPath": self.folder})
        return driver

    def close(self) -> None:
        self.driver.quit()

    def size(self, width: int = WIDE[0], height: int = WIDE[1]) -> None:
        self.driver.set_window_size(width, height)

    def open(self, hash_: str = "", path: str = "") -> None:
        """The page anew, once it stands."""
        self.visit(f"file://{path or self.path}{hash_}")

    def visit(self, address: str) -> None:
        self.run("window.ct?.app.kept?.()")  # so that no browser asks whether to leave it
        self.driver.get("about:blank")
        self.driver.get(address)
        self.until(lambda: self.run("return !!window.ct"))

    def run(self, script: str, *words):
        return self.driver.execute_script(script, *words)

    def run_async(self, script: str, *words):
        return self.driver.execute_async_script(script, *words)

    def until(self, holds: Callable[[], bool], seconds: float = WAIT_SECONDS) -> None:
        """Waits until this holds."""
        end = time.time() + seconds
        while not holds():
            if time.time() > end:
                raise AssertionError("it did not come to hold")
            time.sleep(0.02)

    def console(self) -> List[str]:
        """What stands on the console since it was last looked at."""
        return [it["message"] for it in self.driver.get_log("browser")]

    def shot(self, name: str) -> None:
        if self.shots:
            os.makedirs(self.shots, exist_ok=True)
            self.driver.save_screenshot(os.path.join(self.shots, f"{name}.png"))

    # What is seen.

    def text(self, selector: str) -> str:
        return self.run(f"return document.querySelector({selector!r})?.textContent ?? ''").strip()

    def alert(self) -> str:
        return self.text("#alert")

    def fault(self) -> str:
        return self.text("#fault")

    def member(self, member: int) -> str:
        return self.text(f"article[data-member='{member}']")

    def facts(self, member: int) -> str:
        return self.text(f"article[data-member='{member}'] .facts")

    def marked(self) -> List[str]:
        """The lines of the buttons that are marked as the driver's next steps."""
        selector = "button.next, .envelope.next button:first-child"
        return self.run(f"return [...document.querySelectorAll('{selector}')].map((it) => it.dataset.line)")

    def next_steps(self) -> List[str]:
        """The same, by the library's answers."""
        return self.run("""const found = [];
          for (const article of document.querySelectorAll('article')) {
            const p = article.dataset.member;
            const [next] = ct.app.run.live.tellAll([`next ${p}`]);
            found.push(...next.replace('next ', '').split(' or ').filter((line) => line !== '-'));
          }
          return found""")

    def lines(self) -> List[str]:
        return self.run("return document.getElementById('text').value").split("\n")

    def steps(self) -> int:
        return self.run("return ct.app.run.steps.length")

    def at(self) -> int:
        return self.run("return ct.app.at")

    def record(self) -> str:
        return self.run("return ct.app.run.live.record()")

    def address(self) -> str:
        return self.driver.current_url

    # What is done.

    def click(self, selector: str) -> None:
        it = self.driver.find_element(By.CSS_SELECTOR, selector)
        self.driver.execute_script("arguments[0].scrollIntoView({ block: 'center' })", it)
        it.click()

    def press(self, line: str) -> None:
        """Clicks the button that tells this line."""
        self.click(f'#members-now [data-line="{line}"]')

    def say(self, line: str) -> None:
        """Writes a line into the field for lines, and tells it."""
        field = self.driver.find_element(By.ID, "line")
        field.clear()
        field.send_keys(line, Keys.ENTER)

    def act(self, line: str) -> None:
        """Does what a line says by the page's buttons: for several members by that of each; a line that has none is written."""
        who, _, act = line.partition(" ")
        envelope = re.fullmatch(r"receive (\w+ \S+)", act)
        if who == "expect" or not who.isdigit():
            self.say(line)
        elif act.startswith("submit"):
            self.submit(who, act.split()[1:])
        else:
            self.click(f"#members-now [data-line^=\"{who} {act} from \"]" if envelope else f"#members-now [data-line=\"{line}\"]")
        self.run_async("ct.app.last.then(() => arguments[0]())")

    def submit(self, who: str, words: List[str]) -> None:
        form = f"form.submit[data-member='{who}']"
        self.run(f"const it = document.querySelector({form!r}).elements; [it.command.value, it.register.value, it.value.value] = {words!r}")
        self.click(f"{form} button")

    def write(self, text: str) -> None:
        """Writes the schedule anew, as one types it."""
        field = self.driver.find_element(By.ID, "text")
        field.send_keys(Keys.CONTROL, "a")
        field.send_keys(Keys.CONTROL + Keys.NULL, Keys.DELETE)
        field.send_keys(text)

    def give(self, name: str, text: str) -> None:
        """Opens a file with this text."""
        path = os.path.join(self.folder, name)
        with open(path, "w", encoding="utf-8") as file:
            file.write(text)
        self.driver.find_element(By.ID, "open").send_keys(path)

    def drop(self, name: str, text: str) -> None:
        """Drops a file with this text on the page."""
        self.run("""const dataTransfer = new DataTransfer();
          dataTransfer.items.add(new File([arguments[1]], arguments[0]));
          dispatchEvent(new DragEvent('drop', { dataTransfer, cancelable: true }));""", name, text)

    def saved(self, selector: str, name: str) -> str:
        """The file that a button saves."""
        path = os.path.join(self.folder, name)
        if os.path.exists(path):
            os.remove(path)
        self.click(selector)
        self.until(lambda: os.path.exists(path) and os.path.getsize(path) > 0)
        with open(path, encoding="utf-8") as file:
            return file.read()

    def keys(self, selector: str, chord: str) -> None:
        """Presses keys together, as control+shift+z, on an element."""
        it = self.driver.find_element(By.CSS_SELECTOR, selector)
        *held, last = chord.split("+")
        codes = [{"control": Keys.CONTROL, "shift": Keys.SHIFT}[name] for name in held]
        chain = ActionChains(self.driver)
        self.driver.execute_script("document.activeElement.blur(); arguments[0].focus()", it)
        for code in codes:
            chain.key_down(code)
        chain.send_keys(last)
        for code in reversed(codes):
            chain.key_up(code)
        chain.perform()

    def type(self, name: str) -> None:
        ActionChains(self.driver).send_keys(NAMES[name]).perform()

    def walk(self, holds: str) -> None:
        """Goes by the tabulator key until the focused element is the one that is wanted."""
        for _ in range(TABS):
            if self.run(f"const it = document.activeElement; return {holds}"):
                return
            ActionChains(self.driver).send_keys(Keys.TAB).perform()
        raise AssertionError(f"no key leads to {holds}")

    def walk_to(self, name: str) -> None:
        self.walk(f"it.tagName === 'BUTTON' && it.textContent.trim() === {name!r}")

    def walk_to_id(self, name: str) -> None:
        self.walk(f"it.id === {name!r}")

    # What comes from elsewhere.

    def told_by(self, document: str) -> str:
        """What the first program of a document prints, with its mistake mended as the document says, and nothing stated."""
        with open(document, encoding="utf-8") as file:
            text = file.read()
        block = re.search(r"^    # mine\.py\n(?:^(?:    .*)?\n)+", text, re.M)[0]
        program = "\n".join(line[4:] for line in block.splitlines()).replace("N // 2", "N // 2 + 1")
        told = subprocess.run([sys.executable, "-c", program], stdout=subprocess.PIPE, check=True, text=True).stdout
        return re.sub(r" \{.*", "", told)

    def made(self, members: int, steps: int, *more: str) -> str:
        """A record of so many steps."""
        words = [*more, "--whole", "--members", str(members), "--steps", str(steps)]
        ran = subprocess.run([sys.executable, os.path.join(self.root, "bench", "generate.py"), *words], stdout=subprocess.PIPE,
                             stderr=subprocess.DEVNULL, check=True, text=True)
        return ran.stdout

    def of_tool(self, *words: str, given: str = "") -> Tuple[str, str, int]:
        """What the built program writes, what it tells, and its status."""
        ran = subprocess.run([self.tool, *words], input=given.encode(), stdout=subprocess.PIPE, stderr=subprocess.PIPE, check=False)
        return ran.stdout.decode(), ran.stderr.decode(), ran.returncode

    def links(self, names: List[str]) -> List[str]:
        """The examples that documents link to."""
        found = set()
        for name in names:
            path = os.path.join(self.root, name)
            files = [path] if os.path.isfile(path) else [os.path.join(path, it) for it in os.listdir(path) if it.endswith(".md")]
            for it in files:
                with open(it, encoding="utf-8") as file:
                    found |= set(re.findall(r"ct\.html#example=([a-z_]+)", file.read()))
        return sorted(found)
