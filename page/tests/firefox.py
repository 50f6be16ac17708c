"""Firefox by its own protocol, in the place of a driver for selenium."""
import json
import os
import socket
import subprocess
import time
from typing import Any, Dict, Optional

from selenium import webdriver
from selenium.common.exceptions import JavascriptException, TimeoutException, WebDriverException
from selenium.webdriver.remote.file_detector import UselessFileDetector

START_SECONDS = 60
PORT_FILE = "MarionetteActivePort"
CALLS = {
    "newSession": "NewSession", "quit": "DeleteSession", "get": "Navigate", "refresh": "Refresh", "goBack": "Back", "goForward": "Forward",
    "getCurrentUrl": "GetCurrentURL", "findElement": "FindElement", "findElements": "FindElements", "clickElement": "ElementClick",
    "clearElement": "ElementClear", "sendKeysToElement": "ElementSendKeys", "w3cExecuteScript": "ExecuteScript",
    "w3cExecuteScriptAsync": "ExecuteAsyncScript", "setTimeouts": "SetTimeouts", "getWindowRect": "GetWindowRect",
    "setWindowRect": "SetWindowRect", "actions": "PerformActions", "screenshot": "TakeScreenshot", "printPage": "Print",
}
PREFERENCES = {"marionette.port": 0, "browser.shell.checkDefaultBrowser": False, "datareporting.policy.dataSubmissionEnabled": False}


class Marionette:
    """What selenium's commands go through."""

    def __init__(self, profile: str) -> None:
        with open(os.path.join(profile, "user.js"), "w", encoding="utf-8") as file:
            for name, value in PREFERENCES.items():
                file.write(f"user_pref({json.dumps(name)}, {json.dumps(value)});\n")
        words = ["firefox-esr", "--headless", "--no-remote", "--marionette", "--profile", profile]
        self.process = subprocess.Popen(words, stdout=subprocess.DEVNULL, stderr=subprocess.DEVNULL)
        self.told = socket.create_connection(("127.0.0.1", self.port(os.path.join(profile, PORT_FILE)))).makefile("rwb")
        self.asked = 0
        self.read()   # which protocol it is

    def port(self, path: str) -> int:
        end = time.time() + START_SECONDS
        while time.time() < end:
            if os.path.exists(path) and os.path.getsize(path) > 0:
                with open(path, encoding="utf-8") as file:
                    return int(file.read())
            time.sleep(0.1)
        raise TimeoutError("Firefox doesn't start")

    def read(self) -> Any:
        digits = b""
        while not digits.endswith(b":"):
            byte = self.told.read(1)
            if not byte:
                raise EOFError("Firefox has ended")
            digits += byte
        return json.loads(self.told.read(int(digits[:-1])))

    def execute(self, command: str, words: Optional[Dict[str, Any]]) -> Dict[str, Any]:
        """What selenium gives a driver."""
        self.asked += 1
        words = {name: word for name, word in (words or {}).items() if name != "sessionId"}
        asked = json.dumps([0, self.asked, f"WebDriver:{CALLS[command]}", words]).encode()
        self.told.write(b"%d:%s" % (len(asked), asked))
        self.told.flush()
        _, _, fault, answer = self.read()
        if fault:
            kinds = {"javascript error": JavascriptException, "script timeout": TimeoutException}
            raise kinds.get(fault["error"], WebDriverException)(fault["message"])
        if command == "newSession":
            return {**answer, "value": answer["capabilities"]}
        return {"value": answer["value"] if isinstance(answer, dict) and "value" in answer else answer}

    def close(self) -> None:
        self.process.terminate()
        self.process.wait()


class Firefox(webdriver.Remote):
    """A driver of Firefox, whose profile is in a folder."""

    def __init__(self, profile: str) -> None:
        super().__init__(Marionette(profile), options=webdriver.FirefoxOptions(), file_detector=UselessFileDetector())

    def get_log(self, _: str) -> list:
        """It has none: the page tells what fails in it."""
        return []
