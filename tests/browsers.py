"""Chromium and Firefox for selenium; Firefox by Marionette, its own protocol, since Debian has no
geckodriver."""
import json
import os
import shutil
import socket
import subprocess
import tempfile

from selenium import webdriver
from selenium.webdriver.remote.command import Command

from .process import LONG, holds_within

# Commands whose names aren't selenium's.
NAMES = {Command.GET: "Navigate", Command.GET_CURRENT_URL: "GetCurrentURL",
         Command.FIND_CHILD_ELEMENTS: "FindElements", Command.CLICK_ELEMENT: "ElementClick",
         Command.CLEAR_ELEMENT: "ElementClear", Command.SEND_KEYS_TO_ELEMENT: "ElementSendKeys",
         Command.W3C_EXECUTE_SCRIPT: "ExecuteScript",
         Command.W3C_EXECUTE_SCRIPT_ASYNC: "ExecuteAsyncScript"}
FAULTS = """
return Services.console.getMessageArray().filter((it) => it instanceof Ci.nsIScriptError
  && !(it.flags & Ci.nsIScriptError.warningFlag) && it.sourceName.startsWith('file:'))
  .map((it) => it.message);
"""


class Chromium(webdriver.Chrome):
    """A browser of its own, which saves into a folder."""

    def __init__(self, folder, *options):
        those = webdriver.ChromeOptions()
        for it in ("headless=new", "no-sandbox", "disable-dev-shm-usage", "window-size=1280,900"):
            those.add_argument(f"--{it}")
        for it in options:
            those.add_argument(it)
        those.add_experimental_option("prefs", {"download.default_directory": str(folder)})
        those.set_capability("goog:loggingPrefs", {"browser": "ALL"})
        super().__init__(options=those)

    def faults(self):
        """What scripts of pages wrote to the console as errors."""
        return [it["message"] for it in self.get_log("browser") if it["level"] == "SEVERE"]


class Marionette:
    """The commands of a driver as messages [0, number, name, arguments], each behind its length."""

    def __init__(self, port):
        self.socket = socket.create_connection(("127.0.0.1", port), LONG)
        self.file, self.count = self.socket.makefile("rb"), 0
        self.receive()

    def receive(self):
        length = b""
        while not length.endswith(b":"):
            length += self.file.read(1)
        return json.loads(self.file.read(int(length[:-1])))

    def call(self, name, given):
        """The error of a command, and its result."""
        self.count += 1
        text = json.dumps([0, self.count, name, given]).encode()
        self.socket.sendall(b"%d:%s" % (len(text), text))
        return self.receive()[2:]

    def execute(self, command, given):
        """Does what selenium asks."""
        given = dict(given)
        if command == Command.FIND_CHILD_ELEMENTS:
            given["element"] = given.pop("id")
        name = NAMES.get(command, command[0].upper() + command[1:])
        fault, result = self.call(f"WebDriver:{name}", given)
        if fault:
            return {"status": 500, "value": json.dumps({"value": fault})}
        is_wrapped = isinstance(result, dict) and "value" in result
        return {"value": result["value"] if is_wrapped else result}


class Firefox(webdriver.Remote):
    """A browser of its own, which saves into a folder."""

    def __init__(self, folder):
        self.profile = tempfile.mkdtemp()
        wanted = {"marionette.port": 0, "browser.download.folderList": 2,
                  "browser.download.dir": str(folder)}
        with open(f"{self.profile}/user.js", "w", encoding="utf-8") as it:
            it.writelines(f"user_pref({json.dumps(name)}, {json.dumps(value)});\n"
                          for name, value in wanted.items())
        words = ["--headless", "--no-remote", "--marionette", "--remote-allow-system-access",
                 "--width=1280", "--height=900", "--profile", self.profile]
        self.process = subprocess.Popen(["firefox-esr", *words], stdout=subprocess.DEVNULL,
                                        stderr=subprocess.DEVNULL,
                                        env={**os.environ, "HOME": self.profile})
        path = f"{self.profile}/MarionetteActivePort"
        assert holds_within(LONG, lambda: os.path.exists(path) and os.path.getsize(path))
        with open(path, encoding="ascii") as it:
            self.marionette = Marionette(int(it.read()))
        super().__init__(self.marionette, options=webdriver.FirefoxOptions())
        self._is_remote = False

    def faults(self):
        """What scripts of pages wrote to the console as errors."""
        self.marionette.call("Marionette:SetContext", {"value": "chrome"})
        asked = {"script": FAULTS, "args": []}
        fault, result = self.marionette.call("WebDriver:ExecuteScript", asked)
        assert not fault, fault
        return result["value"]

    def quit(self):
        self.process.kill()
        self.process.wait()
        shutil.rmtree(self.profile, ignore_errors=True)
