"""Firefox for tools/page-test. Debian has no driver for it: it takes the commands of WebDriver itself, by Marionette."""

import atexit
import contextlib
import json
import pathlib
import shutil
import socket
import subprocess
import tempfile
import time

from page_tests import driver

# The commands of WebDriver that Marionette has under another name, by their method and path. * is an element, which it takes as `id`.
COMMANDS = {
    "POST /url": "Navigate",
    "POST /execute/sync": "ExecuteScript",
    "POST /execute/async": "ExecuteAsyncScript",
    "POST /element": "FindElement",
    "POST /elements": "FindElements",
    "POST /element/*/click": "ElementClick",
    "POST /element/*/clear": "ElementClear",
    "POST /element/*/value": "ElementSendKeys",
    "GET /element/*/computedlabel": "GetComputedLabel",
    "GET /element/*/computedrole": "GetComputedRole",
    "POST /actions": "PerformActions",
    "DELETE /actions": "ReleaseActions",
    "GET /screenshot": "TakeScreenshot",
}
# What it starts with: a free port, and files that are saved without a question.
PREFERENCES = {"marionette.port": 0, "intl.accept_languages": "en-US", "browser.download.folderList": 2, "browser.download.useDownloadDir": True}
# It works for screen readers as long as something keeps this service.
BE_READ = "window.reader = Cc['@mozilla.org/accessibilityService;1'].getService(Ci.nsIAccessibilityService);"
# Each node of the page with its name and its role, of those that have a role. There may be none yet.
READ = """
const found = [], walk = node => {
  if (node.computedARIARole) found.push([node.name ?? '', node.computedARIARole]);
  for (let child = node.firstChild; child; child = child.nextSibling) walk(child);
};
const page = window.reader.getAccessibleFor(gBrowser.selectedBrowser);
if (page) walk(page);
return found;
"""
# Errors and warnings of pages, and of no part of the browser itself.
COMPLAINTS = """
const found = Services.console.getMessageArray().filter(it => it instanceof Ci.nsIScriptError && !it.isFromChromeContext);
Services.console.reset();
return found.map(it => `${it.sourceName} ${it.lineNumber}: ${it.category}: ${it.errorMessage}`);
"""


def missing():
    """What of the browser is not on this machine."""
    return [name for name in ("firefox-esr",) if shutil.which(name) is None]


class Driver(driver.Driver):
    """Each Firefox is a process of its own, and needs no driver."""

    def open(self, here, is_read):
        opened = Firefox({"network.dns.localDomains": here})
        if is_read:
            opened.run_in_browser(BE_READ)
        return opened


class Firefox(driver.Browser):
    """A Firefox with a profile of its own, and a connection to its Marionette."""

    def __init__(self, preferences):
        self.profile, self.sent = tempfile.TemporaryDirectory(ignore_cleanup_errors=True), 0
        lines = [f"user_pref({json.dumps(name)}, {json.dumps(value)});\n" for name, value in {**PREFERENCES, **preferences}.items()]
        pathlib.Path(self.profile.name, "user.js").write_text("".join(lines))
        # Without system access it refuses what is done with the browser, and not with the page.
        words = ["--headless", "--marionette", "--remote-allow-system-access", "--no-remote", "--profile", self.profile.name]
        size = [f"--{side}={length}" for side, length in zip(("width", "height"), driver.SIZE)]
        self.process = subprocess.Popen(["firefox-esr", *words, *size], stdout=subprocess.DEVNULL, stderr=subprocess.DEVNULL)
        atexit.register(self.process.kill)
        self.connection = socket.create_connection(("127.0.0.1", self.port()), timeout=300)
        self.answers = self.connection.makefile("rb")
        self.receive()                 # (it says first which protocol it speaks)
        self.send("WebDriver:NewSession", {"capabilities": {"alwaysMatch": {}}})

    def port(self):
        """The port that it has chosen, which it writes into its profile."""
        file, end = pathlib.Path(self.profile.name, "MarionetteActivePort"), time.monotonic() + 300
        while time.monotonic() < end and self.process.poll() is None:
            if file.exists() and file.read_text().strip():
                return int(file.read_text())
            time.sleep(0.05)
        raise AssertionError("Firefox does not start")

    def receive(self):
        """A message: its length, a colon, and a text of JSON."""
        length = b"".join(iter(lambda: self.answers.read(1).strip(b":"), b""))
        return json.loads(self.answers.read(int(length)))

    def send(self, command, params):
        self.sent += 1
        message = json.dumps([0, self.sent, command, params]).encode()
        self.connection.sendall(b"%d:%s" % (len(message), message))
        _, number, fault, result = self.receive()
        assert number == self.sent, (command, number, self.sent)
        if fault:
            raise driver.Faulty(f"{fault['error']}: {fault['message'].splitlines()[0]}")
        return result["value"] if isinstance(result, dict) and "value" in result else result

    def call(self, method, path, body=None):
        parts, element = path.split("/"), {}
        if len(parts) == 4:
            element, parts[2] = {"id": parts[2]}, "*"
        return self.send("WebDriver:" + COMMANDS[f"{method} {'/'.join(parts)}"], {**(body or {}), **element})

    def run_in_browser(self, script, *args):
        """Runs a script in the browser's own window, and not in the page, for what WebDriver does not have."""
        self.send("Marionette:SetContext", {"value": "chrome"})
        try:
            return self.run(script, *args)
        finally:
            self.send("Marionette:SetContext", {"value": "content"})

    def all_names_and_roles(self):
        return [tuple(it) for it in self.run_in_browser(READ)]

    def resize(self, width, height):
        """A window is never as narrow as a page may be, so it is the page's part of it that is made narrow."""
        self.run_in_browser("Object.assign(gBrowser.selectedBrowser.style, { width: `${arguments[0]}px`, height: `${arguments[1]}px` })", width, height)

    def is_dark(self, dark):
        self.run_in_browser("Services.prefs.setIntPref('layout.css.prefers-color-scheme.content-override', arguments[0])", 0 if dark else 1)

    def save_in(self, folder):
        self.run_in_browser("Services.prefs.setStringPref('browser.download.dir', arguments[0])", str(folder))

    def complaints(self):
        # (a script of the driver that Firefox ended with its page has no place; one of the page has)
        return [it for it in self.run_in_browser(COMPLAINTS) if not it.endswith(" Script terminated by timeout at:\n")]

    def close(self):
        with contextlib.suppress(OSError, ValueError, driver.Faulty):
            self.send("Marionette:Quit", {"flags": ["eForceQuit"]})
        self.connection.close()
        try:
            self.process.wait(20)
        except subprocess.TimeoutExpired:
            self.process.kill()
            self.process.wait(10)
        self.profile.cleanup()
