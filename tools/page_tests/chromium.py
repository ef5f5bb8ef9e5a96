"""Chromium for tools/page-test: chromedriver, which takes WebDriver over HTTP."""

import json
import shutil
import subprocess
import urllib.error
import urllib.request

from page_tests import driver


def missing():
    """What of the browser and its driver is not on this machine."""
    return [name for name in ("chromium", "chromedriver") if shutil.which(name) is None]


class Driver(driver.Driver):
    """A chromedriver."""

    def __init__(self):
        super().__init__()
        self.process = subprocess.Popen(["chromedriver", "--port=0"], stdout=subprocess.PIPE, stderr=subprocess.DEVNULL, text=True)
        self.port = next(int(line.rstrip(". \n").rsplit(" ", 1)[1]) for line in self.process.stdout if "successfully on port" in line)

    def open(self, here, is_read):
        return Chromium(self.port, [f"--host-resolver-rules=MAP {here} 127.0.0.1"] * bool(here) + ["--force-renderer-accessibility"] * is_read)

    def close(self):
        super().close()
        self.process.terminate()
        self.process.wait(10)


class Chromium(driver.Browser):
    """A session of the chromedriver."""

    def __init__(self, port, args):
        self.base = f"http://127.0.0.1:{port}/session"
        size = "--window-size=%d,%d" % driver.SIZE
        options = {"args": ["--headless=new", "--no-sandbox", "--disable-dev-shm-usage", "--disable-gpu", "--lang=en-US", size, *args]}
        self.base += "/" + self.begin({"browserName": "chrome", "goog:chromeOptions": options, "goog:loggingPrefs": {"browser": "ALL"}})

    def begin(self, capabilities):
        """Begins a session, and gives its name. On a busy machine the browser may not be there in time, so a few times."""
        for attempt in range(5):
            try:
                return self.call("POST", "", {"capabilities": {"alwaysMatch": capabilities}})["sessionId"]
            except driver.Faulty:
                if attempt == 4:
                    raise

    def call(self, method, path, body=None):
        data = None if body is None else json.dumps(body).encode()
        request = urllib.request.Request(self.base + path, data, {"Content-Type": "application/json"}, method=method)
        try:
            with urllib.request.urlopen(request, timeout=300) as answer:
                return json.load(answer)["value"]
        except urllib.error.HTTPError as fault:
            said = json.load(fault)["value"]
            raise driver.Faulty(f"{said['error']}: {said['message'].splitlines()[0]}") from None

    def devtools(self, command, **params):
        """A command of the browser's own protocol, for what WebDriver does not have."""
        return self.call("POST", "/goog/cdp/execute", {"cmd": command, "params": params})

    def all_names_and_roles(self):
        nodes = self.devtools("Accessibility.getFullAXTree")["nodes"]
        return [(node["name"]["value"], node["role"]["value"]) for node in nodes if not node["ignored"] and "name" in node]

    def resize(self, width, height):
        self.devtools("Emulation.setDeviceMetricsOverride", width=width, height=height, deviceScaleFactor=1, mobile=False)

    def is_dark(self, dark):
        self.devtools("Emulation.setEmulatedMedia", features=[{"name": "prefers-color-scheme", "value": "dark" if dark else "light"}])

    def save_in(self, folder):
        self.devtools("Browser.setDownloadBehavior", behavior="allow", downloadPath=str(folder))

    def complaints(self):
        entries = self.call("POST", "/se/log", {"type": "browser"})
        return [it["message"] for it in entries if it["level"] in ("SEVERE", "WARNING") and "the server responded with a status of" not in it["message"]]

    def close(self):
        self.call("DELETE", "")
