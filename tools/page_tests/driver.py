"""A browser for tools/page-test, driven by WebDriver with Python's standard library alone: what all browsers share."""

import base64
import pathlib
import time

ELEMENT = "element-6066-11e4-a52e-4f735466cecf"
SIZE = (1500, 1000)
KEYS = {"enter": "\ue007", "tab": "\ue004", "escape": "\ue00c", "down": "\ue015", "up": "\ue013", "left": "\ue012", "right": "\ue014",
        "control": "\ue009", "shift": "\ue008", "delete": "\ue017"}
# An element by its selector and a part of its text, or of its value.
FOUND = """
const textOf = node => node.matches('input, select, textarea') ? node.value : node.textContent;
const found = [...document.querySelectorAll(arguments[0])].find(node => textOf(node).includes(arguments[1]));
"""


class Faulty(Exception):
    """The driver refused a command, and says why."""


class Driver:
    """It keeps its browsers, since they would outlive it."""

    def __init__(self):
        self.browsers = []

    def browser(self, here="", is_read=False):
        """A browser with a profile of its own. `here` is another name of this machine. `is_read` has it work for screen readers."""
        self.browsers.append(self.open(here, is_read))
        return self.browsers[-1]

    def close_browsers(self):
        for browser in self.browsers:
            browser.close()
        self.browsers = []

    def close(self):
        self.close_browsers()


class Browser:
    """What a browser does by commands of WebDriver. `call` gives one to it, by the method and the path that it has over HTTP."""

    def go(self, url):
        self.call("POST", "/url", {"url": url})
        # (Firefox may answer while the page before is still there, where the address has a fragment)
        self.until("return location.href.startsWith(arguments[0]) && document.readyState === 'complete'", url.partition("#")[0])

    def run(self, script, *args):
        return self.call("POST", "/execute/sync", {"script": script, "args": list(args)})

    def run_async(self, script, *args):
        """Runs a script that hands its result to the last of its arguments."""
        return self.call("POST", "/execute/async", {"script": script, "args": list(args)})

    def all(self, css):
        return [found[ELEMENT] for found in self.call("POST", "/elements", {"using": "css selector", "value": css})]

    def find(self, css):
        return self.call("POST", "/element", {"using": "css selector", "value": css})[ELEMENT]

    def text(self, css):
        return self.run("return document.querySelector(arguments[0])?.textContent ?? null", css)

    def texts(self, css):
        return self.run("return [...document.querySelectorAll(arguments[0])].map(node => node.textContent)", css)

    def until(self, script, *args, seconds=60):
        """Waits until the script gives something that is true, and gives it. The time is that of a machine that is busy."""
        end = time.monotonic() + seconds
        while time.monotonic() < end:
            value = self.run(script, *args)
            if value:
                return value
            time.sleep(0.05)
        raise AssertionError(f"never so: {' '.join(script.split())} {args}")

    def see(self, css, text=""):
        """Waits for an element with this text, and gives its text."""
        try:
            return self.until(FOUND + "return found && (textOf(found) || ' ')", css, text)
        except AssertionError:
            raise AssertionError(f"never seen: {css} with {text!r}") from None

    def click(self, css, text=""):
        """Clicks the first element with this text. It may have been drawn anew just now, so a few times."""
        for attempt in range(5):
            self.see(css, text)
            element = self.run(FOUND + "return found", css, text)
            try:
                return self.call("POST", f"/element/{element[ELEMENT]}/click", {})
            except (Faulty, TypeError):
                if attempt == 4:
                    raise
                time.sleep(0.1)

    def type(self, css, text):
        """Types a text in place of what is there. That may have been drawn anew just now, so a few times."""
        for attempt in range(5):
            try:
                element = self.find(css)
                self.call("POST", f"/element/{element}/clear", {})
                return self.call("POST", f"/element/{element}/value", {"text": text})
            except Faulty:
                if attempt == 4:
                    raise
                time.sleep(0.1)

    def choose_file(self, css, path):
        self.call("POST", f"/element/{self.find(css)}/value", {"text": str(path)})

    def drag(self, css, start, end):
        """Drags with the mouse from one of these elements to another. They may have been drawn anew just now, so a few
        times.
        """
        for attempt in range(5):
            elements = self.all(css)
            moves = [{"type": "pointerMove", "duration": 50, "x": 0, "y": 0, "origin": {ELEMENT: elements[at]}} for at in (start, end)]
            actions = [moves[0], {"type": "pointerDown", "button": 0}, moves[1], {"type": "pointerUp", "button": 0}]
            try:
                self.call("POST", "/actions", {"actions": [{"type": "pointer", "id": "mouse", "actions": actions}]})
                return self.call("DELETE", "/actions")
            except Faulty:
                if attempt == 4:
                    raise
                self.call("DELETE", "/actions")
                time.sleep(0.5)

    def keys(self, *keys):
        """Presses keys one after the other where the focus is. `control+s` presses two together."""
        actions = []
        for key in keys:
            codes = [KEYS.get(part, part) for part in (key.split("+") if len(key) > 1 else [key])]
            actions += [{"type": "keyDown", "value": code} for code in codes] + [{"type": "keyUp", "value": code} for code in reversed(codes)]
        self.call("POST", "/actions", {"actions": [{"type": "key", "id": "keys", "actions": actions}]})
        self.call("DELETE", "/actions")

    def name_and_role(self, element):
        """What a screen reader says of an element."""
        return self.call("GET", f"/element/{element}/computedlabel"), self.call("GET", f"/element/{element}/computedrole")

    def shot(self, path):
        pathlib.Path(path).write_bytes(base64.b64decode(self.call("GET", "/screenshot")))

    # What each browser does in its own way.

    def all_names_and_roles(self):
        """What a screen reader has of the whole page."""
        raise NotImplementedError

    def resize(self, width, height):
        """Gives the page a window of this size."""
        raise NotImplementedError

    def is_dark(self, dark):
        """Has the page in dark colors, or in light ones."""
        raise NotImplementedError

    def save_in(self, folder):
        """Has files saved in this folder, without a question."""
        raise NotImplementedError

    def complaints(self):
        """What the console has of errors since it was asked last, but for the statuses of answers. A refused policy is one."""
        raise NotImplementedError

    def close(self):
        """Ends the browser."""
        raise NotImplementedError
