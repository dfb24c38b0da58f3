"""A headless Chromium, driven over a pair of pipes by its debugging protocol."""

import base64
import json
import os
import select
import shutil
import subprocess
import tempfile
import time

NAMES = ("chromium", "chromium-browser", "google-chrome", "google-chrome-stable", "chrome")
KEYS = {"Tab": 9, "Enter": 13, " ": 32, "ArrowDown": 40}
# Seconds within which the browser answers a message.
PATIENCE = 60


def found():
    """The path of an installed browser, or None."""
    return next(filter(None, map(shutil.which, NAMES)), None)


class Fault(Exception):
    """What the page or the browser did wrong."""


class Browser:
    """A browser with one page. `requests` are the addresses that it asked for, `errors` what the page complained of."""

    def __init__(self, path):
        self.folder = tempfile.mkdtemp()
        self.requests, self.errors = [], []
        self.last, self.waiting, self.heard = 0, {}, b""
        for_browser, self.to = os.pipe()
        self.of, from_browser = os.pipe()
        # The browser reads at descriptor 3 and writes at 4.
        words = [path, "--headless=new", "--no-sandbox", "--disable-gpu", "--no-first-run", "--disable-sync",
                 "--disable-background-networking", "--disable-component-update", "--remote-debugging-pipe",
                 f"--user-data-dir={self.folder}", "about:blank"]
        self.process = subprocess.Popen(
            ["sh", "-c", f'exec "$@" 3<&{for_browser} 4>&{from_browser}', "sh", *words],
            stdin=subprocess.DEVNULL, stdout=subprocess.DEVNULL, stderr=subprocess.DEVNULL,
            pass_fds=(for_browser, from_browser))
        os.close(for_browser)
        os.close(from_browser)
        self.session = None
        target = self.ask("Target.createTarget", {"url": "about:blank"})["targetId"]
        self.session = self.ask("Target.attachToTarget", {"targetId": target, "flatten": True})["sessionId"]
        for domain in ("Page", "Runtime", "Network", "Log", "Accessibility", "DOM"):
            self.ask(f"{domain}.enable")
        # Workers are pages of their own to the browser; they wait until their network is watched too.
        self.ask("Target.setAutoAttach", {"autoAttach": True, "waitForDebuggerOnStart": True, "flatten": True})

    def __enter__(self):
        return self

    def __exit__(self, *_):
        self.process.kill()
        self.process.wait()
        os.close(self.to)
        os.close(self.of)
        shutil.rmtree(self.folder, ignore_errors=True)

    def send(self, method, parameters, session):
        self.last += 1
        message = {"id": self.last, "method": method, "params": parameters or {}}
        if session:
            message["sessionId"] = session
        os.write(self.to, json.dumps(message).encode() + b"\0")
        return self.last

    def ask(self, method, parameters=None):
        """Sends a message to the page, and returns its answer."""
        number = self.send(method, parameters, self.session)
        end = time.monotonic() + PATIENCE
        while number not in self.waiting:
            self.hear(end - time.monotonic())
        answer = self.waiting.pop(number)
        if "error" in answer:
            raise Fault(f"{method}: {answer['error']['message']}")
        return answer["result"]

    def hear(self, seconds):
        """Takes in what the browser says within some seconds."""
        if seconds <= 0 or not select.select([self.of], [], [], seconds)[0]:
            raise Fault("the browser says nothing")
        self.heard += os.read(self.of, 1 << 20)
        *messages, self.heard = self.heard.split(b"\0")
        for message in map(json.loads, messages):
            if "id" in message:
                self.waiting[message["id"]] = message
            else:
                self.note(message["method"], message["params"])

    def note(self, method, told):
        if method == "Network.requestWillBeSent":
            self.requests.append(told["request"]["url"])
        elif method == "Runtime.exceptionThrown":
            self.errors.append(told["exceptionDetails"].get("exception", {}).get("description", "an exception"))
        elif method == "Log.entryAdded" and told["entry"]["level"] == "error":
            self.errors.append(told["entry"]["text"])
        elif method == "Target.attachedToTarget":
            session = told["sessionId"]
            self.send("Network.enable", None, session)
            self.send("Runtime.runIfWaitingForDebugger", None, session)

    def open(self, address):
        self.ask("Page.navigate", {"url": "about:blank"})
        self.ask("Page.navigate", {"url": address})
        self.until("document.readyState === 'complete'")

    def value(self, expression):
        """The value of an expression on the page; of a promise, what it comes to."""
        answer = self.ask("Runtime.evaluate", {"expression": expression, "awaitPromise": True, "returnByValue": True,
                                               "userGesture": True})
        if "exceptionDetails" in answer:
            raise Fault(answer["exceptionDetails"].get("exception", {}).get("description", expression))
        return answer["result"].get("value")

    def until(self, expression, seconds=PATIENCE):
        """Waits until an expression is true."""
        end = time.monotonic() + seconds
        while not self.value(expression):
            if time.monotonic() > end:
                raise Fault(f"{expression} doesn't come true")
            time.sleep(0.02)

    def press(self, key, modifiers=0):
        """Presses a key and lets it go."""
        text = {"Enter": "\r", " ": " "}.get(key)
        told = {"key": key, "code": "Space" if key == " " else key, "windowsVirtualKeyCode": KEYS[key],
                "modifiers": modifiers}
        self.ask("Input.dispatchKeyEvent", {"type": "keyDown", **told, **({"text": text} if text else {})})
        self.ask("Input.dispatchKeyEvent", {"type": "keyUp", **told})

    def look(self, width, height, scheme="light"):
        """Sets the size of the page and its colours."""
        self.ask("Emulation.setDeviceMetricsOverride",
                 {"width": width, "height": height, "deviceScaleFactor": 1, "mobile": width < 600})
        self.ask("Emulation.setEmulatedMedia", {"features": [{"name": "prefers-color-scheme", "value": scheme}]})

    def shot(self, path, whole=True):
        """Keeps a picture of the page."""
        picture = self.ask("Page.captureScreenshot", {"format": "png", "captureBeyondViewport": whole})
        with open(path, "wb") as file:
            file.write(base64.b64decode(picture["data"]))

    def choose_file(self, selector, path):
        """Chooses a file in a field for files."""
        root = self.ask("DOM.getDocument")["root"]["nodeId"]
        node = self.ask("DOM.querySelector", {"nodeId": root, "selector": selector})["nodeId"]
        self.ask("DOM.setFileInputFiles", {"files": [str(path)], "nodeId": node})

    def nameless(self):
        """The roles of controls that a screen reader has no name for."""
        roles = {"button", "textbox", "combobox", "spinbutton", "link", "checkbox", "searchbox"}
        nodes = self.ask("Accessibility.getFullAXTree")["nodes"]
        shown = [node for node in nodes if not node.get("ignored") and node["role"]["value"] in roles]
        return [node["role"]["value"] for node in shown if not node.get("name", {}).get("value")]
