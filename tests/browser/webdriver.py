"""A browser driven over WebDriver, in plain HTTP: what tests/browser/run needs of it and nothing more."""
import base64
import json
import shutil
import socket
import subprocess
import tempfile
import time
import urllib.error
import urllib.request

ELEMENT = "element-6066-11e4-a52e-4f735466cecf"
KEYS = {"tab": "\ue004", "enter": "\ue007", "control": "\ue009", "delete": "\ue017", "a": "a"}


class Failed(Exception):
    """The driver's answer if it can't do what it is asked."""


def free_port():
    with socket.socket() as probe:
        probe.bind(("127.0.0.1", 0))
        return probe.getsockname()[1]


class Browser:
    """A Chromium without a window, in a profile of its own. `scripts` says whether pages may run scripts."""

    def __init__(self, downloads, scripts=True):
        self.profile = tempfile.mkdtemp(prefix="katchidul-browser-")
        self.base = "http://127.0.0.1:%d" % free_port()
        command = ["chromedriver", "--port=" + self.base.rpartition(":")[2]]
        self.driver = subprocess.Popen(command, stdout=subprocess.DEVNULL, stderr=subprocess.DEVNULL)
        preferences = {"download.default_directory": str(downloads), "download.prompt_for_download": False}
        if not scripts:
            preferences["profile.managed_default_content_settings.javascript"] = 2
        arguments = ["--headless=new", "--no-sandbox", "--disable-gpu", "--disable-dev-shm-usage", "--window-size=1366,900",
                     "--user-data-dir=" + self.profile]
        options = {"args": arguments, "prefs": preferences}
        wanted = {"browserName": "chrome", "goog:chromeOptions": options, "goog:loggingPrefs": {"browser": "ALL"}}
        self.session = self.begun({"capabilities": {"alwaysMatch": wanted}})

    def begun(self, wanted):
        end = time.monotonic() + 60
        while True:
            try:
                return "/session/" + self.call("POST", "/session", wanted)["sessionId"]
            except (urllib.error.URLError, ConnectionError):
                if time.monotonic() > end:
                    raise
                time.sleep(0.2)

    def call(self, method, path, body=None):
        data = None if body is None else json.dumps(body).encode()
        request = urllib.request.Request(self.base + path, data, {"Content-Type": "application/json"}, method=method)
        try:
            with urllib.request.urlopen(request, timeout=120) as answer:
                return json.load(answer)["value"]
        except urllib.error.HTTPError as fault:
            raise Failed(json.load(fault)["value"]["message"].splitlines()[0]) from None

    def ask(self, method, path, body=None):
        return self.call(method, self.session + path, body)

    def close(self):
        try:
            self.ask("DELETE", "")
        except (Failed, OSError):
            pass
        self.driver.terminate()
        self.driver.wait()
        shutil.rmtree(self.profile, ignore_errors=True)

    def open(self, address):
        self.ask("POST", "/url", {"url": address})

    def run(self, script, *arguments):
        return self.ask("POST", "/execute/sync", {"script": script, "args": list(arguments)})

    def find(self, selector):
        return self.ask("POST", "/element", {"using": "css selector", "value": selector})[ELEMENT]

    def text(self, selector):
        return self.ask("GET", "/element/%s/text" % self.find(selector))

    def texts(self, selector):
        """The visible texts of all that match, in one call."""
        return self.run("return [...document.querySelectorAll(arguments[0])].map((one) => one.innerText.trim())", selector)

    def click(self, selector):
        self.ask("POST", "/element/%s/click" % self.find(selector), {})

    def type(self, text):
        """Presses keys wherever the focus is; a tuple is keys by name, held together."""
        if isinstance(text, tuple):
            down = [{"type": "keyDown", "value": KEYS[name]} for name in text]
            actions = down + [{"type": "keyUp", "value": KEYS[name]} for name in reversed(text)]
        else:
            actions = [{"type": kind, "value": key} for key in text for kind in ("keyDown", "keyUp")]
        self.ask("POST", "/actions", {"actions": [{"type": "key", "id": "keys", "actions": actions}]})

    def wait(self, script, *arguments, seconds=20):
        """Waits until a script returns a true value, and returns that."""
        end = time.monotonic() + seconds
        while True:
            try:
                found = self.run(script, *arguments)
            except Failed:
                found = None
            if found or time.monotonic() > end:
                return found
            time.sleep(0.1)

    def log(self):
        """What the browser wrote to its console since the last call."""
        return self.ask("POST", "/se/log", {"type": "browser"})

    def chromium(self, command, **parameters):
        """What WebDriver has no call for."""
        return self.ask("POST", "/goog/cdp/execute", {"cmd": command, "params": parameters})

    def spoken(self, role):
        """What a screen reader gets of all elements of a role: name, description, and whether it is marked as wrong."""
        found = []
        for node in self.chromium("Accessibility.getFullAXTree")["nodes"]:
            if not node["ignored"] and node["role"]["value"] == role:
                marks = {one["name"]: one["value"].get("value") for one in node.get("properties", [])}
                texts = [node.get(key, {}).get("value", "") for key in ("name", "description")]
                found.append((*texts, marks.get("invalid") == "true"))
        return found

    def picture(self, x, y, width, height, scale=1):
        """A part of the page as PNG, also of what is outside the window."""
        clip = {"x": x, "y": y, "width": width, "height": height, "scale": scale}
        return base64.b64decode(self.chromium("Page.captureScreenshot", clip=clip, captureBeyondViewport=True)["data"])

    def whole_picture(self):
        """The page from top to end."""
        width, height = self.run("return [document.documentElement.scrollWidth, document.documentElement.scrollHeight]")
        return self.picture(0, 0, width, min(height, 8000))

    def printed(self):
        """The page as PDF, on the paper that its own style asks for."""
        return base64.b64decode(self.chromium("Page.printToPDF", preferCSSPageSize=True, printBackground=True)["data"])
