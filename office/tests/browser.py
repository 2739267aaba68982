"""A headless Chromium, driven by chromedriver over HTTP."""
import base64
import json
import pathlib
import re
import subprocess
import tempfile
import urllib.error
import urllib.request

# How many seconds an answer of the browser may take, for example to print many sheets.
PATIENCE = 100
ENTER, ESCAPE, TAB, UP, DOWN = "\ue007", "\ue00c", "\ue004", "\ue013", "\ue015"


class Browser:
    def __init__(self):
        self.folder = tempfile.TemporaryDirectory()
        self.driver = subprocess.Popen(["chromedriver", "--port=0"], stdout=subprocess.PIPE, stderr=subprocess.DEVNULL, text=True)
        port = next(found[1] for line in self.driver.stdout if (found := re.search(r"on port (\d+)", line)) and found[1] != "0")
        self.base = f"http://127.0.0.1:{port}/session"
        words = ["--headless=new", "--no-sandbox", "--disable-gpu", "--disable-dev-shm-usage", "--force-device-scale-factor=1",
                 f"--user-data-dir={self.folder.name}", "--hide-scrollbars"]
        made = self.ask("", {"capabilities": {"alwaysMatch": {"browserName": "chrome", "goog:chromeOptions": {"args": words}}}})
        self.base += f"/{made['sessionId']}"
        self.ask("/timeouts", {"script": PATIENCE * 1000, "pageLoad": PATIENCE * 1000})

    def ask(self, path, words=None, method="POST"):
        body = None if words is None else json.dumps(words).encode()
        request = urllib.request.Request(self.base + path, body, {"Content-Type": "application/json"}, method=method)
        try:
            with urllib.request.urlopen(request, timeout=PATIENCE + 10) as answer:
                return json.load(answer)["value"]
        except urllib.error.HTTPError as fault:
            raise RuntimeError(f"{path}: {json.load(fault)['value']['message']}") from None

    def cdp(self, command, **words):
        return self.ask("/goog/cdp/execute", {"cmd": command, "params": words})

    def sized(self, width, height, is_phone=False):
        """Sets the size of the page, on a screen or on a phone."""
        self.cdp("Emulation.setDeviceMetricsOverride", width=width, height=height, deviceScaleFactor=1, mobile=is_phone)

    def open(self, address):
        self.ask("/url", {"url": address})

    def run(self, script, *words):
        """Runs the body of a JavaScript function in the page, and returns its result."""
        return self.ask("/execute/sync", {"script": script, "args": list(words)})

    def keys(self, text):
        """Presses keys one after another: a letter of the text for each. `ENTER` and the other names above stand for keys that type no letter."""
        pressed = [{"type": kind, "value": key} for key in text for kind in ("keyDown", "keyUp")]
        self.ask("/actions", {"actions": [{"type": "key", "id": "keyboard", "actions": pressed}]})

    def media(self, media):
        self.cdp("Emulation.setEmulatedMedia", media=media)

    def picture(self, path):
        pathlib.Path(path).write_bytes(base64.b64decode(self.ask("/screenshot", method="GET")))

    def paper(self):
        """The page printed on A4, as PDF. The driver's own command for this waits only ten seconds."""
        return base64.b64decode(self.cdp("Page.printToPDF", paperWidth=21.0 / 2.54, paperHeight=29.7 / 2.54)["data"])

    def close(self):
        try:
            self.ask("", method="DELETE")
        finally:
            self.driver.terminate()
            self.driver.wait()
            self.driver.stdout.close()
            self.folder.cleanup()
