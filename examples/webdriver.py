"""A headless Chromium, by the protocol of W3C WebDriver (Debian's chromium and chromium-driver); and a headless Firefox, by
its own protocol Marionette, which needs no driver (Debian's firefox-esr)."""
import base64
import json
import pathlib
import shutil
import socket
import subprocess
import tempfile
import time
import urllib.error
import urllib.request

ELEMENT = "element-6066-11e4-a52e-4f735466cecf"


class Browser:
    def __init__(self, wide=1500, tall=1000, dark=False):
        with socket.socket() as free:
            free.bind(("127.0.0.1", 0))
            port = free.getsockname()[1]
        self.driver = subprocess.Popen([shutil.which("chromedriver"), f"--port={port}"], stdout=subprocess.DEVNULL, stderr=subprocess.DEVNULL)
        self.base = f"http://127.0.0.1:{port}"
        words = ["--headless=new", "--no-sandbox", "--disable-gpu", f"--window-size={wide},{tall}"]
        words += ["--blink-settings=preferredColorScheme=0"] if dark else []
        options = {"args": words, "binary": shutil.which("chromium")}
        wanted = {"browserName": "chrome", "goog:chromeOptions": options, "goog:loggingPrefs": {"browser": "ALL"}}
        for _ in range(100):
            try:
                made = self.call("POST", "/session", {"capabilities": {"alwaysMatch": wanted}})
                break
            except OSError:
                time.sleep(0.1)
        self.base += f"/session/{made['sessionId']}"

    def call(self, method, path, body=None):
        sent = json.dumps(body).encode() if body is not None else None
        request = urllib.request.Request(self.base + path, data=sent, method=method, headers={"Content-Type": "application/json"})
        try:
            with urllib.request.urlopen(request, timeout=300) as answer:
                return json.load(answer)["value"]
        except urllib.error.HTTPError as error:
            raise RuntimeError(f"{path}: {error.read().decode()[:600]}") from None

    def open(self, address):
        self.call("POST", "/url", {"url": address})

    def run(self, script, *words):
        return self.call("POST", "/execute/sync", {"script": script, "args": list(words)})

    def find(self, selector):
        return self.call("POST", "/element", {"using": "css selector", "value": selector})[ELEMENT]

    def click(self, selector, button=0):
        self.run("document.querySelector(arguments[0]).scrollIntoView({ block: 'nearest' })", selector)
        move = {"type": "pointerMove", "duration": 0, "origin": {ELEMENT: self.find(selector)}, "x": 0, "y": 0}
        steps = [move, {"type": "pointerDown", "button": button}, {"type": "pointerUp", "button": button}]
        self.call("POST", "/actions", {"actions": [{"type": "pointer", "id": "mouse", "actions": steps}]})

    def keys(self, text):
        steps = [{"type": kind, "value": letter} for letter in text for kind in ("keyDown", "keyUp")]
        self.call("POST", "/actions", {"actions": [{"type": "key", "id": "keys", "actions": steps}]})

    def type(self, selector, text):
        self.call("POST", f"/element/{self.find(selector)}/value", {"text": text})

    def wait(self, script, seconds=60):
        """Until the script gives something true."""
        end = time.monotonic() + seconds
        while time.monotonic() < end:
            found = self.run(script)
            if found:
                return found
            time.sleep(0.02)
        raise RuntimeError(f"nothing came: {script}\n{self.run('return document.body.innerText')[:1500]}\n{self.log()}")

    def shot(self, file):
        pathlib.Path(file).write_bytes(base64.b64decode(self.call("GET", "/screenshot")))

    def log(self):
        return [line["message"] for line in self.call("POST", "/se/log", {"type": "browser"})]

    def close(self):
        try:
            self.call("DELETE", "")
        finally:
            self.driver.terminate()
            self.driver.wait()


# The commands of Marionette for the ends of the addresses of WebDriver.
MARIONETTE = {"url": "Navigate", "sync": "ExecuteScript", "element": "FindElement", "actions": "PerformActions", "screenshot": "TakeScreenshot"}

# Runs a script of the page's own, since a driver's cannot see the names that the page declares; the page's policy allows it.
INSIDE = """
const [script, words] = arguments, e = document.createElement("script"), root = document.documentElement;
e.textContent = `try { document.documentElement.dataset.driven = JSON.stringify({ value: (function () { ${script} }).apply(null, ${JSON.stringify(words)}) }); }
  catch (error) { document.documentElement.dataset.driven = JSON.stringify({ error: String(error) }); }`;
(document.head || root).append(e);
e.remove();
const driven = root.dataset.driven;
delete root.dataset.driven;
return driven;
"""


class Firefox(Browser):
    def __init__(self, wide=1500, tall=1000, dark=False):
        self.profile, self.last = tempfile.TemporaryDirectory(ignore_cleanup_errors=True), 0
        with socket.socket() as free:
            free.bind(("127.0.0.1", 0))
            port = free.getsockname()[1]
        (pathlib.Path(self.profile.name) / "user.js").write_text(f'user_pref("marionette.port", {port});\n')
        words = [shutil.which("firefox-esr"), "--headless", "--marionette", "--profile", self.profile.name, f"--width={wide}", f"--height={tall}"]
        self.driver = subprocess.Popen(words, stdout=subprocess.DEVNULL, stderr=subprocess.DEVNULL)
        for _ in range(300):
            try:
                self.line = socket.create_connection(("127.0.0.1", port), timeout=300).makefile("rwb")
                break
            except OSError:
                time.sleep(0.1)
        self.heard()
        self.asked("NewSession", {"capabilities": {"alwaysMatch": {"unhandledPromptBehavior": "dismiss"}}})

    def heard(self):
        size = b""
        while (byte := self.line.read(1)) not in (b":", b""):
            size += byte
        return json.loads(self.line.read(int(size)))

    def asked(self, command, words):
        self.last += 1
        sent = json.dumps([0, self.last, f"WebDriver:{command}", words]).encode()
        self.line.write(f"{len(sent)}:".encode() + sent)
        self.line.flush()
        _, _, error, answer = self.heard()
        if error:
            raise RuntimeError(f"{command}: {error}")
        return answer.get("value") if isinstance(answer, dict) else answer

    def call(self, method, path, body=None):
        end = path.rsplit("/", 1)[-1]
        if end == "value":
            return self.asked("ElementSendKeys", {"id": path.split("/")[2], **body})
        return self.asked(MARIONETTE[end], {"full": False} if end == "screenshot" else body)

    def run(self, script, *words):
        said = json.loads(super().run(INSIDE, script, words))
        if "error" in said:
            raise RuntimeError(f"{script}: {said['error']}")
        return said.get("value")

    def log(self):
        return []

    def close(self):
        self.asked("DeleteSession", {})
        self.line.close()
        self.driver.terminate()
        self.driver.wait()
        self.profile.cleanup()
