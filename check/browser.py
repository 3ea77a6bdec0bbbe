"""A browser (chromium, headless) that opens pages, presses keys and turns wheels, over the pipe of its devtools protocol."""
import base64
import json
import os
import shutil
import subprocess
import tempfile

KEYS = {"ArrowLeft": 37, "ArrowUp": 38, "ArrowRight": 39, "ArrowDown": 40, "Home": 36, "End": 35, "Enter": 13, "Escape": 27, "Tab": 9}
SHIFT = 8


def is_here():
    return shutil.which("chromium") is not None


class Browser:
    def __init__(self, width=1400, height=900):
        self.profile = tempfile.mkdtemp()
        to_read, self.to = os.pipe()
        self.back, from_write = os.pipe()
        words = ["chromium", "--headless=new", "--no-sandbox", "--disable-gpu", "--no-first-run", "--hide-scrollbars", f"--window-size={width},{height}",
                 f"--user-data-dir={self.profile}", "--remote-debugging-pipe", "about:blank"]
        self.process = subprocess.Popen(["sh", "-c", f'exec "$@" 3<&{to_read} 4>&{from_write}', "sh", *words], pass_fds=(to_read, from_write),
                                        stdout=subprocess.DEVNULL, stderr=subprocess.DEVNULL)
        os.close(to_read)
        os.close(from_write)
        self.number, self.rest, self.events, self.session, self.said = 0, b"", [], None, []
        target = self.ask("Target.createTarget", url="about:blank")["targetId"]
        self.session = self.ask("Target.attachToTarget", targetId=target, flatten=True)["sessionId"]
        for part in ("Page", "Runtime", "Log"): self.ask(part + ".enable")
        self.ask("Performance.enable", timeDomain="threadTicks")

    def __enter__(self):
        return self

    def __exit__(self, *_):
        self.process.kill()
        self.process.wait()
        os.close(self.to)
        os.close(self.back)
        shutil.rmtree(self.profile, ignore_errors=True)

    def read(self):
        """The next message of the browser; what it says in its console is kept."""
        while b"\0" not in self.rest:
            more = os.read(self.back, 1 << 20)
            if not more: raise SystemExit("the browser ended")
            self.rest += more
        first, self.rest = self.rest.split(b"\0", 1)
        message = json.loads(first)
        method, given = message.get("method"), message.get("params", {})
        if method == "Runtime.exceptionThrown": self.said.append(given["exceptionDetails"].get("exception", {}).get("description", "exception"))
        if method == "Runtime.consoleAPICalled" and given["type"] in ("error", "warning"): self.said.append(str(given["args"]))
        if method == "Log.entryAdded" and given["entry"]["level"] in ("error", "warning"): self.said.append(given["entry"]["text"])
        return message

    def ask(self, method, **given):
        self.number += 1
        message = {"id": self.number, "method": method, "params": given}
        if self.session: message["sessionId"] = self.session
        os.write(self.to, json.dumps(message).encode() + b"\0")
        while True:
            answer = self.read()
            if answer.get("id") == self.number:
                if "error" in answer: raise SystemExit(f"{method}: {answer['error']['message']}")
                return answer["result"]
            self.events.append(answer.get("method"))

    def load(self, address):
        self.events = []
        self.ask("Page.navigate", url=address)
        while "Page.loadEventFired" not in self.events: self.events.append(self.read().get("method"))

    def open(self, address):
        """Opens a page, and says after how many milliseconds it was shown; what the console says is kept from here on."""
        self.load("about:blank")
        self.said = []
        self.load(address)
        return self.value("new Promise((done) => requestAnimationFrame(() => setTimeout(() => done(performance.now()))))")

    def worked(self):
        """For how many seconds of processor time the page's thread has worked since the page was opened."""
        return next(one["value"] for one in self.ask("Performance.getMetrics")["metrics"] if one["name"] == "TaskDuration")

    def value(self, of):
        answer = self.ask("Runtime.evaluate", expression=of, returnByValue=True, awaitPromise=True)
        if "exceptionDetails" in answer: raise SystemExit(f"{of}: {answer['exceptionDetails'].get('exception', {}).get('description')}")
        return answer["result"].get("value")

    def press(self, key, times=1, modifiers=0):
        named = {"key": key, "modifiers": modifiers, "windowsVirtualKeyCode": KEYS.get(key, ord(key[0]) if len(key) == 1 else 0)}
        if len(key) == 1: named["text"] = key
        for _ in range(times):
            self.ask("Input.dispatchKeyEvent", type="keyDown", **named)
            self.ask("Input.dispatchKeyEvent", type="keyUp", **named)

    def mouse(self, kind, x, y, **more):
        self.ask("Input.dispatchMouseEvent", type=kind, x=x, y=y, **more)

    def wheel(self, x, y, by, times=1):
        for _ in range(times): self.mouse("mouseWheel", x, y, deltaX=0, deltaY=by)

    def click(self, x, y, modifiers=0):
        for kind in ("mousePressed", "mouseReleased"): self.mouse(kind, x, y, button="left", clickCount=1, modifiers=modifiers)

    def drag(self, x, y, by):
        self.mouse("mousePressed", x, y, button="left", clickCount=1)
        for part in range(1, 5): self.mouse("mouseMoved", x + by * part / 4, y, button="left", buttons=1)
        self.mouse("mouseReleased", x + by, y, button="left", clickCount=1)

    def picture(self, path):
        path.write_bytes(base64.b64decode(self.ask("Page.captureScreenshot", format="png")["data"]))

    def size(self, width, height):
        self.ask("Emulation.setDeviceMetricsOverride", width=width, height=height, deviceScaleFactor=1, mobile=False)

    def names(self):
        """The roles and names of all that can have the focus, as a screen reader says them."""
        nodes = self.ask("Accessibility.getFullAXTree")["nodes"]
        can = [node for node in nodes if any(one["name"] == "focusable" and one["value"].get("value") for one in node.get("properties", []))]
        return [(node["role"]["value"], node.get("name", {}).get("value", "")) for node in can]

    def media(self, scheme):
        self.ask("Emulation.setEmulatedMedia", features=[{"name": "prefers-color-scheme", "value": scheme}])
