"""A headless Chromium that is driven by the DevTools protocol over a pipe, with the standard library alone. Part of
look_at_charts.py."""
import base64
import json
import os
import re
import select
import subprocess
import tempfile
import time


class Browser:
    """One browser with one page. `messages` has what the page complained of, `asked` the addresses that it asked for."""

    def __init__(self, program):
        to_read, self.write_end = os.pipe()
        self.read_end, to_write = os.pipe()
        self.folder = tempfile.TemporaryDirectory()
        arguments = [program, "--headless", "--no-sandbox", "--disable-gpu", "--hide-scrollbars",
                     "--remote-debugging-pipe", f"--user-data-dir={self.folder.name}", "about:blank"]
        # the browser reads its commands from descriptor 3, and writes its answers to 4
        self.process = subprocess.Popen(
            ["bash", "-c", f'exec 3<&{to_read} 4>&{to_write}; exec "$@"', "bash", *arguments],
            pass_fds=(to_read, to_write), stdout=subprocess.DEVNULL, stderr=subprocess.DEVNULL)
        os.close(to_read)
        os.close(to_write)
        self.rest = b""
        self.number = 0
        self.session = None
        self.loaded = False
        self.messages = []
        self.asked = []
        targets = self.call("Target.getTargets")["targetInfos"]
        target = next(t["targetId"] for t in targets if t["type"] == "page")
        self.session = self.call("Target.attachToTarget", targetId=target, flatten=True)["sessionId"]
        for domain in ("Page", "Runtime", "Network", "Log"):
            self.call(f"{domain}.enable")

    def call(self, method, **params):
        """One call of the protocol: its result."""
        self.number += 1
        message = {"id": self.number, "method": method, "params": params}
        if self.session:
            message["sessionId"] = self.session
        os.write(self.write_end, json.dumps(message).encode() + b"\0")
        while True:
            answer = self.next_message(20)
            if answer.get("id") == self.number:
                if "error" in answer:
                    raise RuntimeError(f"{method}: {answer['error']}")
                return answer["result"]

    def next_message(self, seconds):
        """The next answer or event; events are noted as they come."""
        until = time.monotonic() + seconds
        while b"\0" not in self.rest:
            ready, _, _ = select.select([self.read_end], [], [], max(0, until - time.monotonic()))
            if not ready:
                raise TimeoutError("the browser doesn't answer")
            piece = os.read(self.read_end, 1 << 16)
            if not piece:
                raise RuntimeError("the browser has ended")
            self.rest += piece
        one, self.rest = self.rest.split(b"\0", 1)
        message = json.loads(one)
        self.note(message)
        return message

    def note(self, message):
        params = message.get("params", {})
        match message.get("method"):
            case "Page.loadEventFired":
                self.loaded = True
            case "Runtime.exceptionThrown":
                self.messages.append(params["exceptionDetails"].get("text", "an exception"))
            case "Runtime.consoleAPICalled":
                self.messages.append(" ".join(str(a.get("value")) for a in params["args"]))
            case "Log.entryAdded":
                self.messages.append(params["entry"]["text"])
            case "Network.requestWillBeSent":
                self.asked.append(params["request"]["url"])

    def open(self, path, width, height, dark=False, fragment=""):
        """Opens a file, and waits until it is loaded."""
        self.messages, self.asked, self.loaded = [], [], False
        self.call("Emulation.setDeviceMetricsOverride", width=width, height=height, deviceScaleFactor=1, mobile=False)
        scheme = "dark" if dark else "light"
        self.call("Emulation.setEmulatedMedia", features=[{"name": "prefers-color-scheme", "value": scheme}])
        # a page that differs by its fragment alone isn't loaded again
        self.call("Page.navigate", url="about:blank")
        self.loaded = False
        self.call("Page.navigate", url=f"file://{os.path.abspath(path)}{fragment}")
        until = time.monotonic() + 20
        while not self.loaded or self.value("document.readyState") != "complete":
            if time.monotonic() > until:
                raise TimeoutError(f"{path} doesn't load")
            if not self.loaded:
                self.next_message(20)

    def value(self, expression):
        """What an expression of JavaScript gives on the page."""
        answer = self.call("Runtime.evaluate", expression=expression, returnByValue=True)
        if "exceptionDetails" in answer:
            raise RuntimeError(f"{expression}: {answer['exceptionDetails']['text']}")
        return answer["result"].get("value")

    def shoot(self, path):
        """A picture of the page as it stands in the window."""
        picture = self.call("Page.captureScreenshot", format="png")
        with open(path, "wb") as file:
            file.write(base64.b64decode(picture["data"]))

    def print_to(self, path):
        """The page on paper, as a PDF file; how many sheets it takes."""
        paper = base64.b64decode(self.call("Page.printToPDF", preferCSSPageSize=True)["data"])
        with open(path, "wb") as file:
            file.write(paper)
        return len(re.findall(rb"/Type\s*/Page\b", paper))

    def press(self, key, code):
        """A key of the keyboard, down and up."""
        for kind in ("keyDown", "keyUp"):
            self.call("Input.dispatchKeyEvent", type=kind, key=key, code=key, windowsVirtualKeyCode=code)

    def click(self, x, y):
        """A click of the mouse."""
        for kind in ("mousePressed", "mouseReleased"):
            self.call("Input.dispatchMouseEvent", type=kind, x=x, y=y, button="left", clickCount=1)

    def click_on(self, selector, part=0.5):
        """A click on an element, so far from its left edge to its right one."""
        box = self.value(f"(() => {{ const r = document.querySelector({json.dumps(selector)}).getBoundingClientRect();"
                         " return [r.left, r.width, r.top + r.height / 2]; })()")
        self.click(box[0] + box[1] * part, box[2])

    def close(self):
        """Ends the browser."""
        self.process.terminate()
        self.process.wait(20)
        os.close(self.write_end)
        os.close(self.read_end)
        self.folder.cleanup()
