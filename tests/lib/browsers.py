"""Headless browsers, as tests/web drives them: Chromium by its own protocol over two pipes, Firefox by Marionette over a socket.

Both open a page, run a script in it, click, type keys, choose from a list and take a picture, as a person's mouse and keys would.
"""
import base64
import json
import os
import pathlib
import shutil
import socket
import subprocess
import tempfile
import time

# How the keys are called that are no letters: by Chromium with their numbers, and by Firefox.
KEYS = {
    "Enter": (13, "\ue007"),
    "Tab": (9, "\ue004"),
    "Delete": (46, "\ue017"),
    "ArrowRight": (39, "\ue014"),
    "ArrowUp": (38, "\ue013"),
    "ArrowDown": (40, "\ue015"),
}
CONTROL = "\ue009"
SECONDS = 120


def named(names):
    """The first of these programs that is there, or None."""
    return next((found for name in names if (found := shutil.which(name))), None)


class Browser:
    """What the two share. `home` is a folder for the browser's own files."""

    def __init__(self):
        self.home = tempfile.mkdtemp(prefix="confine-web-")
        self.number = 0

    def end(self):
        self.process.kill()
        self.process.wait()
        shutil.rmtree(self.home, ignore_errors=True)

    def wait_for(self, condition, seconds=SECONDS):
        """Waits until an expression of the page is true."""
        until = time.monotonic() + seconds
        while not self.run(f"return Boolean({condition})"):
            if time.monotonic() > until:
                raise TimeoutError(f"it never came: {condition}")
            time.sleep(0.02)


class Chromium(Browser):
    name = "Chromium"
    program = named(["chromium", "chromium-browser", "google-chrome"])

    def __init__(self):
        super().__init__()
        to_browser, self.to = os.pipe()
        self.back, from_browser = os.pipe()
        words = [self.program, "--headless=new", "--remote-debugging-pipe", f"--user-data-dir={self.home}", "--disable-gpu"]
        words += ["--no-sandbox"] if os.geteuid() == 0 else []
        # It reads from its file 3, and writes to its file 4.
        plumbed = ["sh", "-c", f'exec 3<&{to_browser} 4>&{from_browser}; exec "$@"', "sh", *words, "about:blank"]
        how = {"stdin": subprocess.DEVNULL, "stdout": subprocess.DEVNULL, "stderr": subprocess.DEVNULL}
        self.process = subprocess.Popen(plumbed, pass_fds=(to_browser, from_browser), **how)
        os.close(to_browser)
        os.close(from_browser)
        self.rest = b""
        self.session = None
        pages = [it for it in self.ask("Target.getTargets")["targetInfos"] if it["type"] == "page"]
        self.session = self.ask("Target.attachToTarget", targetId=pages[0]["targetId"], flatten=True)["sessionId"]
        self.show(1300, 900)

    def ask(self, method, **parameters):
        self.number += 1
        said = {"id": self.number, "method": method, "params": parameters}
        said |= {"sessionId": self.session} if self.session else {}
        self.write(json.dumps(said).encode() + b"\0")
        while True:
            answer = json.loads(self.read())
            if answer.get("id") == self.number:
                if "error" in answer:
                    raise RuntimeError(f"{method}: {answer['error']['message']}")
                return answer["result"]

    def write(self, data):
        while data:
            data = data[os.write(self.to, data) :]

    def read(self):
        while b"\0" not in self.rest:
            more = os.read(self.back, 1 << 20)
            if not more:
                raise RuntimeError("Chromium has ended")
            self.rest += more
        said, _, self.rest = self.rest.partition(b"\0")
        return said

    def show(self, width, height, dark=False):
        self.ask("Emulation.setDeviceMetricsOverride", width=width, height=height, deviceScaleFactor=1, mobile=False)
        scheme = {"name": "prefers-color-scheme", "value": "dark" if dark else "light"}
        self.ask("Emulation.setEmulatedMedia", features=[scheme])

    def open(self, address):
        self.ask("Page.navigate", url=address)
        self.wait_for("document.readyState === 'complete'")

    def run(self, script):
        how = {"awaitPromise": True, "returnByValue": True}
        answer = self.ask("Runtime.evaluate", expression=f"(async () => {{ {script} }})()", **how)
        if "exceptionDetails" in answer:
            raise RuntimeError(answer["exceptionDetails"].get("exception", {}).get("description", "an exception"))
        return answer["result"].get("value")

    def click(self, selector):
        place = self.run(f"""
            const found = document.querySelector({json.dumps(selector)});
            found.scrollIntoView({{ block: "center" }});
            const box = found.getBoundingClientRect();
            return [box.x + box.width / 2, box.y + box.height / 2];""")
        for kind in ("mousePressed", "mouseReleased"):
            self.ask("Input.dispatchMouseEvent", type=kind, x=place[0], y=place[1], button="left", clickCount=1)

    def key(self, name, control=False):
        how = {"key": name, "code": name, "windowsVirtualKeyCode": KEYS[name][0], "modifiers": 2 if control else 0}
        how |= {"text": "\r"} if name == "Enter" and not control else {}
        self.ask("Input.dispatchKeyEvent", type="keyDown", **how)
        self.ask("Input.dispatchKeyEvent", type="keyUp", **how)

    def type(self, text):
        self.ask("Input.insertText", text=text)

    def choose(self, selector, name):
        steps = self.run(f"""
            const list = document.querySelector({json.dumps(selector)});
            list.focus();
            return [...list.options].findIndex((option) => option.value === {json.dumps(name)}) - list.selectedIndex;""")
        for _ in range(abs(steps)):
            self.key("ArrowDown" if steps > 0 else "ArrowUp")

    def picture(self, file):
        height = self.run("return document.documentElement.scrollHeight")
        width = self.run("return innerWidth")
        clip = {"x": 0, "y": 0, "width": width, "height": height, "scale": 1}
        data = self.ask("Page.captureScreenshot", captureBeyondViewport=True, clip=clip)["data"]
        pathlib.Path(file).write_bytes(base64.b64decode(data))


class Firefox(Browser):
    name = "Firefox"
    program = named(["firefox-esr", "firefox"])

    def __init__(self):
        super().__init__()
        (pathlib.Path(self.home) / "user.js").write_text('user_pref("marionette.port", 0);\n')
        words = [self.program, "--headless", "--marionette", "--no-remote", "--profile", self.home, "--width", "1300", "--height", "900"]
        how = {"stdin": subprocess.DEVNULL, "stdout": subprocess.DEVNULL, "stderr": subprocess.DEVNULL}
        self.process = subprocess.Popen([*words, "about:blank"], env={**os.environ, "HOME": self.home, "MOZ_HEADLESS": "1"}, **how)
        port = pathlib.Path(self.home) / "MarionetteActivePort"
        until = time.monotonic() + SECONDS
        while not (port.exists() and port.read_text()):
            if time.monotonic() > until or self.process.poll() is not None:
                raise RuntimeError("Firefox doesn't start")
            time.sleep(0.05)
        self.socket = socket.create_connection(("127.0.0.1", int(port.read_text())))
        self.rest = b""
        self.read()
        self.ask("WebDriver:NewSession", capabilities={"alwaysMatch": {"timeouts": {"script": SECONDS * 1000}}})

    def ask(self, method, **parameters):
        self.number += 1
        said = json.dumps([0, self.number, method, parameters]).encode()
        self.socket.sendall(b"%d:%s" % (len(said), said))
        _, _, error, result = json.loads(self.read())
        if error:
            raise RuntimeError(f"{method}: {error['message']}")
        return result

    def read(self):
        while b":" not in self.rest:
            self.rest += self.more()
        length, _, self.rest = self.rest.partition(b":")
        while len(self.rest) < int(length):
            self.rest += self.more()
        said, self.rest = self.rest[: int(length)], self.rest[int(length) :]
        return said

    def more(self):
        more = self.socket.recv(1 << 20)
        if not more:
            raise RuntimeError("Firefox has ended")
        return more

    def show(self, width, height, dark=False):
        self.ask("WebDriver:SetWindowRect", width=width, height=height)

    def open(self, address):
        self.ask("WebDriver:Navigate", url=address)

    def run(self, script):
        whole = f"""
            const done = arguments[arguments.length - 1];
            (async () => {{ {script} }})().then((value) => done({{ value }}), (error) => done({{ error: String(error) }}));"""
        answer = self.ask("WebDriver:ExecuteAsyncScript", script=whole, args=[], sandbox=None)["value"]
        if "error" in answer:
            raise RuntimeError(answer["error"])
        return answer.get("value")

    def found(self, selector):
        return next(iter(self.ask("WebDriver:FindElement", using="css selector", value=selector)["value"].values()))

    def click(self, selector):
        self.run(f"document.querySelector({json.dumps(selector)}).scrollIntoView({{ block: 'center' }})")
        self.ask("WebDriver:ElementClick", id=self.found(selector))

    def send(self, keys):
        focused = next(iter(self.ask("WebDriver:GetActiveElement").values()))
        focused = next(iter(focused.values())) if isinstance(focused, dict) else focused
        self.ask("WebDriver:ElementSendKeys", id=focused, text=keys)

    def key(self, name, control=False):
        self.send((CONTROL if control else "") + KEYS[name][1])

    def type(self, text):
        self.send(text.replace("\n", KEYS["Enter"][1]))

    def choose(self, selector, name):
        self.click(f'{selector} option[value="{name}"]')

    def picture(self, file):
        data = self.ask("WebDriver:TakeScreenshot", full=True)["value"]
        pathlib.Path(file).write_bytes(base64.b64decode(data))


BROWSERS = [Chromium, Firefox]
