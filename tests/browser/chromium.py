"""A headless Chromium, driven by its DevTools protocol through a pipe, with the standard library alone."""

import base64
import json
import os
import select
import shutil
import subprocess
import tempfile
import time

PROGRAMS = ("chromium", "chromium-browser", "google-chrome")
# An answer, or what is waited for, that doesn't come in so many seconds never comes, whatever else the machine does.
PATIENCE = 600
KEYS = {
    "Enter": (13, "\r"), "Escape": (27, ""), "Tab": (9, ""), "Home": (36, ""), "End": (35, ""), "Backspace": (8, ""),
    "ArrowLeft": (37, ""), "ArrowRight": (39, ""), "ArrowUp": (38, ""), "ArrowDown": (40, ""), ".": (190, "."),
}  # fmt: skip


def program():
    """The path of a browser, or None."""
    return next(filter(None, map(shutil.which, PROGRAMS)), None)


class Browser:
    """A browser without a window. As a context manager it leaves no process and no file behind."""

    def __init__(self, *words):
        self._folder = tempfile.mkdtemp(prefix="helgrothy-chromium-")
        asked, self._asks = os.pipe()
        self._told, telling = os.pipe()
        # The protocol goes through the files 3 and 4, and a browser as root has no sandbox.
        shell = f"exec 3<&{asked} 4>&{telling}; exec \"$@\""
        command = [program(), "--headless=new", "--remote-debugging-pipe", f"--user-data-dir={self._folder}",
                   "--disable-gpu", "--no-first-run", "--disable-background-networking", "--force-color-profile=srgb",
                   *(["--no-sandbox"] if os.getuid() == 0 else []), *words]  # fmt: skip
        self._process = subprocess.Popen(
            ["/bin/sh", "-c", shell, "sh", *command], pass_fds=[asked, telling], stdin=subprocess.DEVNULL,
            stdout=subprocess.DEVNULL, stderr=subprocess.DEVNULL, start_new_session=True,
        )  # fmt: skip
        os.close(asked)
        os.close(telling)
        self._rest = b""
        self._number = 0

    def __enter__(self):
        return self

    def __exit__(self, *_):
        for end in (self._asks, self._told):
            os.close(end)
        try:
            self._process.wait(5)
        except subprocess.TimeoutExpired:
            os.killpg(self._process.pid, 9)
            self._process.wait()
        shutil.rmtree(self._folder, ignore_errors=True)

    def tab(self):
        """A new tab."""
        target = self.call("Target.createTarget", url="about:blank")["targetId"]
        session = self.call("Target.attachToTarget", targetId=target, flatten=True)["sessionId"]
        return Tab(self, target, session)

    def call(self, method, session=None, heard=None, **given):
        """What the browser answers. Raises `RuntimeError` where it refuses. What it tells meanwhile is `heard`."""
        self._number += 1
        ask = {"id": self._number, "method": method, "params": given, **({"sessionId": session} if session else {})}
        os.write(self._asks, json.dumps(ask).encode() + b"\0")
        while True:
            told = self._next()
            if told.get("id") == self._number:
                if "error" in told:
                    raise RuntimeError(f"{method}: {told['error']['message']}")
                return told["result"]
            if heard is not None and "method" in told:
                heard.append(told)

    def _next(self):
        deadline = time.monotonic() + PATIENCE
        while b"\0" not in self._rest:
            if not select.select([self._told], [], [], max(deadline - time.monotonic(), 0))[0]:
                raise RuntimeError("the browser gives no answer")
            chunk = os.read(self._told, 1 << 20)
            if not chunk:
                raise RuntimeError("the browser has ended")
            self._rest += chunk
        line, _, self._rest = self._rest.partition(b"\0")
        return json.loads(line)


class Tab:
    """A tab: goes to addresses, types, presses, and says what is shown. `heard` is what the browser told of it."""

    def __init__(self, browser, target, session):
        self._browser = browser
        self._target = target
        self._session = session
        self.heard = []
        for part in ("Page", "Runtime", "Log", "Network"):
            self.call(f"{part}.enable")
        self.call("Performance.enable", timeDomain="threadTicks")
        self.call("Page.addScriptToEvaluateOnNewDocument", source=WATCH)

    def call(self, method, **given):
        return self._browser.call(method, self._session, self.heard, **given)

    def close(self):
        self._browser.call("Target.closeTarget", heard=self.heard, targetId=self._target)

    def go(self, address):
        """Goes to an address, and waits until it is loaded."""
        self.call("Page.navigate", url=address)
        self.wait("document.readyState === 'complete' && location.href !== 'about:blank'")

    def value(self, expression):
        """What an expression of the page is worth."""
        told = self.call("Runtime.evaluate", expression=expression, returnByValue=True, awaitPromise=True)
        if "exceptionDetails" in told:
            raise RuntimeError(f"{expression}: {told['exceptionDetails'].get('exception', {}).get('description')}")
        return told["result"].get("value")

    def wait(self, expression):
        """Waits until an expression holds."""
        deadline = time.monotonic() + PATIENCE
        while not self.value(f"Boolean({expression})"):
            if time.monotonic() > deadline:
                raise RuntimeError(f"it never came to {expression}")
            time.sleep(0.05)

    def press(self, key, ctrl=False):
        """Presses a key and lets it go."""
        code, text = KEYS.get(key, (ord(key.upper()) if len(key) == 1 else 0, key if len(key) == 1 else ""))
        how = {"key": key, "windowsVirtualKeyCode": code, "modifiers": 2 if ctrl else 0}
        self.call("Input.dispatchKeyEvent", type="keyDown", **how, **({"text": text} if text and not ctrl else {}))
        self.call("Input.dispatchKeyEvent", type="keyUp", **how)

    def type(self, text):
        """Types a text, as a whole, where the cursor is."""
        self.call("Input.insertText", text=text)

    def click(self, selector):
        """Clicks the middle of the first element that a selector finds, and again where that has moved meanwhile."""
        element = f"document.querySelector({json.dumps(selector)})"
        deadline = time.monotonic() + PATIENCE
        heard = f"{element}.addEventListener('click', () => window.hit = true, {{capture: true, once: true}})"
        self.value(f"window.hit = false; {heard}")
        while not self.value("window.hit"):
            if time.monotonic() > deadline:
                raise RuntimeError(f"no click came to {selector}")
            self.value(f"{element}.scrollIntoView({{block: 'center'}})")
            x, y = self.value(
                f"(() => {{ const b = {element}.getBoundingClientRect();"
                " return [b.x + b.width / 2, b.y + b.height / 2]; })()"
            )
            for kind in ("mousePressed", "mouseReleased"):
                self.call("Input.dispatchMouseEvent", type=kind, x=x, y=y, button="left", clickCount=1)

    def text(self, selector):
        """What is to be read in an element."""
        return self.value(f"document.querySelector({json.dumps(selector)}).innerText")

    def worked(self):
        """The seconds of a processor that the page's own thread has taken since its address was gone to."""
        return next(it["value"] for it in self.call("Performance.getMetrics")["metrics"] if it["name"] == "TaskDuration")

    def is_shown(self, selector):
        return self.value(f"document.querySelector({json.dumps(selector)}).checkVisibility()")

    def size(self, width, height, scale=1):
        self.call(
            "Emulation.setDeviceMetricsOverride", width=width, height=height, deviceScaleFactor=scale, mobile=False
        )

    def media(self, media="", **features):
        """The page as it is for a medium, such as print, and for features, such as prefers_color_scheme."""
        told = [{"name": name.replace("_", "-"), "value": value} for name, value in features.items()]
        self.call("Emulation.setEmulatedMedia", media=media, features=told)

    def screenshot(self, path):
        with open(path, "wb") as file:
            file.write(base64.b64decode(self.call("Page.captureScreenshot", format="png")["data"]))

    def complaints(self):
        """What the browser has told of errors, of what a policy refused, and of dialogs."""
        self.value("1")
        found = []
        for told in self.heard:
            what, more = told["method"], told.get("params", {})
            if what == "Runtime.exceptionThrown":
                found.append(more["exceptionDetails"].get("exception", {}).get("description", "an exception"))
            elif what == "Log.entryAdded" and more["entry"]["level"] == "error":
                found.append(more["entry"]["text"])
            elif what in ("Page.javascriptDialogOpening", "Page.windowOpen"):
                found.append(what)
        return [*found, *self.value("window.refused || []")]

    def asked(self):
        """The addresses that were asked for."""
        return [it["params"]["request"]["url"] for it in self.heard if it["method"] == "Network.requestWillBeSent"]


# Told before a page's own script: what its policy refuses is kept.
WATCH = """
window.refused = [];
document.addEventListener("securitypolicyviolation", (it) => window.refused.push(`${it.violatedDirective} ${it.blockedURI}`));
"""
