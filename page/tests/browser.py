"""Drives a headless Chromium by its DevTools protocol, over a pair of pipes: what the cases of the studio look by. It
is no tool itself."""
from __future__ import annotations

import base64
import json
import os
import shutil
import subprocess
import tempfile
import time
from typing import Any

from pxplanes.errors import Trouble

NAMES = ("chromium", "chromium-browser", "google-chrome")
WORDS = ("--headless=new", "--remote-debugging-pipe", "--no-sandbox", "--disable-gpu", "--no-first-run", "--disable-extensions",
         "--disable-background-networking", "--hide-scrollbars", "--force-color-profile=srgb", "--font-render-hinting=none")
SECONDS = 30


class Failed(Trouble):
    """An expression failed in the page."""


class Browser:
    """A browser with one page, of a size in pixels; its profile is thrown away at the end."""

    def __init__(self, width: int = 1280, height: int = 720, dark: bool = False) -> None:
        name = next((found for found in map(shutil.which, NAMES) if found), None)
        if name is None:
            raise Trouble("there is no chromium")
        self.folder = tempfile.TemporaryDirectory(prefix="px-browser-", ignore_cleanup_errors=True)
        to_read, to_write = os.pipe(), os.pipe()

        def plumbed() -> None:
            os.dup2(os.dup(to_read[0]), 3)
            os.dup2(to_write[1], 4)

        words = [name, *WORDS, "--user-data-dir=" + self.folder.name, "--window-size=%d,%d" % (width, height), "about:blank"]
        ends = {to_read[0], to_write[1]}
        os.set_inheritable(to_read[0], True)
        os.set_inheritable(to_write[1], True)
        self.process = subprocess.Popen(words, stdin=subprocess.DEVNULL, stdout=subprocess.DEVNULL, stderr=subprocess.DEVNULL,
                                        pass_fds=sorted(ends | {3, 4}), preexec_fn=plumbed, start_new_session=True)
        self.pid = self.process.pid
        for end in ends:
            os.close(end)
        self.out, self.into = os.fdopen(to_read[1], "wb", 0), os.fdopen(to_write[0], "rb", 0)
        self.rest, self.number = b"", 0
        self.session: str | None = None
        self.events: list[dict[str, Any]] = []
        self.begin()
        self.size(width, height, dark)

    def begin(self) -> None:
        """Goes on with a new page."""
        self.session = None
        target = self.call("Target.createTarget", url="about:blank")["targetId"]
        self.session = self.call("Target.attachToTarget", targetId=target, flatten=True)["sessionId"]
        self.call("Page.enable")
        self.call("Runtime.enable")

    def crash(self) -> None:
        """Has the page crash, and goes on with a new one."""
        self.send("Page.crash", {})
        self.begin()

    def __enter__(self) -> Browser:
        return self

    def __exit__(self, *error: object) -> None:
        try:
            self.session = None
            self.call("Browser.close")
            self.process.wait(5)
        except (Trouble, OSError, subprocess.TimeoutExpired):
            self.process.kill()
            self.process.wait()
        self.out.close()
        self.into.close()
        self.folder.cleanup()

    def size(self, width: int, height: int, dark: bool = False) -> None:
        self.call("Emulation.setDeviceMetricsOverride", width=width, height=height, deviceScaleFactor=1, mobile=False)
        self.call("Emulation.setEmulatedMedia", features=[{"name": "prefers-color-scheme", "value": "dark" if dark else "light"}])

    def send(self, method: str, words: dict[str, Any]) -> None:
        self.number += 1
        message = {"id": self.number, "method": method, "params": words}
        if self.session:
            message["sessionId"] = self.session
        self.out.write(json.dumps(message).encode() + b"\0")

    def call(self, method: str, **words: Any) -> dict[str, Any]:
        """The result of a call of the protocol."""
        self.send(method, words)
        while True:
            answer = self.message()
            if answer.get("id") == self.number:
                if "error" in answer:
                    raise Trouble("%s: %s" % (method, answer["error"]["message"]))
                result: dict[str, Any] = answer["result"]
                return result
            self.events.append(answer)

    def message(self) -> dict[str, Any]:
        while b"\0" not in self.rest:
            part = os.read(self.into.fileno(), 1 << 16)
            if not part:
                raise Trouble("the browser ended")
            self.rest += part
        text, self.rest = self.rest.split(b"\0", 1)
        message: dict[str, Any] = json.loads(text)
        return message

    def open(self, address: str) -> None:
        self.call("Page.navigate", url=address)

    def run(self, script: str) -> Any:
        """The value of an expression in the page; a promise is awaited."""
        found = self.call("Runtime.evaluate", expression=script, awaitPromise=True, returnByValue=True)
        if "exceptionDetails" in found:
            details = found["exceptionDetails"]
            raise Failed("%s: %s" % (script[:80], details.get("exception", {}).get("description", details["text"])))
        return found["result"].get("value")

    def until(self, script: str, seconds: float = SECONDS) -> Any:
        """Waits until an expression in the page is true, and gives its value; while the page is made it may fail."""
        end = time.monotonic() + seconds
        while time.monotonic() < end:
            try:
                value = self.run(script)
            except Failed:
                value = None
            if value:
                return value
            time.sleep(0.02)
        raise Trouble("in %d seconds it did not come: %s" % (seconds, script))

    def type(self, text: str) -> None:
        self.call("Input.insertText", text=text)

    def press(self, key: str, code: int | None = None, modifiers: int = 0) -> None:
        """A key, pressed and let go: one letter, or a name as ArrowLeft."""
        words = {"key": key, "modifiers": modifiers, **({"text": key} if len(key) == 1 and not modifiers & 2 else {}), **({"windowsVirtualKeyCode": code} if code else {})}
        self.call("Input.dispatchKeyEvent", type="keyDown", **words)
        self.call("Input.dispatchKeyEvent", type="keyUp", **words)

    def point(self, x: float, y: float, click: bool = False) -> None:
        self.call("Input.dispatchMouseEvent", type="mouseMoved", x=x, y=y)
        if click:
            for kind in ("mousePressed", "mouseReleased"):
                self.call("Input.dispatchMouseEvent", type=kind, x=x, y=y, button="left", clickCount=1)

    def screenshot(self, path: str) -> None:
        with open(path, "wb") as file:
            file.write(base64.b64decode(self.call("Page.captureScreenshot", format="png")["data"]))

    def forget(self) -> None:
        """Drops the faults that there were."""
        self.events.clear()

    def faults(self) -> list[str]:
        """What went wrong in the page: exceptions, and errors that it wrote."""
        found = []
        for event in self.events:
            if event.get("method") == "Runtime.exceptionThrown":
                details = event["params"]["exceptionDetails"]
                found.append(details.get("exception", {}).get("description", details["text"]).split("\n")[0])
            if event.get("method") == "Runtime.consoleAPICalled" and event["params"]["type"] == "error":
                found.append(" ".join(str(each.get("value", each.get("description"))) for each in event["params"]["args"]))
        return found
