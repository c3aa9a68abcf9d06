"""Drives a headless Firefox by its Marionette protocol, or WebKitGTK, the engine of Safari, by WebKitWebDriver: both
take the commands of W3C WebDriver. It is no tool itself."""
from __future__ import annotations

import json
import os
import shutil
import signal
import socket
import subprocess
import tempfile
import time
import unittest
import urllib.error
import urllib.request
from typing import Any, Sequence

from pxplanes.errors import Trouble

SECONDS = 60
SCRIPT = "const done = arguments[arguments.length - 1]; (async () => (%s))().then(value => done([value]), error => done([null, String(error)]));"
KEYS = {"Backspace": "\ue003", "Tab": "\ue004", "Enter": "\ue007", "Escape": "\ue00c", "End": "\ue010", "Home": "\ue011", "ArrowLeft": "\ue012",
        "ArrowUp": "\ue013", "ArrowRight": "\ue014", "ArrowDown": "\ue015", "Delete": "\ue017"}
MODIFIERS = {1: "\ue00a", 2: "\ue009", 4: "\ue03d", 8: "\ue008"}


def free_port() -> int:
    with socket.create_server(("127.0.0.1", 0)) as free:
        return int(free.getsockname()[1])


class Driven:
    """A browser with one page; its profile is thrown away at the end."""

    NAMES: Sequence[str] = ()

    def __init__(self, dark: bool = False) -> None:
        names = [shutil.which(name) for name in self.NAMES]
        self.program = next((name for name in names if name), None)
        if self.program is None:
            raise Trouble("there is no %s" % self.NAMES[0])
        self.folder = tempfile.TemporaryDirectory(prefix="px-browser-", ignore_cleanup_errors=True)
        self.environment = dict(os.environ, HOME=self.folder.name)
        self.log = os.path.join(self.folder.name, "log")
        self.processes: list[subprocess.Popen[bytes]] = []
        self.rest, self.number = b"", 0
        self.begin(free_port())
        self.command("timeouts", script=1000 * SECONDS)

    def begin(self, port: int) -> None:
        """Starts the browser and a session."""
        raise NotImplementedError

    def command(self, name: str, **words: Any) -> Any:
        """The value that a command of WebDriver answers."""
        raise NotImplementedError

    def started(self, *words: str, pass_fds: Sequence[int] = ()) -> subprocess.Popen[bytes]:
        with open(self.log, "ab") as log:
            process = subprocess.Popen(words, stdin=subprocess.DEVNULL, stdout=log, stderr=log, env=self.environment,
                                       start_new_session=True, pass_fds=pass_fds)
        self.processes.append(process)
        self.pid = self.processes[0].pid
        return process

    def __enter__(self) -> Driven:
        return self

    def __exit__(self, *error: object) -> None:
        for process in reversed(self.processes):
            os.killpg(process.pid, signal.SIGTERM)
            process.wait()
        self.folder.cleanup()

    def call(self, method: str, **words: Any) -> Any:
        raise unittest.SkipTest("only Chromium has %s" % method)

    def open(self, address: str) -> None:
        self.command("url", url=address)

    def run(self, script: str) -> Any:
        """The value of an expression in the page; a promise is awaited."""
        value = self.command("execute/async", script=SCRIPT % script, args=[])
        if len(value) > 1:
            raise Trouble("%s: %s" % (script[:80], value[1]))
        return value[0]

    def until(self, script: str, seconds: float = SECONDS) -> Any:
        """Waits until an expression in the page is true, and gives its value; while the page is made it may fail."""
        end = time.monotonic() + seconds
        while time.monotonic() < end:
            try:
                value = self.run(script)
            except Trouble:
                value = None
            if value:
                return value
            time.sleep(0.05)
        raise Trouble("in %d seconds it did not come: %s" % (seconds, script))

    def size(self, width: int, height: int, dark: bool = False) -> None:
        """Gives the page a size in pixels, without what is around it."""
        if dark:
            raise unittest.SkipTest("WebDriver has no dark")
        around = self.run("[outerWidth - innerWidth, outerHeight - innerHeight]")
        self.command("window/rect", x=0, y=0, width=width + around[0], height=height + around[1])
        self.until("innerWidth === %d && innerHeight === %d" % (width, height))

    def act(self, kind: str, *actions: dict[str, Any]) -> None:
        self.command("actions", actions=[{"type": kind, "id": kind, "actions": list(actions)}])

    def press(self, key: str, code: int | None = None, modifiers: int = 0) -> None:
        """A key, pressed and let go: one letter, or a name as ArrowLeft."""
        held = [value for bit, value in MODIFIERS.items() if modifiers & bit] + [KEYS.get(key, key)]
        self.act("key", *({"type": "keyDown", "value": value} for value in held), *({"type": "keyUp", "value": value} for value in reversed(held)))

    def type(self, text: str) -> None:
        self.run("document.execCommand('insertText', false, %s)" % json.dumps(text))

    def point(self, x: float, y: float, click: bool = False) -> None:
        self.act("pointer", {"type": "pointerMove", "x": int(x), "y": int(y)},
                 *({"type": kind, "button": 0} for kind in ("pointerDown", "pointerUp") if click))

    def forget(self) -> None:
        """Drops the faults that there were."""
        os.truncate(self.log, 0)

    def faults(self) -> list[str]:
        """What the browser's log says of errors in the page; Firefox logs none."""
        with open(self.log, encoding="utf-8", errors="replace") as log:
            return [line.strip() for line in log if line.startswith("CONSOLE") and " ERROR " in line]


class Firefox(Driven):
    NAMES = ("firefox-esr", "firefox")
    COMMANDS = {"url": "Navigate", "execute/async": "ExecuteAsyncScript", "window/rect": "SetWindowRect", "actions": "PerformActions",
                "timeouts": "SetTimeouts", "session": "NewSession"}

    def begin(self, port: int) -> None:
        with open(os.path.join(self.folder.name, "user.js"), "w") as file:
            file.write('user_pref("marionette.port", %d);\n' % port)
        process = self.started(str(self.program), "--headless", "--no-remote", "--marionette", "--profile", self.folder.name)
        self.plain = self.connected(port, process)
        self.message()
        self.command("session")

    def __exit__(self, *error: object) -> None:
        self.plain.close()
        super().__exit__(*error)

    def connected(self, port: int, process: subprocess.Popen[bytes]) -> socket.socket:
        end = time.monotonic() + SECONDS
        while time.monotonic() < end and process.poll() is None:
            try:
                plain = socket.create_connection(("127.0.0.1", port), 10)
                plain.settimeout(2 * SECONDS)
                return plain
            except OSError:
                time.sleep(0.1)
        raise Trouble("firefox does not answer")

    def message(self) -> Any:
        """The next message: its length, a colon, and JSON."""
        while b":" not in self.rest:
            self.rest += self.received()
        length, self.rest = self.rest.split(b":", 1)
        while len(self.rest) < int(length):
            self.rest += self.received()
        text, self.rest = self.rest[:int(length)], self.rest[int(length):]
        return json.loads(text)

    def received(self) -> bytes:
        part = self.plain.recv(1 << 16)
        if not part:
            raise Trouble("the browser ended")
        return part

    def command(self, name: str, **words: Any) -> Any:
        self.number += 1
        text = json.dumps([0, self.number, "WebDriver:" + self.COMMANDS[name], words]).encode()
        self.plain.sendall(b"%d:%s" % (len(text), text))
        _, _, error, result = self.message()
        if error:
            raise Trouble("%s: %s" % (name, error.get("message")))
        return result.get("value")


class WebKit(Driven):
    """MiniBrowser, on a display of its own by Xvfb."""
    NAMES = ("WebKitWebDriver",)
    MINI = "/usr/lib/x86_64-linux-gnu/webkit2gtk-4.1/MiniBrowser"
    WORDS = ("--automation", "--enable-write-console-messages-to-stdout=true")

    def begin(self, port: int) -> None:
        to_read, to_write = os.pipe()
        self.started("Xvfb", "-displayfd", str(to_write), "-screen", "0", "2400x2400x24", "-nolisten", "tcp", pass_fds=[to_write])
        os.close(to_write)
        with os.fdopen(to_read) as number:
            self.environment["DISPLAY"] = ":" + number.readline().strip()
        self.started(str(self.program), "--port=%d" % port)
        self.address = "http://127.0.0.1:%d/session" % port
        options = {"binary": self.MINI, "args": list(self.WORDS)}
        end = time.monotonic() + SECONDS
        while not hasattr(self, "session"):
            try:
                self.session = self.asked(self.address, {"capabilities": {"alwaysMatch": {"webkitgtk:browserOptions": options}}})["sessionId"]
            except urllib.error.URLError:
                if time.monotonic() > end:
                    raise Trouble("WebKitWebDriver does not answer") from None
                time.sleep(0.1)

    def asked(self, address: str, words: dict[str, Any]) -> Any:
        request = urllib.request.Request(address, json.dumps(words).encode(), {"Content-Type": "application/json"})
        try:
            with urllib.request.urlopen(request, timeout=2 * SECONDS) as answer:
                return json.load(answer)["value"]
        except urllib.error.HTTPError as error:
            raise Trouble("%s: %s" % (address.rpartition("/")[2], json.load(error)["value"].get("message"))) from None

    def command(self, name: str, **words: Any) -> Any:
        return self.asked("%s/%s/%s" % (self.address, self.session, name), words)
