"""Chromium without a window, driven by texts in JSON over two pipes: it opens pages, clicks with a
mouse and types, as a reader does."""
from __future__ import annotations

import json
import os
import select
import shutil
import signal
import tempfile
import time
from pathlib import Path
from types import TracebackType
from typing import Any, Optional


PATIENCE = 60.0  # seconds that the browser has for an answer
NAMES = ("chromium", "chromium-browser", "google-chrome")
# The middle of the first visible element that suits, once it is in view and nothing covers it
FIND = """(() => {
  for (const it of document.querySelectorAll(%s)) {
    if (!(%s)(it)) continue;
    it.scrollIntoView({block: "center", behavior: "instant"});
    for (const box of it.getClientRects()) {
      const x = box.x + box.width / 2, y = box.y + box.height / 2;
      const hit = document.elementFromPoint(x, y);
      if (hit && (it.contains(hit) || hit.contains(it))) return [x, y];
    }
  }
  return null;
})()"""


class BrowserFails(Exception):
    """The browser does not answer, or not as it should."""


def chromium() -> Optional[str]:
    """The program, if it is there."""
    return next((path for it in NAMES if (path := shutil.which(it))), None)


class Browser:
    """A browser with one page, from `with` to the end of its block."""

    def __init__(self, program: str) -> None:
        self.program, self.room = program, tempfile.mkdtemp(prefix="site-browser-")
        self.number, self.session, self.rest = 0, "", b""
        self.errors: list[str] = []  # what pages wrote on the console as errors

    def __enter__(self) -> Browser:
        theirs, self.output = (raised(it) for it in os.pipe())
        self.input, there = (raised(it) for it in os.pipe())
        null = [(os.POSIX_SPAWN_OPEN, it, "/dev/null", os.O_RDWR, 0) for it in (0, 1, 2)]
        words = [self.program, "--headless", "--no-sandbox", "--disable-gpu", "--no-first-run",
                 "--disable-dev-shm-usage", f"--user-data-dir={self.room}",
                 "--window-size=1200,900", "--remote-debugging-pipe", "about:blank"]
        self.process = os.posix_spawn(
            self.program, words, os.environ, setpgroup=0,
            file_actions=[*null, (os.POSIX_SPAWN_DUP2, theirs, 3), (os.POSIX_SPAWN_DUP2, there, 4)])
        os.close(theirs)
        os.close(there)
        try:
            self.begin()
        except (BrowserFails, OSError):
            self.__exit__(None, None, None)
            raise
        return self

    def begin(self) -> None:
        """Opens an empty page, whose texts are heard from now on."""
        target = self.ask("Target.createTarget", url="about:blank")["targetId"]
        self.session = self.ask("Target.attachToTarget", targetId=target, flatten=True)["sessionId"]
        for it in ("Page", "Runtime", "Log"):
            self.ask(f"{it}.enable")

    def __exit__(self, kind: Optional[type[BaseException]], value: Optional[BaseException],
                 trace: Optional[TracebackType]) -> None:
        os.close(self.output)
        os.close(self.input)
        os.killpg(self.process, signal.SIGKILL)
        os.waitpid(self.process, 0)
        shutil.rmtree(self.room, ignore_errors=True)

    def ask(self, method: str, **words: Any) -> dict[str, Any]:
        """The answer to a command."""
        self.number += 1
        asked: dict[str, Any] = {"id": self.number, "method": method, "params": words}
        if self.session:
            asked["sessionId"] = self.session
        os.write(self.output, json.dumps(asked).encode() + b"\0")
        until = time.monotonic() + PATIENCE
        while (said := self.hear(until)).get("id") != asked["id"]:
            self.note(said)
        if "error" in said:
            raise BrowserFails(f"{method}: {said['error'].get('message')}")
        return said.get("result", {})

    def hear(self, until: float) -> dict[str, Any]:
        """The next text from the browser."""
        while b"\0" not in self.rest:
            if not select.select([self.input], [], [], max(0.0, until - time.monotonic()))[0]:
                raise BrowserFails(f"no answer in {PATIENCE:.0f} s")
            more = os.read(self.input, 1 << 16)
            if not more:
                raise BrowserFails("it ended")
            self.rest += more
        text, _, self.rest = self.rest.partition(b"\0")
        return json.loads(text)

    def note(self, said: dict[str, Any]) -> None:
        """Keeps what a page wrote on the console as an error."""
        method, words = said.get("method"), said.get("params", {})
        if method == "Runtime.exceptionThrown":
            thrown = words["exceptionDetails"]
            self.errors.append(thrown.get("exception", {}).get("description", thrown["text"]))
        elif method == "Runtime.consoleAPICalled" and words["type"] in ("error", "assert"):
            self.errors.append(" ".join(str(it.get("value")) for it in words["args"]))
        elif method == "Log.entryAdded" and words["entry"]["level"] == "error":
            self.errors.append(words["entry"]["text"])

    def value(self, script: str) -> Any:
        """The value of a script on the page."""
        said = self.ask("Runtime.evaluate", expression=script, returnByValue=True)
        if "exceptionDetails" in said:
            raise BrowserFails(said["exceptionDetails"].get("text", "a script fails"))
        return said["result"].get("value")

    def wait_for(self, script: str, what: str, seconds: float = PATIENCE) -> None:
        """Waits until a script on a page is true, for at most `seconds` seconds."""
        until = time.monotonic() + seconds
        while True:
            try:
                if self.value(script):
                    return
            except BrowserFails:
                pass  # between two pages there is none
            if time.monotonic() > until:
                raise BrowserFails(f"{what} does not come")
            time.sleep(0.02)

    def open(self, url: str) -> None:
        """Opens a page and waits until its scripts have run."""
        self.ask("Page.navigate", url=url)
        self.wait_for(f"location.href === {json.dumps(url)} && document.readyState === 'complete'",
                      url)

    def click(self, selector: str, suits: str = "it => true") -> bool:
        """Clicks with the mouse on the first visible element that suits. False means that there is
        none."""
        place = self.value(FIND % (json.dumps(selector), suits))
        if place:
            for kind in ("mouseMoved", "mousePressed", "mouseReleased"):
                self.ask("Input.dispatchMouseEvent", type=kind, x=place[0], y=place[1],
                         button="none" if kind == "mouseMoved" else "left", clickCount=1)
        return bool(place)

    def type(self, text: str) -> None:
        """Presses the keys of a text, one by one."""
        for it in text:
            self.ask("Input.dispatchKeyEvent", type="keyDown", key=it, text=it)
            self.ask("Input.dispatchKeyEvent", type="keyUp", key=it)

    def press_enter(self) -> None:
        """Presses the key Enter."""
        words = {"key": "Enter", "code": "Enter", "windowsVirtualKeyCode": 13}
        self.ask("Input.dispatchKeyEvent", type="keyDown", text="\r", **words)
        self.ask("Input.dispatchKeyEvent", type="keyUp", **words)

    def picture(self, path: Path, width: int, height: int, is_dark: bool = False) -> None:
        """Writes what a window of this size shows of the page, light or dark."""
        import base64
        self.ask("Emulation.setDeviceMetricsOverride", width=width, height=height,
                 deviceScaleFactor=1, mobile=width < 600)
        scheme = {"name": "prefers-color-scheme", "value": "dark" if is_dark else "light"}
        self.ask("Emulation.setEmulatedMedia", features=[scheme])
        said = self.ask("Page.captureScreenshot", format="png")
        path.write_bytes(base64.b64decode(said["data"]))


def raised(number: int) -> int:
    """A file descriptor above those that the browser is to have."""
    import fcntl
    other = fcntl.fcntl(number, fcntl.F_DUPFD_CLOEXEC, 10)
    os.close(number)
    return other
