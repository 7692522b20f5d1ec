"""A headless Chromium, told what to do over a pipe."""

from __future__ import annotations

import base64
import json
import os
import select
import shutil
import subprocess
import tempfile
import time
from pathlib import Path
from typing import Any, Optional

CHROMIUM = shutil.which("chromium") or shutil.which("chromium-browser") or shutil.which("google-chrome")
PATIENCE = 120.0
"""Seconds that a browser on a busy machine may take for an answer."""


class Browser:
    """One page at a time. What its console says and what it asks of the network is kept."""

    def __init__(self, wide: int = 1200, high: int = 900) -> None:
        assert CHROMIUM is not None
        self.room = tempfile.TemporaryDirectory()
        theirs_in, self.write_end = os.pipe()
        self.read_end, theirs_out = os.pipe()
        words = [CHROMIUM, "--headless", "--no-sandbox", "--remote-debugging-pipe", "--hide-scrollbars",
                 "--use-angle=swiftshader", "--enable-unsafe-swiftshader", "--no-first-run", "--disable-extensions",
                 f"--user-data-dir={self.room.name}", f"--window-size={wide},{high}", "about:blank"]
        # A browser talks over the streams 3 and 4.
        line = f'exec "$@" 3<&{theirs_in} 4>&{theirs_out}'
        self.process = subprocess.Popen(["sh", "-c", line, "sh", *words], pass_fds=(theirs_in, theirs_out),
                                        stdout=subprocess.DEVNULL, stderr=subprocess.DEVNULL)
        os.close(theirs_in)
        os.close(theirs_out)
        self.count, self.rest = 0, b""
        self.events: list[dict[str, Any]] = []
        self.session: Optional[str] = None
        targets = self.ask("Target.getTargets")["targetInfos"]
        page = next(it["targetId"] for it in targets if it["type"] == "page")
        self.session = self.ask("Target.attachToTarget", targetId=page, flatten=True)["sessionId"]
        for domain in ("Page", "Runtime", "Log", "Network"):
            self.ask(f"{domain}.enable")
        self.ask("Emulation.setDeviceMetricsOverride", width=wide, height=high, deviceScaleFactor=1, mobile=False)

    def ask(self, method: str, **given: Any) -> dict[str, Any]:
        """The answer to a command of the protocol."""
        self.count += 1
        told: dict[str, Any] = {"id": self.count, "method": method, "params": given}
        if self.session is not None:
            told["sessionId"] = self.session
        os.write(self.write_end, json.dumps(told).encode() + b"\0")
        until = time.monotonic() + PATIENCE
        while True:
            answer = self._next(until)
            if answer.get("id") == self.count:
                if "error" in answer:
                    raise RuntimeError(f"{method}: {answer['error']}")
                result: dict[str, Any] = answer["result"]
                return result
            self.events.append(answer)

    def _next(self, until: float) -> dict[str, Any]:
        while b"\0" not in self.rest:
            if not select.select([self.read_end], [], [], max(0.0, until - time.monotonic()))[0]:
                raise TimeoutError("the browser does not answer")
            some = os.read(self.read_end, 1 << 20)
            if not some:
                raise RuntimeError("the browser has ended")
            self.rest += some
        message, _, self.rest = self.rest.partition(b"\0")
        told: dict[str, Any] = json.loads(message)
        return told

    def open(self, path: Path, address: str = "") -> None:
        """Opens a file, and waits until it is shown."""
        self.events.clear()
        self.ask("Page.navigate", url="about:blank")
        self.ask("Page.navigate", url=path.as_uri() + address)
        self.wait_for(f"document.readyState === 'complete' && location.href.startsWith({path.as_uri()!r})")
        self.settle()

    def wait_for(self, what: str) -> None:
        until = time.monotonic() + PATIENCE
        while not self.value(what):
            if time.monotonic() > until:
                raise TimeoutError(what)
            time.sleep(0.02)

    def settle(self) -> None:
        """Waits until what was changed is drawn."""
        self.value("new Promise((done) => requestAnimationFrame(() => requestAnimationFrame(() => done(true))))")

    def value(self, what: str) -> Any:
        """What JavaScript makes of an expression in the page."""
        told = self.ask("Runtime.evaluate", expression=what, returnByValue=True, awaitPromise=True)
        if "exceptionDetails" in told:
            raise RuntimeError(f"{what}: {told['exceptionDetails']}")
        return told["result"].get("value")

    def mouse(self, kind: str, x: float, y: float, **more: Any) -> None:
        self.ask("Input.dispatchMouseEvent", type=kind, x=x, y=y, **more)

    def click(self, x: float, y: float) -> None:
        self.mouse("mousePressed", x, y, button="left", buttons=1, clickCount=1)
        self.mouse("mouseReleased", x, y, button="left", clickCount=1)
        self.settle()

    def drag(self, x: float, y: float, across: float, down: float) -> None:
        self.mouse("mousePressed", x, y, button="left", buttons=1, clickCount=1)
        for part in (0.3, 0.6, 1.0):
            self.mouse("mouseMoved", x + part * across, y + part * down, button="left", buttons=1)
        self.mouse("mouseReleased", x + across, y + down, button="left", clickCount=1)
        self.settle()

    def key(self, key: str) -> None:
        text = {"text": key} if len(key) == 1 else {}
        self.ask("Input.dispatchKeyEvent", type="keyDown", key=key, **text)
        self.ask("Input.dispatchKeyEvent", type="keyUp", key=key)
        self.settle()

    def box(self, which: str) -> dict[str, float]:
        """Where an element is shown, in pixels of the window."""
        box: dict[str, float] = self.value(
            f"(() => {{ const box = document.querySelector({which!r}).getBoundingClientRect();"
            " return { x: box.x, y: box.y, wide: box.width, high: box.height }; })()")
        return box

    def picture(self) -> bytes:
        """What is shown, as PNG."""
        return base64.b64decode(self.ask("Page.captureScreenshot", format="png")["data"])

    def said(self) -> list[str]:
        """What the console has, and all that was asked of the network but the page itself."""
        self.value("1")
        found = []
        for it in self.events:
            told = it.get("params", {})
            if it.get("method") in ("Runtime.consoleAPICalled", "Runtime.exceptionThrown", "Log.entryAdded"):
                found.append(json.dumps(told)[:500])
            if it.get("method") == "Network.requestWillBeSent":
                url = told["request"]["url"]
                if not url.startswith(("data:", "about:")) and told.get("type") != "Document":
                    found.append(f"asked for {url}")
        return found

    def close(self) -> None:
        self.session = None
        try:
            self.ask("Browser.close")
            self.process.wait(20)
        except (OSError, RuntimeError, TimeoutError, subprocess.TimeoutExpired):
            self.process.kill()
            self.process.wait()
        os.close(self.write_end)
        os.close(self.read_end)
        try:
            self.room.cleanup()
        except OSError:
            # It may write there while it ends.
            shutil.rmtree(self.room.name, ignore_errors=True)
