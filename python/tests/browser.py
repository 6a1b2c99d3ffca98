"""A headless Chromium that tests drive, by its pipe for debugging: nothing but Python's standard library is needed."""

from __future__ import annotations

import base64
import json
import os
import shutil
import subprocess
import tempfile
import time
from pathlib import Path
from types import TracebackType
from typing import Any, Dict, List, Optional, Type

#: The browser, where there is one.
CHROMIUM = shutil.which("chromium") or shutil.which("chromium-browser")

#: Seconds that a page may take.
PATIENCE = 60.0


class Browser:
    """One page. Errors that it meets, and what it tries to fetch, are kept."""

    def __init__(self) -> None:
        assert CHROMIUM
        self._home = tempfile.TemporaryDirectory()
        own_read, their_write = os.pipe()
        their_read, own_write = os.pipe()

        def pipes() -> None:
            # The browser reads commands from 3, and writes answers to 4.
            os.dup2(their_read, 3)
            os.dup2(their_write, 4)
            os.set_inheritable(3, True)
            os.set_inheritable(4, True)

        options = ["--headless=new", "--no-sandbox", "--disable-gpu", "--disable-dev-shm-usage", "--remote-debugging-pipe", "--window-size=1400,1000"]
        self._process = subprocess.Popen(
            [CHROMIUM, *options, f"--user-data-dir={self._home.name}"],
            stdin=subprocess.DEVNULL,
            stdout=subprocess.DEVNULL,
            stderr=subprocess.DEVNULL,
            preexec_fn=pipes,
            close_fds=False,
        )
        os.close(their_read)
        os.close(their_write)
        self._read, self._write = os.fdopen(own_read, "rb", buffering=0), os.fdopen(own_write, "wb", buffering=0)
        self._held, self._number, self._session = b"", 0, ""
        self.errors: List[str] = []
        self.fetched: List[str] = []
        target = self._ask("Target.createTarget", url="about:blank")["targetId"]
        self._session = self._ask("Target.attachToTarget", targetId=target, flatten=True)["sessionId"]
        for domain in ["Page", "Runtime", "Network", "Log"]:
            self._ask(f"{domain}.enable")

    def __enter__(self) -> Browser:
        return self

    def __exit__(self, kind: Optional[Type[BaseException]], error: Optional[BaseException], trace: Optional[TracebackType]) -> None:
        self._process.terminate()
        try:
            self._process.wait(20)
        except subprocess.TimeoutExpired:
            self._process.kill()
            self._process.wait()
        self._read.close()
        self._write.close()
        # What its own children still write there goes a moment later.
        for _ in range(50):
            try:
                self._home.cleanup()
                return
            except OSError:
                time.sleep(0.1)

    def _message(self) -> Dict[str, Any]:
        while b"\0" not in self._held:
            piece = self._read.read(1 << 20)
            if not piece:
                raise OSError("the browser is gone")
            self._held += piece
        message, _, self._held = self._held.partition(b"\0")
        return dict(json.loads(message))

    def _ask(self, method: str, **given: Any) -> Dict[str, Any]:
        self._number += 1
        asked: Dict[str, Any] = {"id": self._number, "method": method, "params": given}
        if self._session:
            asked["sessionId"] = self._session
        self._write.write(json.dumps(asked).encode() + b"\0")
        while True:
            message = self._message()
            if message.get("id") == self._number:
                if "error" in message:
                    raise OSError(f"{method}: {message['error']}")
                return dict(message["result"])
            self._note(message)

    def _note(self, message: Dict[str, Any]) -> None:
        method, params = message.get("method"), message.get("params", {})
        if method == "Runtime.exceptionThrown":
            self.errors.append(json.dumps(params["exceptionDetails"]))
        elif method == "Log.entryAdded" and params["entry"]["level"] == "error":
            self.errors.append(params["entry"]["text"])
        elif method == "Network.requestWillBeSent":
            # What the browser draws its own controls with is no part of the page.
            if not params["request"]["url"].startswith("data:"):
                self.fetched.append(params["request"]["url"])

    def open(self, path: Path, fragment: str = "") -> None:
        """Loads a file, and waits until the page says that it is ready."""
        self._ask("Page.navigate", url="about:blank")
        self._ask("Page.navigate", url=path.as_uri() + fragment)
        self.wait("document.documentElement?.dataset.ready === 'yes'")

    def wait(self, condition: str) -> None:
        end = time.monotonic() + PATIENCE
        while not self.asked(condition):
            if time.monotonic() > end:
                raise TimeoutError(f"{condition}: {self.errors}")
            time.sleep(0.05)

    def asked(self, expression: str) -> Any:
        """What an expression of the page comes to."""
        found = self._ask("Runtime.evaluate", expression=expression, returnByValue=True, awaitPromise=True)
        if "exceptionDetails" in found:
            raise ValueError(json.dumps(found["exceptionDetails"]))
        return found["result"].get("value")

    def key(self, name: str) -> None:
        """Presses a key, as a keyboard does."""
        code = {"ArrowLeft": 37, "ArrowUp": 38, "ArrowRight": 39, "ArrowDown": 40, "Tab": 9, "Home": 36, "End": 35, " ": 32}[name]
        text = {"text": " "} if name == " " else {}
        for kind in ["keyDown" if text else "rawKeyDown", "keyUp"]:
            self._ask("Input.dispatchKeyEvent", type=kind, key=name, code=name, windowsVirtualKeyCode=code, **(text if kind == "keyDown" else {}))

    def click(self, selector: str, x: float, y: float) -> None:
        """Clicks at a place of an element, which is brought into view."""
        place = self.asked(
            f"(() => {{ const one = document.querySelector({json.dumps(selector)}); one.scrollIntoView({{block: 'center'}});"
            " const found = one.getBoundingClientRect(); return [found.left, found.top]; })()"
        )
        for kind in ["mousePressed", "mouseReleased"]:
            self._ask("Input.dispatchMouseEvent", type=kind, x=place[0] + x, y=place[1] + y, button="left", clickCount=1)

    def picture(self, path: Path, grey: bool = False) -> None:
        """What is seen, as a PNG."""
        if grey:
            self._ask("Emulation.setEmulatedVisionDeficiency", type="achromatopsia")
        shot = self._ask("Page.captureScreenshot", format="png")
        if grey:
            self._ask("Emulation.setEmulatedVisionDeficiency", type="none")
        path.write_bytes(base64.b64decode(shot["data"]))
