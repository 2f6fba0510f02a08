"""A browser without a window, driven over the pipe of the DevTools protocol."""
import base64
import contextlib
import itertools
import json
import os
import shutil
import subprocess
import tempfile
from collections.abc import Iterator
from pathlib import Path
from typing import Any

PROGRAM = shutil.which("chromium") or shutil.which("google-chrome")
# The pipe's two ends have these numbers in the browser.
READS, WRITES = 3, 4
OPTIONS = (
    "--headless=new",
    "--remote-debugging-pipe",
    "--no-sandbox",
    "--disable-gpu",
    "--hide-scrollbars",
    "--no-first-run",
    "about:blank",
)


class Tab:
    """A page of the browser. What the page says on its console is kept."""

    def __init__(self, to_browser: int, from_browser: int):
        self._out = to_browser
        self._in = os.fdopen(from_browser, "rb", closefd=False)
        self._numbers = itertools.count(1)
        self._session: dict[str, str] = {}
        self.said: list[str] = []
        self.events: list[str] = []
        targets = self.call("Target.getTargets")["targetInfos"]
        target = next(it["targetId"] for it in targets if it["type"] == "page")
        attached = self.call("Target.attachToTarget", targetId=target, flatten=True)
        self._session = {"sessionId": attached["sessionId"]}
        for domain in ("Page", "Runtime", "Log"):
            self.call(f"{domain}.enable")

    def call(self, method: str, **params: Any) -> dict[str, Any]:
        number = next(self._numbers)
        said = {"id": number, "method": method, "params": params, **self._session}
        os.write(self._out, json.dumps(said).encode() + b"\0")
        while True:
            reply = self._next()
            if reply.get("id") == number:
                if "error" in reply:
                    raise RuntimeError(f"{method}: {reply['error']}")
                return reply["result"]

    def _next(self) -> dict[str, Any]:
        data = bytearray()
        while (byte := self._in.read(1)) != b"\0":
            if not byte:
                raise RuntimeError("the browser has ended")
            data += byte
        said = json.loads(data)
        self.events.append(said.get("method", ""))
        if said.get("method") == "Runtime.exceptionThrown":
            self.said.append(json.dumps(said["params"]["exceptionDetails"]))
        if said.get("method") == "Log.entryAdded":
            self.said.append(said["params"]["entry"]["text"])
        return said

    def open(self, url: str) -> None:
        self.events.clear()
        self.call("Page.navigate", url=url)
        self.wait_for_load()

    def wait_for_load(self) -> None:
        while "Page.loadEventFired" not in self.events:
            self._next()

    def value(self, script: str) -> Any:
        """The value of an expression in the page."""
        said = self.call("Runtime.evaluate", expression=script, returnByValue=True)
        if "exceptionDetails" in said:
            raise RuntimeError(said["exceptionDetails"]["text"])
        return said["result"].get("value")

    def text(self, selector: str) -> str:
        return self.value(f"document.querySelector({json.dumps(selector)}).innerText")

    def click(self, selector: str) -> None:
        """Clicks with the mouse in the middle of an element, whatever lies on top there."""
        element = f"document.querySelector({json.dumps(selector)})"
        self.value(f"{element}.scrollIntoView()")
        box = self.value(f"JSON.parse(JSON.stringify({element}.getBoundingClientRect()))")
        at = {"x": box["x"] + box["width"] / 2, "y": box["y"] + box["height"] / 2}
        for kind in ("mousePressed", "mouseReleased"):
            self.call("Input.dispatchMouseEvent", type=kind, button="left", clickCount=1, **at)

    def click_link(self, selector: str) -> None:
        """Clicks on what leads to another page, and waits for it."""
        self.events.clear()
        self.click(selector)
        self.wait_for_load()

    def type(self, selector: str, text: str) -> None:
        """Types in a field, in place of what is there."""
        field = f"document.querySelector({json.dumps(selector)})"
        self.value(f"{field}.select(), {field}.focus()")
        self.call("Input.insertText", text=text)

    def resize(self, width: int, height: int) -> None:
        size = {"width": width, "height": height, "deviceScaleFactor": 1, "mobile": False}
        self.call("Emulation.setDeviceMetricsOverride", **size)

    def picture(self, path: Path) -> None:
        """Writes what is seen as PNG."""
        data = self.call("Page.captureScreenshot", format="png")["data"]
        path.write_bytes(base64.b64decode(data))


@contextlib.contextmanager
def browser() -> Iterator[Tab]:
    """A tab of a browser, which ends with the context."""
    assert PROGRAM
    theirs_in, ours_out = os.pipe()
    ours_in, theirs_out = os.pipe()
    with tempfile.TemporaryDirectory(ignore_cleanup_errors=True) as folder:
        # a shell gives the pipe the numbers that the browser looks for
        joined = f'exec "$0" "$@" {READS}<&{theirs_in} {WRITES}>&{theirs_out}'
        child = subprocess.Popen(
            ["bash", "-c", joined, PROGRAM, f"--user-data-dir={folder}", *OPTIONS],
            pass_fds=(theirs_in, theirs_out),
            stdout=subprocess.DEVNULL,
            stderr=subprocess.DEVNULL,
        )
        os.close(theirs_in)
        os.close(theirs_out)
        try:
            yield Tab(ours_out, ours_in)
        finally:
            child.kill()
            child.wait()
            os.close(ours_out)
            os.close(ours_in)
