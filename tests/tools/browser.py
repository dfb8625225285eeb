"""A real browser with one page in it, moved by its own remote protocol: Chromium by DevTools over a pipe, Firefox by
Marionette over a local socket. Both run without a network of their own making: what a page asks for is told."""
import json
import os
import shutil
import socket
import subprocess
import tempfile
import time
from collections.abc import Iterator
from contextlib import contextmanager, suppress
from pathlib import Path
from typing import Any

SECONDS = 600
"""What a page is given for anything."""

QUIET = ["--headless=new", "--no-sandbox", "--disable-gpu", "--no-first-run", "--disable-background-networking",
         "--disable-component-update", "--disable-sync", "--disable-dev-shm-usage", "--mute-audio"]


class Browser:
    """What both can do."""

    def open(self, url: str) -> None:
        """Shows the page of a URL."""
        raise NotImplementedError

    def choose(self, element: str, path: Path) -> None:
        """Gives a file to an element of the page."""
        raise NotImplementedError

    def run(self, script: str) -> Any:
        """The value of an expression in the page."""
        raise NotImplementedError

    def wait(self, expression: str, seconds: float = SECONDS) -> bool:
        """Whether an expression comes true."""
        end = time.monotonic() + seconds
        while time.monotonic() < end:
            if self.run(f"Boolean({expression})"):
                return True
            time.sleep(0.05)
        return False


class Chromium(Browser):
    def __init__(self, process: "subprocess.Popen[bytes]", to: int, by: int) -> None:
        self.process, self.to, self.by = process, to, by
        self.number, self.rest, self.session = 0, b"", ""
        self.events: list[dict[str, Any]] = []
        targets = self.call("Target.getTargets")["targetInfos"]
        page = next(target["targetId"] for target in targets if target["type"] == "page")
        self.session = self.call("Target.attachToTarget", targetId=page, flatten=True)["sessionId"]
        for domain in ("Page", "Runtime", "DOM", "Network", "Log"):
            self.call(f"{domain}.enable")

    def message(self) -> dict[str, Any]:
        while b"\0" not in self.rest:
            block = os.read(self.by, 1 << 20)
            if not block:
                raise RuntimeError("the browser has ended")
            self.rest += block
        text, _, self.rest = self.rest.partition(b"\0")
        said: dict[str, Any] = json.loads(text)
        return said

    def call(self, method: str, **parameters: object) -> Any:
        self.number += 1
        asked = {"id": self.number, "method": method, "params": parameters}
        if self.session:
            asked["sessionId"] = self.session
        os.write(self.to, json.dumps(asked).encode() + b"\0")
        while (said := self.message()).get("id") != self.number:
            self.events.append(said)
        if "error" in said:
            raise RuntimeError(f"{method}: {said['error']}")
        return said["result"]

    def open(self, url: str) -> None:
        self.call("Page.navigate", url=url)
        assert self.wait("document.readyState === 'complete' && document.getElementById('form')")

    def run(self, script: str) -> Any:
        said = self.call("Runtime.evaluate", expression=script, returnByValue=True, awaitPromise=True)
        if "exceptionDetails" in said:
            raise RuntimeError(json.dumps(said["exceptionDetails"])[:500])
        return said["result"].get("value")

    def choose(self, element: str, path: Path) -> None:
        found = self.call("DOM.querySelector", nodeId=self.call("DOM.getDocument")["root"]["nodeId"], selector=element)
        self.call("DOM.setFileInputFiles", nodeId=found["nodeId"], files=[str(path)])

    def drop(self, *paths: Path) -> None:
        """Files or folders let go over the page, as from a file manager."""
        data = {"items": [], "files": [str(path) for path in paths], "dragOperationsMask": 1}
        for kind in ("dragEnter", "dragOver", "drop"):
            self.call("Input.dispatchDragEvent", type=kind, x=100, y=100, data=data)

    def press(self, *keys: str) -> None:
        codes = {"Tab": 9, "Enter": 13, " ": 32}
        for key in keys:
            text = {"Enter": "\r", " ": " "}.get(key, "")
            for kind in ("keyDown", "keyUp"):
                self.call("Input.dispatchKeyEvent", type=kind, key=key, code="Space" if key == " " else key,
                          windowsVirtualKeyCode=codes[key], **({"text": text} if text and kind == "keyDown" else {}))

    def size(self, width: int, height: int, dark: bool = False) -> None:
        self.call("Emulation.setDeviceMetricsOverride", width=width, height=height, deviceScaleFactor=1, mobile=False)
        self.call("Emulation.setEmulatedMedia", features=[
            {"name": "prefers-color-scheme", "value": "dark" if dark else "light"}])

    def picture(self) -> bytes:
        import base64
        return base64.b64decode(self.call("Page.captureScreenshot", captureBeyondViewport=True)["data"])

    def asked_for(self) -> list[str]:
        """What the page had fetched, but itself and its worker."""
        requests = [event["params"]["request"]["url"] for event in self.events
                    if event.get("method") == "Network.requestWillBeSent"]
        return [url for url in requests if not url.startswith(("file:", "blob:"))]

    def complaints(self) -> list[str]:
        """Errors and broken policies that the browser told."""
        return [json.dumps(event["params"])[:400] for event in self.events
                if event.get("method") == "Runtime.exceptionThrown"
                or event.get("method") == "Log.entryAdded" and event["params"]["entry"]["level"] == "error"]


@contextmanager
def chromium() -> Iterator[Chromium]:
    """Chromium with an empty page."""
    theirs_in, ours_out = os.pipe()
    ours_in, theirs_out = os.pipe()
    with tempfile.TemporaryDirectory(prefix="ntpaudit-browser-", ignore_cleanup_errors=True) as home:
        command = f'exec "$0" "$@" 3<&{theirs_in} 4>&{theirs_out}'
        process = subprocess.Popen(
            ["bash", "-c", command, shutil.which("chromium") or "chromium", *QUIET, "--remote-debugging-pipe",
             f"--user-data-dir={home}", "about:blank"], pass_fds=(theirs_in, theirs_out), stdin=subprocess.DEVNULL,
            stdout=subprocess.DEVNULL, stderr=subprocess.DEVNULL, env={**os.environ, "HOME": home})
        for pipe in (theirs_in, theirs_out):
            os.close(pipe)
        try:
            yield Chromium(process, ours_out, ours_in)
        finally:
            process.terminate()
            with suppress(subprocess.TimeoutExpired):
                process.wait(10)
            process.kill()
            for pipe in (ours_out, ours_in):
                os.close(pipe)


class Firefox(Browser):
    def __init__(self, port: int) -> None:
        end = time.monotonic() + SECONDS
        while True:
            try:
                self.socket = socket.create_connection(("127.0.0.1", port), SECONDS)
                break
            except OSError:
                if time.monotonic() > end:
                    raise
                time.sleep(0.2)
        self.number, self.rest = 0, b""
        self.message()
        self.call("WebDriver:NewSession", capabilities={"alwaysMatch": {}})

    def message(self) -> Any:
        while b":" not in self.rest or len(self.rest.partition(b":")[2]) < int(self.rest.partition(b":")[0]):
            block = self.socket.recv(1 << 20)
            if not block:
                raise RuntimeError("the browser has ended")
            self.rest += block
        size, _, behind = self.rest.partition(b":")
        self.rest = behind[int(size):]
        return json.loads(behind[:int(size)])

    def call(self, method: str, **parameters: object) -> Any:
        self.number += 1
        text = json.dumps([0, self.number, method, parameters]).encode()
        self.socket.sendall(f"{len(text)}:".encode() + text)
        _, _, error, result = self.message()
        if error:
            raise RuntimeError(f"{method}: {error}")
        return result["value"] if isinstance(result, dict) and set(result) == {"value"} else result

    def open(self, url: str) -> None:
        self.call("WebDriver:Navigate", url=url)

    def run(self, script: str) -> Any:
        return self.call("WebDriver:ExecuteScript", script=f"return ({script});", args=[])

    def choose(self, element: str, path: Path) -> None:
        found = self.call("WebDriver:FindElement", using="css selector", value=element)
        self.call("WebDriver:ElementSendKeys", id=next(iter(found.values())), text=str(path))


@contextmanager
def firefox() -> Iterator[Firefox]:
    """Firefox with an empty page."""
    with socket.socket() as free:
        free.bind(("127.0.0.1", 0))
        port = free.getsockname()[1]
    with tempfile.TemporaryDirectory(prefix="ntpaudit-browser-", ignore_cleanup_errors=True) as home:
        Path(home, "user.js").write_text(f'user_pref("marionette.port", {port});\n'
                                         'user_pref("browser.shell.checkDefaultBrowser", false);\n')
        process = subprocess.Popen(["firefox-esr", "--headless", "--marionette", "--profile", home, "about:blank"],
                                   stdin=subprocess.DEVNULL, stdout=subprocess.DEVNULL, stderr=subprocess.DEVNULL,
                                   env={**os.environ, "HOME": home, "MOZ_HEADLESS": "1"})
        try:
            yield Firefox(port)
        finally:
            process.terminate()
            with suppress(subprocess.TimeoutExpired):
                process.wait(10)
            process.kill()
