"""A browser without a window, Chromium with its driver, asked by WebDriver over HTTP."""
import base64
import json
import os
import shutil
import socket
import subprocess
import tempfile
import time
import urllib.error
import urllib.request
from collections.abc import Callable
from typing import Any

# The timeout of each request, in seconds. Only a request that fails takes as long.
PATIENCE = 300

ELEMENT = "element-6066-11e4-a52e-4f735466cecf"
SHIFT_KEYS = {"Enter": "\ue007", "Backspace": "\ue003", "Tab": "\ue004", "Escape": "\ue00c", "ArrowLeft": "\ue012",
              "ArrowUp": "\ue013", "ArrowRight": "\ue014", "ArrowDown": "\ue015", "F6": "\ue036", "F7": "\ue037", "F8": "\ue038",
              "F9": "\ue039"}


def missing() -> list[str]:
    """What a browser lacks here; nothing where it is installed."""
    programs = [("chromium", "chromium-browser", "google-chrome"), ("chromedriver",)]
    return [names[0] for names in programs if not any(map(shutil.which, names))]


class Browser:
    """One browser with one window, of a size."""

    def __init__(self) -> None:
        """Starts the browser. Tries it three times."""
        self.asking = urllib.request.build_opener(urllib.request.ProxyHandler({}))
        for tries in (1, 2, 3):
            try:
                self.begin()
                break
            except (OSError, ValueError):
                self.close()
                if tries == 3:
                    raise

    def begin(self) -> None:
        """Starts the driver, and the browser as soon as the driver answers."""
        with socket.socket() as free:
            free.bind(("127.0.0.1", 0))
            self.port = free.getsockname()[1]
        self.session = ""
        self.driver = subprocess.Popen(["chromedriver", f"--port={self.port}"], stdout=subprocess.DEVNULL, stderr=subprocess.DEVNULL)
        end = time.monotonic() + PATIENCE
        while not self.answers():
            if self.driver.poll() is not None or time.monotonic() > end:
                raise TimeoutError("chromedriver does not answer")
            time.sleep(0.05)
        arguments = ["--headless=new", "--no-sandbox", "--disable-gpu", "--disable-dev-shm-usage", "--window-size=1280,900",
                     "--force-device-scale-factor=1", "--disable-background-timer-throttling", "--disable-renderer-backgrounding",
                     "--disable-backgrounding-occluded-windows"]
        wanted = {"browserName": "chrome", "goog:chromeOptions": {"args": arguments}, "goog:loggingPrefs": {"browser": "ALL"},
                  "timeouts": {"script": PATIENCE * 1000, "pageLoad": PATIENCE * 1000}}
        self.session = "/session/" + self.ask("POST", "/session", {"capabilities": {"alwaysMatch": wanted}})["sessionId"]

    def answers(self) -> bool:
        """Whether the driver answers."""
        try:
            return bool(self.ask("GET", "/status")["ready"])
        except OSError:
            return False

    def ask(self, method: str, path: str, body: object = None) -> Any:
        """What the driver answers."""
        data = None if body is None else json.dumps(body).encode()
        request = urllib.request.Request(f"http://127.0.0.1:{self.port}{self.session}{path}", data, {"Content-Type": "application/json"},
                                         method=method)
        try:
            with self.asking.open(request, timeout=2 * PATIENCE) as reply:
                return json.load(reply)["value"]
        except urllib.error.HTTPError as error:
            raise ValueError(json.load(error)["value"]["message"].splitlines()[0]) from error

    def open(self, address: str) -> None:
        """Opens an address."""
        self.ask("POST", "/url", {"url": address})

    def reload(self) -> None:
        """Loads the page again."""
        self.ask("POST", "/refresh", {})

    def run(self, script: str, *words: object) -> Any:
        """What a script answers, or the promise that it answers."""
        return self.ask("POST", "/execute/sync", {"script": script, "args": list(words)})

    def until(self, script: str, is_wanted: Callable[[Any], bool] = bool) -> Any:
        """What a script answers as soon as it is what is wanted, which is something at all; else its last answer."""
        end = time.monotonic() + PATIENCE
        while not is_wanted(found := self.run(script)) and time.monotonic() < end:
            time.sleep(0.02)
        return found

    def click(self, selector: str) -> None:
        """A click of the mouse in the middle of an element, as soon as it can be clicked there."""
        end = time.monotonic() + PATIENCE
        while True:
            try:
                element = self.ask("POST", "/element", {"using": "css selector", "value": selector})
                self.ask("POST", f"/element/{element[ELEMENT]}/click", {})
                break
            except ValueError:
                if time.monotonic() > end:
                    raise
            time.sleep(0.02)

    def saved(self, selector: str, name: str) -> bytes:
        """The bytes of the file of this name that a click on a link saves."""
        with tempfile.TemporaryDirectory() as room:
            self.tell("Browser.setDownloadBehavior", {"behavior": "allow", "downloadPath": room})
            self.click(selector)
            end = time.monotonic() + PATIENCE
            while not os.path.exists(f"{room}/{name}") and time.monotonic() < end:
                time.sleep(0.02)
            with open(f"{room}/{name}", "rb") as file:
                return file.read()

    def type(self, *keys: str) -> None:
        """Keys of the computer's keyboard, each pressed and released."""
        actions = [{"type": kind, "value": SHIFT_KEYS.get(key, key)} for key in keys for kind in ("keyDown", "keyUp")]
        self.ask("POST", "/actions", {"actions": [{"type": "key", "id": "keyboard", "actions": actions}]})

    def look(self, width: int, height: int, is_dark: bool = False) -> None:
        """Sets the size of the page, and whether it is dark."""
        self.tell("Emulation.setDeviceMetricsOverride", {"width": width, "height": height, "deviceScaleFactor": 1, "mobile": False})
        scheme = {"name": "prefers-color-scheme", "value": "dark" if is_dark else "light"}
        self.tell("Emulation.setEmulatedMedia", {"features": [scheme]})

    def tell(self, command: str, words: Any) -> Any:
        """A command of the DevTools."""
        return self.ask("POST", "/goog/cdp/execute", {"cmd": command, "params": words})

    def picture(self) -> bytes:
        """The page as it is seen, a PNG."""
        return base64.b64decode(self.ask("GET", "/screenshot"))

    def complaints(self) -> list[str]:
        """What the browser has complained of."""
        log = self.ask("POST", "/se/log", {"type": "browser"})
        return [entry["message"] for entry in log if entry["level"] in ("WARNING", "SEVERE")]

    def close(self) -> None:
        """Ends the browser and its driver."""
        try:
            if self.session:
                self.ask("DELETE", "")
        except (OSError, ValueError):
            pass
        self.session = ""
        self.driver.terminate()
        self.driver.wait()
