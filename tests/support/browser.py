"""A page in a browser without a window: in Chromium, spoken to by its DevTools protocol over two pipes, or in Firefox.
Both classes have the same methods: become, load, leave, script, press, insert, click_at, touch, choose_file, faults,
picture, end."""
from __future__ import annotations

import base64
import json
import os
import select
import shutil
import subprocess
import tempfile
from typing import Any

from support.firefox import Firefox  # noqa: F401
from support.waiting import LEFT, SILENCE, Gone, Waiting

# What keys have beside their names.
CODES = {
    "Backspace": 8, "Tab": 9, "Enter": 13, "Escape": 27, " ": 32, "PageUp": 33, "PageDown": 34, "End": 35, "Home": 36,
    "ArrowLeft": 37, "ArrowUp": 38, "ArrowRight": 39, "ArrowDown": 40, "Delete": 46,
}


def find() -> str | None:
    """Chromium's command, or None."""
    return shutil.which("chromium") or shutil.which("chromium-browser")


# That all input reaches the page, also before its first frame, and that nothing in it is put off, since nobody looks.
SETTINGS = ("--allow-pre-commit-input", "--disable-background-timer-throttling",
            "--disable-backgrounding-occluded-windows",
            "--disable-renderer-backgrounding", "--disable-hang-monitor")


class Browser(Waiting):
    """One page of it: at a size, light or dark, with forced colours, without motion, or without modules of
    WebAssembly."""

    name, is_slow = "Chromium", False
    session: str | None
    events: list[Any]
    replies: dict[int, Any]

    @staticmethod
    def is_here() -> bool:
        """Whether it is installed."""
        return find() is not None

    def __init__(self, modules: bool = True, **looks: Any) -> None:
        self.room = tempfile.mkdtemp(prefix="trac-page-browser-")
        for_it, to_it = os.pipe()
        from_it, by_it = os.pipe()
        command = [
            "bash", "-c", 'exec "${@:3}" 3<&"$1" 4>&"$2"', "-", str(for_it), str(by_it),
            find() or "", "--headless=new", "--no-sandbox", "--disable-gpu", "--disable-dev-shm-usage",
            "--no-first-run",
            "--remote-debugging-pipe", "--user-data-dir=" + self.room, *SETTINGS,
            # (without compiled code it has no modules either)
            *([] if modules else ["--js-flags=--jitless"]), "about:blank",
        ]
        self.process = subprocess.Popen(
            command, pass_fds=(for_it, by_it), stdin=subprocess.DEVNULL, stdout=subprocess.DEVNULL,
            stderr=subprocess.DEVNULL
        )
        os.close(for_it)
        os.close(by_it)
        self.reader, self.writer, self.modules = from_it, to_it, modules
        self.read, self.number, self.session, self.events, self.replies = b"", 0, None, [], {}
        self.is_new, self.is_leaving = True, False
        try:
            targets = self.call("Target.getTargets")["targetInfos"]
            self.target = next(one for one in targets if one["type"] == "page")["targetId"]
            self.become(**looks)
        except BaseException:
            self.process.kill()
            self.end()
            raise

    def can_be(self, modules: bool = True, **_: object) -> bool:
        """Whether it can have these looks without a new process."""
        return modules == self.modules

    def become(self, width: int = 1280, height: int = 800, dark: bool = False, forced: bool = False,
               still: bool = False, modules: bool = True, alone: bool = False) -> None:
        """Gives the empty page these looks; to be alone, a process that had no page before."""
        looks = {"prefers-color-scheme": "dark" if dark else "light", "forced-colors": "active" if forced else "none",
                 "prefers-reduced-motion": "reduce" if still else "no-preference"}
        self.looks = [{"name": name, "value": value} for name, value in looks.items()]
        self.size = {"width": width, "height": height, "deviceScaleFactor": 1, "mobile": width < 500}
        if alone:
            self.open()
        else:
            self.attach()

    def open(self) -> None:
        """Opens a page, in place of the one before, which is not asked."""
        self.session, old = None, self.target
        self.target = self.call("Target.createTarget", url="about:blank")["targetId"]
        self.call("Target.closeTarget", targetId=old)
        self.is_new = True
        self.attach()

    def attach(self) -> None:
        """Begins to speak to the page."""
        self.session = self.call("Target.attachToTarget", targetId=self.target, flatten=True)["sessionId"]
        for part in ("Page", "Runtime", "Log", "Network", "Inspector"):
            self.call(part + ".enable")
        self.call("Emulation.setDeviceMetricsOverride", **self.size)
        self.call("Emulation.setEmulatedMedia", features=self.looks)
        self.call("Emulation.setFocusEmulationEnabled", enabled=True)

    def leave(self) -> None:
        """Leaves the page for an empty one, and ends what was said of it. (To open an empty one takes more of a
        processor than to go to one.)"""
        self.script(LEFT)
        self.is_leaving = True
        self.navigate("about:blank")
        self.is_leaving = False
        session, self.session = self.session, None
        self.call("Target.detachFromTarget", sessionId=session)
        self.is_new = True

    def navigate(self, address: str) -> None:
        """Goes to an address, and waits until it is there. (What goes on before that may never be answered.)"""
        self.events = []
        loader = self.call("Page.navigate", url=address)["loaderId"]
        while not self.has_loaded(loader):
            self.take()

    def has_loaded(self, loader: str) -> bool:
        """Whether a page has come, and after that its loading has ended."""
        comes = [index for index, one in enumerate(self.events) if one["method"] == "Page.frameNavigated"
                 and one["params"]["frame"]["loaderId"] == loader]
        return bool(comes) and any(one["method"] == "Page.loadEventFired" for one in self.events[comes[0]:])

    def tell(self, method: str, **words: Any) -> int:
        """Tells it to do something. Returns the number of its reply."""
        self.number += 1
        message = {"id": self.number, "method": method, "params": words}
        if self.session:
            message["sessionId"] = self.session
        data = json.dumps(message).encode() + b"\0"
        try:
            while data:
                data = data[os.write(self.writer, data):]
        except BrokenPipeError:
            raise Gone("Chromium has ended") from None
        return self.number

    def reply(self, number: int) -> Any:
        """What it says to that."""
        while number not in self.replies:
            self.take()
        said = self.replies.pop(number)
        if "error" in said:
            raise OSError(str(said["error"]))
        return said["result"]

    def take(self) -> None:
        """Takes its next message: a reply, or an event of the page."""
        said = self.message()
        if "id" in said:
            self.replies[said["id"]] = said
        elif said.get("sessionId") != self.session:
            # (a page that was left)
            pass
        elif said["method"] == "Inspector.targetCrashed":
            raise Gone("the page has crashed")
        elif self.is_leaving and said["method"] == "Page.javascriptDialogOpening":
            # (a page that asks before it is left)
            self.tell("Page.handleJavaScriptDialog", accept=True)
        else:
            self.events.append(said)

    def call(self, method: str, **words: Any) -> Any:
        """Has it do something, and returns what it says."""
        try:
            return self.reply(self.tell(method, **words))
        except Gone as fault:
            raise Gone("{} ({})".format(fault, method)) from None

    def message(self) -> Any:
        """The next message."""
        while b"\0" not in self.read:
            if not select.select([self.reader], [], [], SILENCE)[0]:
                self.process.kill()
                raise Gone("Chromium says nothing")
            more = os.read(self.reader, 1 << 20)
            if not more:
                raise Gone("Chromium has ended")
            self.read += more
        message, self.read = self.read.split(b"\0", 1)
        return json.loads(message)

    def load(self, file: str, place: str = "") -> None:
        """Loads a page, from a file if no address is given, and waits until it is there and shown."""
        if not self.is_new:
            self.open()
        self.is_new, self.address = False, file if "://" in file else "file://" + file
        self.navigate(self.address + place)
        self.frames()

    def resize(self, width: int, height: int) -> None:
        """Gives the page another size, and waits until it has it."""
        self.call("Emulation.setDeviceMetricsOverride", width=width, height=height, deviceScaleFactor=1, mobile=False)
        self.until("innerWidth === {} && innerHeight === {}".format(width, height), "{} by {} pixels".format(width,
                                                                                                             height))
        self.frames()

    def script(self, text: str) -> Any:
        """The value of a script in the page; where that is a promise, of what it comes to."""
        said = self.call("Runtime.evaluate", expression=text, returnByValue=True, awaitPromise=True)
        if "exceptionDetails" in said:
            raise OSError(str(said["exceptionDetails"]))
        return said["result"].get("value")

    def press(self, key: str, times: int = 1, shift: bool = False, control: bool = False) -> None:
        """Presses a key."""
        sign = "" if control else {"Enter": "\r"}.get(key, key if len(key) == 1 else "")
        words = {"key": key, "code": key, "modifiers": 8 * shift + 2 * control,
                 "windowsVirtualKeyCode": CODES.get(key, ord(key.upper()) if key.isalnum() and len(key) == 1 else 0)}
        for _ in range(times):
            self.call("Input.dispatchKeyEvent", type="keyDown" if sign else "rawKeyDown", text=sign, **words)
            self.call("Input.dispatchKeyEvent", type="keyUp", **words)

    def insert(self, text: str) -> None:
        """Writes a text where the focus is, in place of what is chosen there."""
        self.call("Input.insertText", text=text)

    def click_at(self, x: float, y: float) -> None:
        """Clicks there by the mouse."""
        for kind in ("mousePressed", "mouseReleased"):
            self.call("Input.dispatchMouseEvent", type=kind, x=x, y=y, button="left", clickCount=1)

    def touch(self, *places: tuple[float, float]) -> None:
        """Puts a finger down at the first place, draws it over the others, and takes it up."""
        kinds = ["touchStart"] + ["touchMove"] * (len(places) - 1)
        deeds = [(kind, [{"x": x, "y": y}]) for kind, (x, y) in zip(kinds, places)] + [("touchEnd", [])]
        # (the first two are told together: a finger that rests between them does something else)
        told = [self.tell("Input.dispatchTouchEvent", type=kind, touchPoints=points) for kind, points in deeds[:2]]
        for number in told:
            self.reply(number)
        for kind, points in deeds[2:]:
            self.call("Input.dispatchTouchEvent", type=kind, touchPoints=points)

    def choose_file(self, selector: str, path: str) -> None:
        """Gives a file to a control."""
        top = self.call("DOM.getDocument")["root"]["nodeId"]
        node = self.call("DOM.querySelector", nodeId=top, selector=selector)["nodeId"]
        self.call("DOM.setFileInputFiles", files=[path], nodeId=node)

    def faults(self) -> list[Any]:
        """What it wrote to its console, or asked or fetched, since the page was loaded."""
        names = ("Runtime.exceptionThrown", "Runtime.consoleAPICalled", "Log.entryAdded",
                 "Page.javascriptDialogOpening")
        faults = [event for event in self.events if event.get("method") in names]
        for event in self.events:
            if event.get("method") == "Network.requestWillBeSent":
                url = event["params"]["request"]["url"]
                if not url.startswith(("file:", "about:", "data:", "blob:", self.address.split("#")[0])):
                    faults.append(event)
        return faults

    def picture(self, file: str) -> None:
        """Keeps a screenshot."""
        data = self.call("Page.captureScreenshot", format="png")["data"]
        with open(file, "wb") as out:
            out.write(base64.b64decode(data))

    def end(self) -> None:
        """Ends it."""
        try:
            self.session = None
            self.call("Browser.close")
            self.process.wait(SILENCE)
        except (OSError, subprocess.TimeoutExpired):
            self.process.kill()
            self.process.wait()
        os.close(self.reader)
        os.close(self.writer)
        shutil.rmtree(self.room, ignore_errors=True)
