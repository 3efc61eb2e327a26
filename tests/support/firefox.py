"""A page in Firefox without a window, spoken to by its Marionette protocol over a socket."""
from __future__ import annotations

import base64
import json
import os
import shutil
import socket
import subprocess
import tempfile
import time
from collections.abc import Sequence
from typing import Any

from support.waiting import LEFT, SILENCE, Gone, Missed, Waiting

# What stands for keys that write no sign.
KEYS = {
    "Backspace": "\ue003", "Tab": "\ue004", "Enter": "\ue006", "Shift": "\ue008", "Control": "\ue009",
    "Escape": "\ue00c",
    "PageUp": "\ue00e", "PageDown": "\ue00f", "End": "\ue010", "Home": "\ue011", "ArrowLeft": "\ue012",
    "ArrowUp": "\ue013",
    "ArrowRight": "\ue014", "ArrowDown": "\ue015", "Delete": "\ue017",
}
# How the browser itself is to look, and that it asks nobody for anything.
SETTINGS = {
    "marionette.port": 0,
    # (a search that it begins at "/" would take the keys after it)
    "accessibility.typeaheadfind.manual": False,
    "app.normandy.enabled": False,
    "app.update.disabledForTesting": True,
    "browser.shell.checkDefaultBrowser": False,
    "datareporting.policy.dataSubmissionEnabled": False,
    # (a process for a page that nobody opens takes a second)
    "dom.ipc.processPrelaunch.enabled": False,
    "extensions.systemAddon.update.enabled": False,
    "messaging-system.rsexperimentloader.enabled": False,
    "network.captive-portal-service.enabled": False,
    "network.connectivity-service.enabled": False,
    "services.settings.server": "data:,#remote-settings-dummy/v1",
    "toolkit.telemetry.server": "",
}
# In the browser's own part: the page has so many pixels and these looks; and what it asks for is noted.
LOOKS = """
const [width, height, looks] = arguments;
const { style } = gBrowser.selectedBrowser;
for (const [name, size] of [["width", width], ["height", height]]) {
  for (const part of ["", "min-", "max-"]) style.setProperty(part + name, `${size}px`, "important");
}
for (const [name, value] of Object.entries(looks)) {
  if (typeof value === "boolean") Services.prefs.setBoolPref(name, value);
  else Services.prefs.setIntPref(name, value);
}
"""
NOTED = """
window.askedFor = [];
Services.obs.addObserver((request) => {
  const { triggeringPrincipal } = request.QueryInterface(Ci.nsIHttpChannel).loadInfo;
  if (!triggeringPrincipal.isSystemPrincipal) window.askedFor.push(request.URI.spec);
}, "http-on-opening-request");
"""
CLEAR = "Services.console.reset(); window.askedFor.length = 0;"
FAULTS = """
const said = Services.console.getMessageArray().filter((one) => one instanceof Ci.nsIScriptError);
const isOwn = ({ sourceName, category }) => /^(file|blob|data|http):/.test(sourceName) || /CSP/.test(category);
const own = said.filter(isOwn);
const words = ({ errorMessage, sourceName, lineNumber }) => `${errorMessage} (${sourceName}, ${lineNumber})`;
return [...own.map(words), ...window.askedFor];
"""


def find() -> str | None:
    """Firefox's command, or None."""
    return shutil.which("firefox-esr") or shutil.which("firefox")


class Firefox(Waiting):
    """One page of it: at a size, light or dark, with forced colours, without motion, or without modules of
    WebAssembly."""

    name, is_slow = "Firefox", True

    @staticmethod
    def is_here() -> bool:
        """Whether it is installed."""
        return find() is not None

    def __init__(self, **looks: Any) -> None:
        self.room = tempfile.mkdtemp(prefix="trac-page-browser-")
        self.socket: socket.socket | None = None
        with open(os.path.join(self.room, "user.js"), "w") as settings:
            for name, value in SETTINGS.items():
                settings.write("user_pref({}, {});\n".format(json.dumps(name), json.dumps(value)))
        # (it ends with this process, however that ends)
        bound = ["setpriv", "--pdeathsig", "KILL"] if shutil.which("setpriv") else []
        command = [*bound, find() or "", "--headless", "--marionette", "--remote-allow-system-access", "--no-remote",
                   "--profile", self.room]
        nothing = subprocess.DEVNULL
        self.process = subprocess.Popen(command + ["about:blank"], stdin=nothing, stdout=nothing, stderr=nothing)
        try:
            self.socket, self.read, self.number = socket.create_connection(("127.0.0.1", self.port()), SILENCE), b"", 0
            self.message()
            times = {"script": SILENCE * 1000, "pageLoad": SILENCE * 1000}
            self.call("WebDriver:NewSession", capabilities={"alwaysMatch": {"pageLoadStrategy": "normal",
                                                                            "timeouts": times}})
            self.inside(NOTED)
            self.call("WebDriver:Navigate", url="about:blank")
            self.become(**looks)
        except BaseException as fault:
            self.process.kill()
            self.end()
            if isinstance(fault, (OSError, Missed)):
                raise Gone("Firefox does not begin: {}".format(fault)) from None
            raise

    def can_be(self, **_: object) -> bool:
        """Whether it can have these looks without a new process."""
        return True

    def become(self, width: int = 1280, height: int = 800, dark: bool = False, forced: bool = False,
               still: bool = False, modules: bool = True) -> None:
        """Gives the empty page these looks."""
        self.inside(CLEAR + LOOKS, width, height, {
            "layout.css.prefers-color-scheme.content-override": 0 if dark else 1,
            "browser.display.document_color_use": 2 if forced else 0,
            "ui.useAccessibilityTheme": int(forced),
            "ui.prefersReducedMotion": int(still),
            "javascript.options.wasm": modules,
        })
        asked = ("prefers-color-scheme: dark", "forced-colors: active", "prefers-reduced-motion: reduce")
        wanted = [width, height, dark and not forced, forced, still]
        looks = "[innerWidth, innerHeight, ...{}.map((one) => matchMedia(`(${{one}})`).matches)].join() === '{}'"
        self.until(looks.format(list(asked), ",".join(str(one).lower() for one in wanted)), "these looks")
        self.is_new = True

    def leave(self) -> None:
        """Leaves the page for an empty one."""
        self.script(LEFT)
        self.call("WebDriver:Navigate", url="about:blank")

    def port(self) -> int:
        """Where it listens, once it does."""
        place, end = os.path.join(self.room, "MarionetteActivePort"), time.monotonic() + SILENCE
        while time.monotonic() < end:
            if os.path.exists(place):
                with open(place) as said:
                    text = said.read()
                if text.strip():
                    return int(text)
            if self.process.poll() is not None:
                raise Gone("it has ended")
            time.sleep(0.01)
        raise Gone("it does not listen")

    def message(self) -> Any:
        """The next message: its length, a colon, and JSON."""
        while b":" not in self.read:
            self.more()
        length, self.read = self.read.split(b":", 1)
        while len(self.read) < int(length):
            self.more()
        message, self.read = self.read[:int(length)], self.read[int(length):]
        return json.loads(message)

    def more(self) -> None:
        """Takes more of what it says."""
        assert self.socket
        try:
            more = self.socket.recv(1 << 20)
        except socket.timeout:
            self.process.kill()
            raise Gone("Firefox says nothing") from None
        if not more:
            raise Gone("Firefox has ended")
        self.read += more

    def call(self, method: str, **words: Any) -> Any:
        """Has it do something, and returns what it says."""
        assert self.socket
        self.number += 1
        message = json.dumps([0, self.number, method, words]).encode()
        try:
            self.socket.sendall(b"%d:" % len(message) + message)
            _, _, fault, result = self.message()
        except (Gone, ConnectionError) as gone:
            raise Gone("{} ({})".format(gone, method)) from None
        if fault:
            raise OSError("{}: {}: {}".format(method, fault["error"], fault["message"]))
        return result

    def inside(self, text: str, *words: object) -> Any:
        """The value of a script in the browser's own part."""
        self.call("Marionette:SetContext", value="chrome")
        try:
            return self.call("WebDriver:ExecuteScript", script=text, args=list(words))["value"]
        finally:
            self.call("Marionette:SetContext", value="content")

    def load(self, file: str, place: str = "") -> None:
        """Loads a page, from a file if no address is given, and waits until it is there and shown."""
        if not self.is_new:
            self.call("WebDriver:Navigate", url="about:blank")
            self.inside(CLEAR)
        self.is_new, self.address = False, file if "://" in file else "file://" + file
        self.call("WebDriver:Navigate", url=self.address + place)
        self.frames()

    def script(self, text: str) -> Any:
        """The value of an expression in the page."""
        return self.call("WebDriver:ExecuteScript", script="return ({}\n);".format(text), args=[])["value"]

    def perform(self, kind: str, actions: list[dict[str, Any]], **words: Any) -> None:
        """What a finger, the mouse or the keys do, one after the other."""
        self.call("WebDriver:PerformActions", actions=[{"type": kind, "id": kind, "actions": actions, **words}])

    def press(self, key: str, times: int = 1, shift: bool = False, control: bool = False) -> None:
        """Presses a key."""
        held = ["Shift"] * shift + ["Control"] * control
        for _ in range(times):
            ways = [("keyDown", one) for one in held + [key]] + [("keyUp", one) for one in [key] + held[::-1]]
            self.perform("key", [{"type": way, "value": KEYS.get(one, one)} for way, one in ways])

    def insert(self, text: str) -> None:
        """Writes a text where the focus is, in place of what is chosen there."""
        self.script("document.execCommand('insertText', false, {})".format(json.dumps(text)))

    def click_at(self, x: float, y: float) -> None:
        """Clicks there by the mouse."""
        self.point("mouse", [(x, y)])

    def touch(self, *places: tuple[float, float]) -> None:
        """Puts a finger down at the first place, draws it over the others, and takes it up."""
        self.point("touch", places)

    def point(self, kind: str, places: Sequence[tuple[float, float]]) -> None:
        """Presses at the first place, and lets go at the last."""
        moves = [{"type": "pointerMove", "x": round(x), "y": round(y), "duration": 20 * (index > 0)}
                 for index, (x, y) in enumerate(places)]
        down, up = ({"type": way, "button": 0} for way in ("pointerDown", "pointerUp"))
        self.perform("pointer", [moves[0], down] + moves[1:] + [up], parameters={"pointerType": kind})
        # (else a click soon after this one were the second of two, which choose a word)
        self.call("WebDriver:ReleaseActions")

    def choose_file(self, selector: str, path: str) -> None:
        """Gives a file to a control."""
        element = self.call("WebDriver:FindElement", using="css selector", value=selector)["value"]
        self.call("WebDriver:ElementSendKeys", id=next(iter(element.values())), text=path)

    def faults(self) -> list[Any]:
        """What it wrote to its console, or asked for, since the page was loaded."""
        return [fault for fault in self.inside(FAULTS) if not fault.startswith(self.address.split("#")[0])]

    def picture(self, file: str) -> None:
        """Keeps a screenshot."""
        data = self.call("WebDriver:TakeScreenshot", full=False)["value"]
        with open(file, "wb") as out:
            out.write(base64.b64decode(data))

    def end(self) -> None:
        """Ends it."""
        try:
            if self.socket:
                self.call("Marionette:Quit", flags=["eForceQuit"])
                self.process.wait(SILENCE)
        except (OSError, subprocess.TimeoutExpired):
            pass
        finally:
            self.process.kill()
            self.process.wait()
        if self.socket:
            self.socket.close()
        shutil.rmtree(self.room, ignore_errors=True)
