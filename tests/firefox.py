"""A headless Firefox, told what to do by Marionette, its own protocol over a socket."""

import base64
import json
import os
import shutil
import socket
import subprocess
import tempfile
import time

from browser import Failed
from patience import PATIENCE

NAMES = ("firefox", "firefox-esr")
# What a profile begins with: a port of the browser's choice, and no page of greetings.
PREFERENCES = {"marionette.port": 0, "browser.shell.checkDefaultBrowser": False, "app.update.enabled": False,
               "datareporting.policy.dataSubmissionEnabled": False, "toolkit.telemetry.reportingpolicy.firstRun": False,
               "browser.aboutwelcome.enabled": False, "network.captive-portal-service.enabled": False}
# The keys that have no letter, as WebDriver writes them.
KEYS = {"Enter": "\ue007", "Tab": "\ue004", "End": "\ue010", "Home": "\ue011", "ArrowLeft": "\ue012", "ArrowUp": "\ue013",
        "ArrowRight": "\ue014", "ArrowDown": "\ue015", "Shift": "\ue008"}
CTRL, SHIFT = (2, "\ue009"), (8, "\ue008")
# Runs a script in the page's own scope, as a debugger does, and gives what it comes to as JSON. (The page's policy allows no eval. Its
# names are in no sandbox.)
RUN = """const [script, done] = arguments;
const { addDebuggerToGlobal } = ChromeUtils.importESModule("resource://gre/modules/jsdebugger.sys.mjs");
const room = Cu.Sandbox(Services.scriptSecurityManager.getSystemPrincipal(), { freshCompartment: true });
addDebuggerToGlobal(room);
const page = new room.Debugger().addDebuggee(window);
const text_of = (value) => Cu.waiveXrays(window).JSON.stringify(value);
const told = (value) => done(`{"value":${text_of(value) ?? null}}`);
const failed = (wrong) => done(JSON.stringify({ wrong: `${wrong}\\n${wrong?.stack}` }));
const came_to = page.executeInGlobal(script);
const value = (one) => one && typeof one === "object" ? one.unsafeDereference() : one;
if ("throw" in came_to) failed(value(came_to.throw));
else Cu.waiveXrays(window).Promise.resolve(value(came_to.return)).then(told, failed);"""


def program():
    """The path of a Firefox, or nothing."""
    return next((path for path in map(shutil.which, NAMES) if path), None)


class Browser:
    """A browser with one window. Its profile is gone when it closes."""

    def __init__(self):
        self.profile = tempfile.mkdtemp()
        self.pieces, self.number = b"", 0
        with open(os.path.join(self.profile, "user.js"), "w", encoding="utf-8") as file:
            file.writelines(f'user_pref("{name}", {json.dumps(value)});\n' for name, value in PREFERENCES.items())
        self.process = subprocess.Popen(
            [program(), "--headless", "--marionette", "--remote-allow-system-access", "--no-remote", "--profile", self.profile],
            stdout=subprocess.DEVNULL, stderr=subprocess.DEVNULL, env={**os.environ, "HOME": self.profile})
        self.stream = self.connected()
        self.heard()
        self.call("WebDriver:NewSession", capabilities={"alwaysMatch": {"timeouts": {"script": 1000 * PATIENCE}}})
        self.call("WebDriver:Navigate", url="about:blank")

    def connected(self):
        """A connection, once the browser has written its port."""
        until = time.monotonic() + PATIENCE
        while True:
            try:
                with open(os.path.join(self.profile, "MarionetteActivePort"), encoding="utf-8") as file:
                    return socket.create_connection(("127.0.0.1", int(file.read())), timeout=PATIENCE)
            except (OSError, ValueError):
                if time.monotonic() > until or self.process.poll() is not None:
                    raise Failed("the browser doesn't listen") from None
                time.sleep(0.05)

    def close(self):
        self.stream.close()
        self.process.terminate()
        self.process.wait(PATIENCE)
        shutil.rmtree(self.profile, ignore_errors=True)

    def read(self, count):
        while len(self.pieces) < count:
            piece = self.stream.recv(1 << 20)
            if not piece:
                raise Failed("the browser is gone")
            self.pieces += piece
        found, self.pieces = self.pieces[:count], self.pieces[count:]
        return found

    def heard(self):
        """The next message of the browser: its length, a colon, and JSON."""
        digits = b""
        while not digits.endswith(b":"):
            digits += self.read(1)
        return json.loads(self.read(int(digits[:-1])))

    def call(self, method, **parameters):
        self.number += 1
        text = json.dumps([0, self.number, method, parameters]).encode()
        self.stream.sendall(b"%d:%b" % (len(text), text))
        _, number, error, result = self.heard()
        if number != self.number:
            raise Failed(f"an answer to {number} in place of {self.number}")
        if error:
            raise Failed(f"{method}: {error['message']}")
        return result

    def evaluate(self, script):
        """What a script comes to, as a value of Python."""
        told = json.loads(self.call("WebDriver:ExecuteAsyncScript", script=RUN, args=[script], sandbox="system")["value"])
        if "wrong" in told:
            raise Failed(told["wrong"])
        return told["value"]

    def wait_for(self, script):
        until = time.monotonic() + PATIENCE
        while not self.evaluate(script):
            if time.monotonic() > until:
                raise Failed(f"it never came to {script}")
            time.sleep(0.02)

    def load(self, address):
        """Opens a page anew, as from a link."""
        self.call("WebDriver:Navigate", url="about:blank")
        self.call("WebDriver:Navigate", url=address)
        self.wait_for("document.documentElement.dataset.ready === 'yes'")

    def size(self, width, height):
        """Gives the page so many pixels. (A window has some more at its sides.)"""
        self.call("WebDriver:SetWindowRect", width=width, height=height)
        inner = self.evaluate("[innerWidth, innerHeight]")
        self.call("WebDriver:SetWindowRect", width=2 * width - inner[0], height=2 * height - inner[1])

    def colours(self, scheme):
        self.evaluate(f"document.documentElement.style.colorScheme = '{scheme}'; 0")

    def press(self, key, modifiers=0, code=0, text=""):
        """A key, with 2 for Ctrl and 8 for Shift."""
        held = [name for bit, name in (CTRL, SHIFT) if modifiers & bit]
        keys = [*held, KEYS.get(key, key)]
        pressed = [{"type": "keyDown", "value": one} for one in keys]
        pressed += [{"type": "keyUp", "value": one} for one in reversed(keys)]
        self.call("WebDriver:PerformActions", actions=[{"type": "key", "id": "keys", "actions": pressed}])

    def picture(self, path):
        shot = self.call("WebDriver:TakeScreenshot", full=True, hash=False)
        with open(path, "wb") as made:
            made.write(base64.b64decode(shot["value"]))
