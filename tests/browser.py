"""A headless Chromium, told what to do by its own protocol over two pipes."""

import base64
import fcntl
import json
import os
import select
import shutil
import subprocess
import tempfile
import time

from patience import PATIENCE

# Beside a load of three times the cores the browser ended by itself. With pictures made in its own process, and without its
# watchdogs, it has not since.
FLAGS = ("--headless", "--no-sandbox", "--disable-gpu", "--in-process-gpu", "--disable-gpu-watchdog", "--disable-hang-monitor",
         "--hide-scrollbars", "--remote-debugging-pipe")
NAMES = ("chromium", "chromium-browser", "google-chrome", "google-chrome-stable")


def program():
    """The path of a Chromium, or nothing."""
    return next((path for path in map(shutil.which, NAMES) if path), None)


def moved_up(end):
    """An end of a pipe, by a number that is free for the browser's own."""
    higher = fcntl.fcntl(end, fcntl.F_DUPFD_CLOEXEC, 10)
    os.close(end)
    return higher


class Failed(Exception):
    """What the browser refused, or what a script threw."""


class Browser:
    """A browser with one tab. Its profile is gone when it closes."""

    session = None

    def __init__(self):
        self.profile = tempfile.mkdtemp()
        self.told = []
        self.pieces = b""
        self.number = 0
        # (the browser reads from 3 and writes to 4, so ours are above)
        theirs, self.to = map(moved_up, os.pipe())
        self.of, replies = map(moved_up, os.pipe())
        words = f'exec "$0" "$@" 3<&{theirs} 4>&{replies} {theirs}<&- {replies}>&-'
        self.process = subprocess.Popen(
            ["bash", "-c", words, program(), *FLAGS, f"--user-data-dir={self.profile}"],
            pass_fds=(theirs, replies), stdout=subprocess.DEVNULL, stderr=subprocess.DEVNULL)
        os.close(theirs)
        os.close(replies)
        target = self.call("Target.createTarget", url="about:blank")["targetId"]
        flat = self.call("Target.attachToTarget", targetId=target, flatten=True)
        self.session = flat["sessionId"]
        for domain in ("Page", "Runtime", "Network"):
            self.call(f"{domain}.enable")

    def close(self):
        os.close(self.to)
        os.close(self.of)
        self.process.terminate()
        self.process.wait(PATIENCE)
        shutil.rmtree(self.profile, ignore_errors=True)

    def heard(self):
        """The next message of the browser."""
        while b"\0" not in self.pieces:
            if not select.select([self.of], [], [], PATIENCE)[0]:
                raise Failed("the browser says nothing")
            piece = os.read(self.of, 1 << 20)
            if not piece:
                raise Failed("the browser is gone")
            self.pieces += piece
        message, self.pieces = self.pieces.split(b"\0", 1)
        return json.loads(message)

    def call(self, method, **parameters):
        self.number += 1
        asked = {"id": self.number, "method": method, "params": parameters}
        if self.session:
            asked["sessionId"] = self.session
        left = json.dumps(asked).encode() + b"\0"
        while left:
            left = left[os.write(self.to, left):]
        while True:
            message = self.heard()
            if message.get("id") == self.number:
                if "error" in message:
                    raise Failed(message["error"]["message"])
                return message["result"]
            self.told.append(message)

    def evaluate(self, script):
        """What a script comes to, as a value of Python."""
        told = self.call("Runtime.evaluate", expression=script, returnByValue=True,
                         awaitPromise=True, userGesture=True)
        if "exceptionDetails" in told:
            thrown = told["exceptionDetails"]
            raise Failed(thrown.get("exception", {}).get("description", thrown["text"]))
        return told["result"].get("value")

    def wait_for(self, script):
        until = time.monotonic() + PATIENCE
        while not self.evaluate(script):
            if time.monotonic() > until:
                raise Failed(f"it never came to {script}")
            time.sleep(0.02)

    def load(self, address):
        """Opens a page anew, as from a link."""
        self.call("Page.navigate", url="about:blank")
        self.wait_for("location.href === 'about:blank' && document.readyState === 'complete'")
        self.call("Page.navigate", url=address)
        self.wait_for("document.documentElement?.dataset.ready === 'yes'")

    def size(self, width, height):
        self.call("Emulation.setDeviceMetricsOverride", width=width, height=height,
                  deviceScaleFactor=1, mobile=False)

    def colours(self, scheme):
        features = [{"name": "prefers-color-scheme", "value": scheme}]
        self.call("Emulation.setEmulatedMedia", features=features)

    def press(self, key, modifiers=0, code=0, text=""):
        """A key, with 2 for Ctrl and 8 for Shift."""
        parts = {"key": key, "modifiers": modifiers, "windowsVirtualKeyCode": code}
        self.call("Input.dispatchKeyEvent", type="keyDown", text=text, **parts)
        self.call("Input.dispatchKeyEvent", type="keyUp", **parts)

    def picture(self, path):
        shot = self.call("Page.captureScreenshot", format="png", captureBeyondViewport=True)
        with open(path, "wb") as made:
            made.write(base64.b64decode(shot["data"]))
