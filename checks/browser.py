"""A page in a Chromium of its own, which checks/page uses as a person does. Chromium is driven over a pipe, by JSON texts that each end
in a zero byte, so no library is needed: `--remote-debugging-pipe` reads them from descriptor 3, and writes to descriptor 4.
"""

import base64
import contextlib
import json
import os
import re
import select
import signal
import subprocess
import tempfile
import time

# No answer and no change of a page takes nearly as long.
SECONDS_MAX = 10
# What a browser does besides showing a page is left out, as far as it can be told to.
WORDS = (
    *("--headless=new", "--remote-debugging-pipe", "--no-first-run", "--no-default-browser-check", "--disable-gpu"),
    *("--disable-dev-shm-usage", "--disable-extensions", "--disable-background-networking", "--disable-component-update"),
    *("--disable-sync", "--disable-breakpad"),
)
CONTROL = 2
KEYS = {"Tab": 9, "Enter": 13, "Space": 32, "ArrowDown": 40}
TEXTS = {"Enter": "\r", "Space": " "}


class Browser:
    """A browser with one page; it is ended, with all of its processes, at the end."""

    def __init__(self, program):
        self.number, self.left, self.session, self.log, self.room = 0, b"", None, [], tempfile.TemporaryDirectory()
        to_child, self.out = os.pipe()
        self.back, from_child = os.pipe()

        def place():
            # (through higher descriptors, since one of the two may be 3 or 4)
            for descriptor, high in ((to_child, 60), (from_child, 61)):
                os.dup2(descriptor, high)
            os.dup2(60, 3)
            os.dup2(61, 4)
            os.closerange(5, 62)

        words = [program, *WORDS, *(["--no-sandbox"] if os.geteuid() == 0 else []), f"--user-data-dir={self.room.name}", "about:blank"]
        quiet = subprocess.DEVNULL
        self.process = subprocess.Popen(
            words, preexec_fn=place, close_fds=False, stdin=quiet, stdout=quiet, stderr=quiet, start_new_session=True
        )
        os.close(to_child)
        os.close(from_child)

    def __enter__(self):
        try:
            target = self.call("Target.createTarget", url="about:blank")["targetId"]
            self.session = self.call("Target.attachToTarget", targetId=target, flatten=True)["sessionId"]
            for domain in ("Page", "Runtime", "Log"):
                self.call(domain + ".enable")
        except BaseException:
            self.__exit__()
            raise
        return self

    def __exit__(self, *_):
        # It ends by itself at the end of its pipe; what does not is killed.
        os.close(self.out)
        os.close(self.back)
        with contextlib.suppress(subprocess.TimeoutExpired):
            self.process.wait(SECONDS_MAX / 5)
        with contextlib.suppress(ProcessLookupError):
            os.killpg(self.process.pid, signal.SIGKILL)
        self.process.wait()
        with contextlib.suppress(OSError):
            self.room.cleanup()

    def call(self, method, **words):
        """Calls a method of the browser's protocol, and keeps what it tells meanwhile."""
        self.number += 1
        said = {"id": self.number, "method": method, "params": words, **({"sessionId": self.session} if self.session else {})}
        os.write(self.out, json.dumps(said).encode() + b"\0")
        end = time.monotonic() + 2 * SECONDS_MAX
        while True:
            while b"\0" not in self.left:
                if not select.select([self.back], [], [], max(0, end - time.monotonic()))[0]:
                    raise TimeoutError(method)
                read = os.read(self.back, 65536)
                if not read:
                    raise EOFError(f"the browser ended at {method}")
                self.left += read
            one, _, self.left = self.left.partition(b"\0")
            one = json.loads(one)
            if one.get("id") == self.number:
                if "error" in one:
                    raise RuntimeError(f"{method}: {one['error']}")
                return one["result"]
            self.log.append(one)

    def value(self, text):
        """The value of an expression in the page."""
        found = self.call("Runtime.evaluate", expression=text, returnByValue=True, awaitPromise=True)
        if "exceptionDetails" in found:
            raise RuntimeError(f"{text}: {found['exceptionDetails']}")
        return found["result"].get("value")

    def until(self, text, seconds=SECONDS_MAX):
        """Waits until an expression is true in the page, and returns whether it is."""
        end = time.monotonic() + seconds
        while not (found := bool(self.value(text))) and time.monotonic() < end:
            time.sleep(0.05)
        return found

    def open(self, url):
        self.call("Page.navigate", url=url)
        if not self.until(f"location.href == {url!r} && document.readyState == 'complete'"):
            raise TimeoutError(url)

    def type(self, selector, text):
        """Types a text in place of what a control has."""
        self.value(f"(it => {{ it.focus(); it.select() }})(document.querySelector({selector!r}))")
        self.call("Input.insertText", text=text)

    def press(self, key, modifiers=0):
        """Presses a key, and lets it go."""
        words = {"key": " " if key == "Space" else key, "code": key, "windowsVirtualKeyCode": KEYS[key], "modifiers": modifiers}
        text = {"text": TEXTS[key]} if key in TEXTS and not modifiers else {}
        self.call("Input.dispatchKeyEvent", type="keyDown" if text else "rawKeyDown", **words, **text)
        self.call("Input.dispatchKeyEvent", type="keyUp", **words)

    def click(self, selector):
        """Clicks on the middle of an element."""
        self.value(f"document.querySelector({selector!r}).scrollIntoView({{ block: 'center' }})")
        middle = "(it => [it.x + it.width / 2, it.y + it.height / 2])"
        x, y = self.value(f"{middle}(document.querySelector({selector!r}).getBoundingClientRect())")
        for kind in ("mousePressed", "mouseReleased"):
            self.call("Input.dispatchMouseEvent", type=kind, x=x, y=y, button="left", clickCount=1)

    def dark(self, is_dark):
        """Lets the page think that the person wants dark colours, or light ones."""
        scheme = {"name": "prefers-color-scheme", "value": "dark" if is_dark else "light"}
        self.call("Emulation.setEmulatedMedia", features=[scheme])

    def faults(self):
        """What the browser has noted since: answers that are errors, by status or by the system's word; and all else."""
        answers, others = [], []
        for one in self.log:
            words = one.get("params", {})
            if one.get("method") == "Runtime.exceptionThrown":
                others.append(words["exceptionDetails"])
            elif one.get("method") == "Runtime.consoleAPICalled" and words["type"] in ("error", "assert"):
                others.append(words["args"])
            elif one.get("method") == "Log.entryAdded" and words["entry"]["level"] == "error":
                found = re.search(r"status of (\d+)|net::(\w+)", words["entry"]["text"])
                if found:
                    answers.append(found[1] or found[2])
                else:
                    others.append(words["entry"]["text"])
        self.log = []
        return answers, others

    def picture(self, path, width):
        """Writes a picture of the whole page, at this width, into a file."""
        self.call("Emulation.setDeviceMetricsOverride", width=width, height=600, deviceScaleFactor=1, mobile=False)
        height = self.value("document.documentElement.scrollHeight")
        self.call("Emulation.setDeviceMetricsOverride", width=width, height=height, deviceScaleFactor=1, mobile=False)
        found = self.call("Page.captureScreenshot", format="png")
        with open(path, "wb") as file:
            file.write(base64.b64decode(found["data"]))
        self.call("Emulation.clearDeviceMetricsOverride")
