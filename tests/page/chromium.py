"""Headless Chromium by its debugging pipe: no library, no port."""
import base64
import contextlib
import json
import os
import pathlib
import re
import select
import shutil
import subprocess
import tempfile
import time

NAMES = ("chromium", "chromium-browser", "google-chrome")


def browser():
    """The browser's program, or None if none is installed."""
    return next((found for found in map(shutil.which, NAMES) if found), None)


class Tab:
    """A page in a browser of its own. What it saves goes to a folder, and all that the browser asks a network for is in a log there."""

    def __init__(self, url, width=1200, height=900, dark=False, folder=None):
        self.folder = tempfile.mkdtemp(prefix="omf-page-")
        self.saves = pathlib.Path(folder or self.folder)
        self.log = self.saves / "network.log"
        theirs_in, self.out = os.pipe()
        self.inp, theirs_out = os.pipe()

        def pipes():
            ours, other = os.dup(theirs_in), os.dup(theirs_out)
            os.dup2(ours, 3)
            os.dup2(other, 4)

        words = [browser(), "--headless=new", "--no-sandbox", "--disable-gpu", "--remote-debugging-pipe", f"--user-data-dir={self.folder}",
                 "--no-first-run", "--disable-dev-shm-usage", "--hide-scrollbars", "--disable-background-networking", "--disable-component-update",
                 "--disable-sync", "--disable-default-apps", "--host-resolver-rules=MAP * ~NOTFOUND", f"--log-net-log={self.log}", "about:blank"]
        self.process = subprocess.Popen(words, stdin=subprocess.DEVNULL, stdout=subprocess.DEVNULL, stderr=subprocess.DEVNULL, close_fds=False,
                                        preexec_fn=pipes)
        os.close(theirs_in)
        os.close(theirs_out)
        self.number, self.left, self.session, self.events = 0, b"", None, []
        self.call("Browser.setDownloadBehavior", behavior="allowAndName", downloadPath=str(self.saves), eventsEnabled=True)
        self.call("Browser.grantPermissions", permissions=["clipboardReadWrite", "clipboardSanitizedWrite"])
        targets = self.call("Target.getTargets")["targetInfos"]
        target = next(it["targetId"] for it in targets if it["type"] == "page")
        self.session = self.call("Target.attachToTarget", targetId=target, flatten=True)["sessionId"]
        for domain in ("Page", "Runtime", "Network", "Log"):
            self.call(f"{domain}.enable")
        self.call("Emulation.setFocusEmulationEnabled", enabled=True)
        self.resize(width, height)
        self.call("Emulation.setEmulatedMedia", features=[{"name": "prefers-color-scheme", "value": "dark" if dark else "light"}])
        self.call("Page.navigate", url=url)
        self.until("document.readyState === 'complete' && location.protocol !== 'about:'", 300)

    def __enter__(self):
        return self

    def __exit__(self, *_):
        self.close()

    def read(self, seconds=600):
        while b"\0" not in self.left:
            if not select.select([self.inp], [], [], seconds)[0]:
                raise RuntimeError(f"the browser said nothing for {seconds} s")
            more = os.read(self.inp, 1 << 20)
            if not more:
                raise RuntimeError("the browser ended")
            self.left += more
        message, _, self.left = self.left.partition(b"\0")
        return json.loads(message)

    def call(self, method, **words):
        self.number += 1
        message = {"id": self.number, "method": method, "params": words}
        if self.session:
            message["sessionId"] = self.session
        data = json.dumps(message).encode() + b"\0"
        while data:
            data = data[os.write(self.out, data):]
        while True:
            answer = self.read()
            if answer.get("id") == self.number:
                if "error" in answer:
                    raise RuntimeError(f"{method}: {answer['error']['message']}")
                return answer["result"]
            self.events.append(answer)

    def value(self, script):
        """The value of an expression, awaited if it is a promise."""
        answer = self.call("Runtime.evaluate", expression=script, awaitPromise=True, returnByValue=True)
        if "exceptionDetails" in answer:
            details = answer["exceptionDetails"]
            raise RuntimeError(details.get("exception", {}).get("description", details["text"]))
        return answer["result"].get("value")

    def until(self, script, seconds=60):
        """Waits until an expression is true."""
        end = time.monotonic() + seconds
        while not self.value(script):
            if time.monotonic() > end:
                raise RuntimeError(f"not after {seconds} s: {script}")
            time.sleep(0.05)

    def choose(self, selector, *files):
        """Gives files to an input, as a person does."""
        root = self.call("DOM.getDocument")["root"]["nodeId"]
        node = self.call("DOM.querySelector", nodeId=root, selector=selector)["nodeId"]
        self.call("DOM.setFileInputFiles", nodeId=node, files=[os.path.abspath(file) for file in files])

    def event(self, method, suits):
        """The first event of a name that suits; it is waited for."""
        while True:
            found = next((it for it in self.events if it.get("method") == method and suits(it["params"])), None)
            if found:
                return found["params"]
            self.events.append(self.read(30))

    def saved(self, selector, clicks=3):
        """The bytes that a button saves. A browser that is slow takes a file for one that nobody asked for; then the button is clicked again."""
        self.events = [it for it in self.events if not it.get("method", "").startswith("Browser.download")]
        self.call("Runtime.evaluate", expression=f"document.querySelector({selector!r}).click()", userGesture=True)
        try:
            done = self.event("Browser.downloadProgress", lambda it: it["state"] != "inProgress")
        except RuntimeError:
            if clicks > 1:
                return self.saved(selector, clicks - 1)
            raise
        file = self.saves / done["guid"]
        data = file.read_bytes()
        file.unlink()
        return data

    def press(self, key, modifiers=0):
        for kind in ("keyDown", "keyUp"):
            self.call("Input.dispatchKeyEvent", type=kind, key=key, code=key, modifiers=modifiers, text=key if len(key) == 1 and kind == "keyDown" else "")

    def type(self, text):
        """Types a text where the focus is."""
        self.call("Input.insertText", text=text)

    def resize(self, width, height):
        self.call("Emulation.setDeviceMetricsOverride", width=width, height=height, deviceScaleFactor=1, mobile=False)

    def picture(self, file, whole=False):
        made = self.call("Page.captureScreenshot", format="png", captureBeyondViewport=whole)
        with open(file, "wb") as it:
            it.write(base64.b64decode(made["data"]))

    def requests(self):
        """The addresses that the page asked for, by its events and by the browser's log of its network, other than files and what it has itself."""
        return self.outside(it["params"]["request"]["url"] for it in self.events if it.get("method") == "Network.requestWillBeSent") + self.logged()

    def logged(self):
        """The addresses in the browser's log that a page asked for; those that the browser asks for by itself have no origin."""
        text = self.log.read_text(errors="replace") if self.log.exists() else '"initiator":"no log","url":"no log"'
        return self.outside(re.findall(r'"initiator":"(?!not an origin)[^"]*".*?"url":"([^"]*)"', text))

    @staticmethod
    def outside(urls):
        return [url for url in urls if not url.startswith(("file:", "blob:", "data:", "about:", "chrome:", "devtools:"))]

    def faults(self):
        """What the page reported as wrong."""
        thrown = [it["params"]["exceptionDetails"] for it in self.events if it.get("method") == "Runtime.exceptionThrown"]
        logged = [it["params"]["entry"]["text"] for it in self.events if it.get("method") == "Log.entryAdded" and it["params"]["entry"]["level"] == "error"]
        return [str(it.get("exception", {}).get("description", it)) for it in thrown] + logged

    def close(self):
        """Ends the browser, which writes all of its log."""
        if self.process.returncode is not None:
            return
        with contextlib.suppress(RuntimeError, OSError):
            self.session = None
            self.call("Browser.close")
        with contextlib.suppress(subprocess.TimeoutExpired):
            self.process.wait(10)
        self.process.terminate()
        with contextlib.suppress(subprocess.TimeoutExpired):
            self.process.wait(10)
        if self.process.poll() is None:
            self.process.kill()
        os.close(self.out)
        os.close(self.inp)
        shutil.rmtree(self.folder, ignore_errors=True)
