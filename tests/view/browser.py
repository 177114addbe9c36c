"""Chromium without a window, asked over two pipes by its own protocol: opens a page from a file, and asks it by its script."""
import base64
import itertools
import json
import os
import select
import shutil
import signal
import subprocess
import tempfile
import time

NAMES = ("chromium", "chromium-browser", "google-chrome")
WORDS = ["--headless=new", "--no-sandbox", "--disable-gpu", "--hide-scrollbars", "--no-first-run", "--remote-debugging-pipe"]
SECONDS = 90
LOCAL = ("file:", "data:", "blob:", "about:")


class Lost(Exception):
    """The browser didn't answer, or the page has a fault."""


def browser_program():
    return next((it for it in NAMES if shutil.which(it)), None)


class Browser:
    """A page at a time. `errors` has what its script and its console said of faults, and what it asked of the network."""

    def __init__(self, wide=1400, high=800):
        self.home, self.numbers, self.errors, self.rest = tempfile.mkdtemp(prefix="view-browser-"), itertools.count(1), [], b""
        theirs, self.out = os.pipe()
        self.given, ours = os.pipe()
        words = [browser_program(), *WORDS, f"--user-data-dir={self.home}", f"--window-size={wide},{high}", "about:blank"]
        # (the browser reads from 3 and writes to 4)
        shell = ["sh", "-c", f'exec "$@" 3<&{theirs} 4>&{ours}', "sh", *words]
        self.process = subprocess.Popen(shell, pass_fds=(theirs, ours), stdin=subprocess.DEVNULL, stdout=subprocess.DEVNULL,
                                        stderr=subprocess.DEVNULL, start_new_session=True)
        os.close(theirs)
        os.close(ours)
        self.session = None
        target = self.page_target()
        self.session = self.ask("Target.attachToTarget", targetId=target, flatten=True)["sessionId"]
        for domain in ("Page", "Runtime", "Log", "Network"):
            self.ask(f"{domain}.enable")

    def page_target(self):
        """The page that the browser opens with."""
        for _ in range(100):
            found = [it for it in self.ask("Target.getTargets")["targetInfos"] if it["type"] == "page"]
            if found:
                return found[0]["targetId"]
            time.sleep(0.05)
        raise Lost("the browser opens no page")

    def ask(self, method, **values):
        number = next(self.numbers)
        message = {"id": number, "method": method, "params": values}
        if self.session:
            message["sessionId"] = self.session
        text = json.dumps(message).encode() + b"\0"
        while text:
            text = text[os.write(self.out, text):]
        answer = self.wait_for(lambda it: it.get("id") == number)
        if "error" in answer:
            raise Lost(f"{method}: {answer['error']['message']}")
        return answer["result"]

    def wait_for(self, is_it):
        end = time.monotonic() + SECONDS
        while True:
            message = self.next_message(end)
            self.note(message)
            if is_it(message):
                return message

    def next_message(self, end):
        while b"\0" not in self.rest:
            if not select.select([self.given], [], [], max(0, end - time.monotonic()))[0]:
                raise Lost(f"the browser had said nothing after {SECONDS} seconds")
            piece = os.read(self.given, 1 << 20)
            if not piece:
                raise Lost("the browser ended")
            self.rest += piece
        text, _, self.rest = self.rest.partition(b"\0")
        return json.loads(text)

    def note(self, message):
        """Keeps what is wrong with the page."""
        method, it = message.get("method"), message.get("params", {})
        if method == "Runtime.exceptionThrown":
            details = it["exceptionDetails"]
            self.errors.append(details.get("exception", {}).get("description") or details["text"])
        elif method == "Runtime.consoleAPICalled" and it["type"] in ("error", "warning", "assert"):
            self.errors.append(" ".join(str(arg.get("value", arg.get("description"))) for arg in it["args"]))
        elif method == "Log.entryAdded" and it["entry"]["level"] == "error":
            self.errors.append(it["entry"]["text"])
        elif method == "Network.requestWillBeSent" and not it["request"]["url"].startswith(LOCAL):
            self.errors.append(f"it asks for {it['request']['url']}")

    def open(self, path, fragment=""):
        """Opens the page, and waits until it is drawn."""
        self.errors = []
        self.ask("Page.navigate", url="about:blank")
        self.ask("Page.navigate", url=f"file://{path}{fragment}")
        self.run("new Promise((done) => document.readyState === 'complete' ? done() : addEventListener('load', done))")
        return self.run("ready.then(() => performance.getEntriesByName('drawn').map((it) => it.startTime)[0] || 0)")

    def run(self, script):
        """What the script comes to in the page."""
        answer = self.ask("Runtime.evaluate", expression=script, awaitPromise=True, returnByValue=True)
        if "exceptionDetails" in answer:
            details = answer["exceptionDetails"]
            raise Lost(details.get("exception", {}).get("description") or details["text"])
        return answer["result"].get("value")

    def press(self, *keys):
        """Real keys, one after another."""
        for key in keys:
            text = {"text": key} if len(key) == 1 else {"text": "\r"} if key == "Enter" else {}
            self.ask("Input.dispatchKeyEvent", type="keyDown", key=key, **text)
            self.ask("Input.dispatchKeyEvent", type="keyUp", key=key)

    def resize(self, wide, high):
        self.ask("Emulation.setDeviceMetricsOverride", width=wide, height=high, deviceScaleFactor=1, mobile=False)

    def dark(self, is_dark):
        features = [{"name": "prefers-color-scheme", "value": "dark" if is_dark else "light"}]
        self.ask("Emulation.setEmulatedMedia", features=features)

    def picture(self, path):
        self.run("new Promise((done) => requestAnimationFrame(() => requestAnimationFrame(done)))")
        path.write_bytes(base64.b64decode(self.ask("Page.captureScreenshot", format="png")["data"]))

    def paper(self):
        """The printed page, as PDF."""
        return base64.b64decode(self.ask("Page.printToPDF", printBackground=True, landscape=True)["data"])

    def close(self):
        os.killpg(self.process.pid, signal.SIGKILL)
        self.process.wait()
        os.close(self.out)
        os.close(self.given)
        shutil.rmtree(self.home, ignore_errors=True)

    def __enter__(self):
        return self

    def __exit__(self, *_):
        self.close()
