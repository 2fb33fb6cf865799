"""Chromium without a screen, driven by the DevTools protocol over a pair of pipes."""
import base64
import json
import os
import select
import shutil
import subprocess
import tempfile
import time

NAMES = ("chromium", "chromium-browser", "google-chrome")
END = b"\0"     # of each message


class Refused(Exception):
    """What the browser answered in place of a result, or that it did not answer."""


def find_browser():
    return next(filter(None, map(shutil.which, NAMES)), None)


class Pipe:
    """Messages over two file descriptors."""

    def __init__(self, to_browser, from_browser, seconds=60):
        self.to_browser, self.from_browser, self.seconds = to_browser, from_browser, seconds
        self.rest = b""

    def send(self, message):
        data = json.dumps(message).encode() + END
        while data:
            data = data[os.write(self.to_browser, data):]

    def receive(self):
        until = time.monotonic() + self.seconds
        while END not in self.rest:
            ready, _, _ = select.select([self.from_browser], [], [], max(0, until - time.monotonic()))
            piece = os.read(self.from_browser, 1 << 20) if ready else b""
            if not piece:
                raise Refused("the browser went away" if ready else "no answer for %d seconds" % self.seconds)
            self.rest += piece
        message, _, self.rest = self.rest.partition(END)
        return json.loads(message)


class Session:
    """Calls and events of the browser, or of one of its pages."""

    def __init__(self, pipe, name=None):
        self.pipe, self.name, self.number, self.events = pipe, name, 0, []

    def call(self, method, **parameters):
        self.number += 1
        message = {"id": self.number, "method": method, "params": parameters}
        self.pipe.send(dict(message, sessionId=self.name) if self.name else message)
        while True:
            answer = self.pipe.receive()
            if answer.get("sessionId") == self.name and answer.get("id") == self.number:
                if "error" in answer:
                    raise Refused("%s: %s" % (method, answer["error"]["message"]))
                return answer["result"]
            self.events.append(answer)


class Browser:
    def __init__(self, program):
        self.folder = tempfile.mkdtemp()
        theirs_in, ours_out = os.pipe()
        ours_in, theirs_out = os.pipe()
        words = [program, "--headless", "--no-sandbox", "--disable-gpu", "--hide-scrollbars", "--no-first-run",
                 "--remote-debugging-pipe", "--user-data-dir=" + self.folder, "about:blank"]
        shell = ["bash", "-c", 'exec "$@" 3<&%d 4>&%d' % (theirs_in, theirs_out), "browser", *words]
        self.process = subprocess.Popen(shell, pass_fds=(theirs_in, theirs_out), stderr=subprocess.DEVNULL)
        os.close(theirs_in)
        os.close(theirs_out)
        self.pipe = Pipe(ours_out, ours_in)
        self.session = Session(self.pipe)

    def page(self, width=1280, height=900):
        target = self.session.call("Target.createTarget", url="about:blank")["targetId"]
        session = self.session.call("Target.attachToTarget", targetId=target, flatten=True)["sessionId"]
        page = Page(Session(self.pipe, session), width, height)
        page.close = lambda: self.session.call("Target.closeTarget", targetId=target)
        return page

    def close(self):
        try:
            self.session.call("Browser.close")
            self.process.wait(10)
        except (Refused, OSError, subprocess.TimeoutExpired):
            self.process.kill()
            self.process.wait()
        shutil.rmtree(self.folder, ignore_errors=True)

    def __enter__(self):
        return self

    def __exit__(self, *_):
        self.close()


class Page:
    def __init__(self, session, width, height):
        self.call, self.session, self.url = session.call, session, ""
        for domain in ("Page", "Runtime", "Log", "Network"):
            self.call(domain + ".enable")
        self.resize(width, height)

    def resize(self, width, height):
        self.call("Emulation.setDeviceMetricsOverride", width=width, height=height, deviceScaleFactor=1,
                  mobile=width < 600)

    def emulate(self, scheme, media=""):
        self.call("Emulation.setEmulatedMedia", media=media, features=[{"name": "prefers-color-scheme",
                                                                       "value": scheme}])

    def open(self, path):
        """Loads a file; returns when it is drawn."""
        self.session.events.clear()
        self.url = "file://" + os.path.abspath(path)
        self.call("Page.navigate", url=self.url)
        self.wait_for_the_page()

    def wait_for_the_page(self):
        self.evaluate("new Promise(done => { const look = () => document.readyState === 'complete' ? "
                      "requestAnimationFrame(() => done(1)) : setTimeout(look, 20); look(); })")

    def evaluate(self, words):
        answer = self.call("Runtime.evaluate", expression=words, returnByValue=True, awaitPromise=True)
        if "exceptionDetails" in answer:
            raise Refused(answer["exceptionDetails"].get("exception", {}).get("description", str(answer)))
        return answer["result"].get("value")

    def settled(self):
        """What was asked for is drawn."""
        self.evaluate("new Promise(done => requestAnimationFrame(() => requestAnimationFrame(() => done(1))))")

    def key(self, name, text=None):
        code = {"key": name, **({"text": text} if text else {})}
        self.call("Input.dispatchKeyEvent", type="keyDown", **code)
        self.call("Input.dispatchKeyEvent", type="keyUp", key=name)
        self.settled()

    def mouse(self, kind, x, y, **more):
        self.call("Input.dispatchMouseEvent", type=kind, x=x, y=y, **more)
        self.settled()

    def touch(self, kind, points):
        self.call("Emulation.setTouchEmulationEnabled", enabled=True)
        self.call("Input.dispatchTouchEvent", type=kind, touchPoints=points)
        self.settled()

    def complaints(self):
        """Errors and warnings of the console, exceptions, and whatever was fetched beside the page itself."""
        out = []
        for event in self.session.events:
            what, parameters = event.get("method"), event.get("params", {})
            if what == "Runtime.exceptionThrown":
                out.append(parameters["exceptionDetails"].get("exception", {}).get("description", "an exception"))
            elif what == "Runtime.consoleAPICalled" and parameters["type"] in ("error", "warning", "assert"):
                out.append("console: %s" % parameters["args"])
            elif what == "Log.entryAdded" and parameters["entry"]["level"] in ("error", "warning"):
                out.append("log: " + parameters["entry"]["text"])
            elif what == "Network.requestWillBeSent" and parameters["type"] != "Document":
                out.append("fetched: " + parameters["request"]["url"])
        return out

    def size(self):
        content = self.call("Page.getLayoutMetrics")["cssContentSize"]
        return content["width"], content["height"]

    def screenshot(self, path, whole=True):
        width, height = self.size()
        clip = {"clip": {"x": 0, "y": 0, "width": width, "height": min(height, 15000), "scale": 1}} if whole else {}
        answer = self.call("Page.captureScreenshot", format="png", captureBeyondViewport=whole, **clip)
        self.keep(path, answer)

    def pdf(self, path):
        self.keep(path, self.call("Page.printToPDF", printBackground=True, paperWidth=8.27, paperHeight=11.69))

    def keep(self, path, answer):
        with open(path, "wb") as file:
            file.write(base64.b64decode(answer["data"]))
