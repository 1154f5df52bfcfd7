"""A headless chromium, driven through its debugging pipe."""

import base64
import json
import os
import shutil
import subprocess
import tempfile
import time


def chromium():
    """The browser's command, or None if it isn't installed."""
    return next(filter(None, map(shutil.which, ("chromium", "chromium-browser", "google-chrome"))), None)


class Browser:
    """One page in a headless browser without a network."""

    def __init__(self, width=1400, height=1000):
        self.profile = tempfile.mkdtemp()
        to_read, self.write_end = os.pipe()
        self.read_end, to_write = os.pipe()

        def pipes():
            os.dup2(to_read, 63)
            os.dup2(to_write, 64)
            os.dup2(63, 3)
            os.dup2(64, 4)

        words = [chromium(), "--headless", "--no-sandbox", "--disable-gpu", "--hide-scrollbars", "--remote-debugging-pipe",
                 "--proxy-server=127.0.0.1:1", f"--user-data-dir={self.profile}", f"--window-size={width},{height}"]
        self.process = subprocess.Popen(words, preexec_fn=pipes, close_fds=False, stdout=subprocess.DEVNULL, stderr=subprocess.DEVNULL)
        os.close(to_read)
        os.close(to_write)
        self.number, self.buffer, self.session = 0, b"", None
        self.messages = []
        target = self.ask("Target.createTarget", url="about:blank")["targetId"]
        self.session = self.ask("Target.attachToTarget", targetId=target, flatten=True)["sessionId"]
        self.ask("Runtime.enable")
        self.ask("Page.enable")

    def __enter__(self):
        return self

    def __exit__(self, *_):
        self.process.kill()
        self.process.wait()
        os.close(self.write_end)
        os.close(self.read_end)
        shutil.rmtree(self.profile, ignore_errors=True)

    def message(self):
        while b"\0" not in self.buffer:
            more = os.read(self.read_end, 1 << 20)
            if not more:
                raise RuntimeError("the browser ended")
            self.buffer += more
        text, _, self.buffer = self.buffer.partition(b"\0")
        return json.loads(text)

    def ask(self, method, **parameters):
        self.number += 1
        request = {"id": self.number, "method": method, "params": parameters}
        if self.session:
            request["sessionId"] = self.session
        os.write(self.write_end, json.dumps(request).encode() + b"\0")
        while True:
            answer = self.message()
            if answer.get("id") == self.number:
                if "error" in answer:
                    raise RuntimeError(f"{method}: {answer['error']}")
                return answer["result"]
            self.messages.append(answer)

    def faults(self):
        """What the page's script threw or logged to the console as an error."""
        return [m for m in self.messages if m.get("method") == "Runtime.exceptionThrown"
                or m.get("method") == "Runtime.consoleAPICalled" and m["params"]["type"] == "error"]

    def run(self, script):
        """The value of a script in the page."""
        answer = self.ask("Runtime.evaluate", expression=script, returnByValue=True, awaitPromise=True)
        if "exceptionDetails" in answer:
            raise RuntimeError(str(answer["exceptionDetails"]))
        return answer["result"].get("value")

    def until(self, script, seconds=20):
        """Waits until a script returns something true, and returns that."""
        end = time.monotonic() + seconds
        while True:
            value = self.run(script)
            if value or time.monotonic() > end:
                return value
            time.sleep(0.05)

    def open(self, path):
        self.ask("Page.navigate", url="file://" + os.path.abspath(path))
        return self.until("document.readyState === 'complete' && document.querySelectorAll('tbody tr').length > 0")

    def click(self, selector):
        """A click with the mouse in the middle of an element."""
        where = self.run(f"""(() => {{ const e = document.querySelector({json.dumps(selector)}); e.scrollIntoView({{block: "center"}});
            const r = e.getBoundingClientRect(); return [r.x + r.width / 2, r.y + r.height / 2]; }})()""")
        for what in ("mousePressed", "mouseReleased"):
            self.ask("Input.dispatchMouseEvent", type=what, x=where[0], y=where[1], button="left", clickCount=1)

    def picture(self, path, height=None):
        """The page's picture, from its top."""
        more = {}
        if height:
            size = self.run("[innerWidth, innerHeight]")
            more = {"clip": {"x": 0, "y": 0, "width": size[0], "height": height, "scale": 1}, "captureBeyondViewport": True}
        data = base64.b64decode(self.ask("Page.captureScreenshot", format="png", **more)["data"])
        with open(path, "wb") as out:
            out.write(data)
