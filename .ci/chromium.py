"""A headless Chromium, driven over its debugging pipe. `.ci/browser.py` looks at pages with it."""

import json
import os
import shutil
import subprocess
import tempfile
import time

OPTIONS = "--headless --no-sandbox --disable-gpu --disable-dev-shm-usage --no-first-run --window-size=1440,900 --remote-debugging-pipe"

KEYS = {"Enter": 13, " ": 32, "End": 35, "ArrowDown": 40, "ArrowUp": 38, "ArrowLeft": 37, "ArrowRight": 39}


class Browser:
    """A browser with one page. Messages go by the file descriptors 3 and 4, as JSON that ends with a byte 00."""

    def __init__(self, program):
        self.profile = tempfile.mkdtemp()
        theirs, self.output = os.pipe()
        self.input, ours = os.pipe()
        command = f'exec "$0" {OPTIONS} --user-data-dir="$1" about:blank 3<&{theirs} 4>&{ours} 2> /dev/null'
        self.process = subprocess.Popen(["bash", "-c", command, program, self.profile], pass_fds=(theirs, ours))
        os.close(theirs)
        os.close(ours)
        self.number, self.rest, self.session, self.faults, self.loaded = 0, b"", None, [], []
        target = self.call("Target.createTarget", url="about:blank")["targetId"]
        self.session = self.call("Target.attachToTarget", targetId=target, flatten=True)["sessionId"]
        for domain in ("Page", "Runtime", "Log", "Network", "DOM", "Accessibility"):
            self.call(domain + ".enable")

    def message(self):
        while b"\0" not in self.rest:
            more = os.read(self.input, 1 << 20)
            if not more:
                raise RuntimeError("the browser has ended")
            self.rest += more
        one, self.rest = self.rest.split(b"\0", 1)
        return json.loads(one)

    def call(self, method, **params):
        """Sends a command and waits for its answer. What the page says meanwhile of faults and of what it loads is kept."""
        self.number += 1
        message = {"id": self.number, "method": method, "params": params}
        if self.session:
            message["sessionId"] = self.session
        os.write(self.output, json.dumps(message).encode() + b"\0")
        while True:
            answer = self.message()
            if answer.get("id") == self.number:
                if "error" in answer:
                    raise RuntimeError(f"{method}: {answer['error']}")
                return answer["result"]
            params = answer.get("params", {})
            if answer.get("method") == "Runtime.exceptionThrown" or params.get("entry", {}).get("level") == "error":
                self.faults.append(json.dumps(params)[:400])
            if answer.get("method") == "Network.requestWillBeSent":
                self.loaded.append(params["request"]["url"])

    def ask(self, code):
        answer = self.call("Runtime.evaluate", expression=code, awaitPromise=True, returnByValue=True)
        if "exceptionDetails" in answer:
            raise RuntimeError(json.dumps(answer["exceptionDetails"])[:400])
        return answer["result"].get("value")

    def open(self, name, place=""):
        """Opens a page and answers in how many seconds it was usable."""
        self.call("Page.navigate", url="about:blank")
        self.call("Page.navigate", url="file://" + os.path.abspath(name) + place)
        until = time.monotonic() + 60
        while not self.ask("performance.getEntriesByName('usable').length"):
            if time.monotonic() > until:
                raise RuntimeError(f"{name} isn't usable after a minute")
            time.sleep(0.02)
        return self.ask("performance.getEntriesByName('usable')[0].startTime") / 1000

    def press(self, key, times=1):
        for _ in range(times):
            for kind in ("keyDown", "keyUp"):
                self.call("Input.dispatchKeyEvent", type=kind, key=key, code=key, windowsVirtualKeyCode=KEYS[key], text="\r" if key == "Enter" else "")

    def write_in(self, place, text):
        self.ask(f"document.getElementById('{place}').focus()")
        self.call("Input.insertText", text=text)
        self.press("Enter")

    def give(self, names, until):
        """Gives the page these files, as its button does, and waits until something of it is so."""
        self.ask("document.getElementById('fault').textContent = ''")
        root = self.call("DOM.getDocument")["root"]["nodeId"]
        node = self.call("DOM.querySelector", nodeId=root, selector="#files")["nodeId"]
        self.call("DOM.setFileInputFiles", nodeId=node, files=[os.path.abspath(name) for name in names])
        for _ in range(200):
            if self.ask(until):
                break
            time.sleep(0.1)

    def end(self):
        self.session = None
        try:
            self.call("Browser.close")
        except (RuntimeError, OSError):
            pass
        self.process.wait()
        shutil.rmtree(self.profile, ignore_errors=True)
