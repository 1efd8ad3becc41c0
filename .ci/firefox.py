"""A headless Firefox, driven over its Marionette protocol. `.ci/player` looks at the player with it."""

import json
import os
import shutil
import socket
import subprocess
import tempfile
import time


class Firefox:
    """A browser with one page."""

    def __init__(self, program):
        self.profile = tempfile.mkdtemp()
        with socket.socket() as free:
            free.bind(("127.0.0.1", 0))
            port = free.getsockname()[1]
        with open(os.path.join(self.profile, "user.js"), "w", encoding="ascii") as settings:
            settings.write(f'user_pref("marionette.port", {port});\n')
        command = [program, "--headless", "--no-remote", "--marionette", "--profile", self.profile]
        self.process = subprocess.Popen(
            command, env={**os.environ, "HOME": self.profile}, stdout=subprocess.DEVNULL, stderr=subprocess.DEVNULL
        )
        self.number = 0
        until = time.monotonic() + 60
        while True:
            try:
                self.socket = socket.create_connection(("127.0.0.1", port), timeout=60)
                break
            except OSError:
                if time.monotonic() > until:
                    raise
                time.sleep(0.2)
        self.input = self.socket.makefile("rb")
        self.message()
        self.call("WebDriver:NewSession", capabilities={})

    def message(self):
        """Reads a message: its length, a colon, and JSON."""
        length = b""
        while (byte := self.input.read(1)) not in (b":", b""):
            length += byte
        return json.loads(self.input.read(int(length)))

    def call(self, name, **parameters):
        """Sends a command and waits for its answer."""
        self.number += 1
        content = json.dumps([0, self.number, name, parameters]).encode()
        self.socket.sendall(b"%d:%s" % (len(content), content))
        _, _, error, result = self.message()
        if error:
            raise RuntimeError(f"{name}: {error}")
        return result

    def open(self, name):
        """Opens a page and waits until it can be used."""
        self.call("WebDriver:Navigate", url="file://" + os.path.abspath(name))
        until = time.monotonic() + 60
        while not self.ask("performance.getEntriesByName('usable').length"):
            if time.monotonic() > until:
                raise RuntimeError(f"{name} isn't usable after a minute")
            time.sleep(0.05)

    def ask(self, code):
        """Returns the value of an expression of the page."""
        return self.call("WebDriver:ExecuteScript", script=f"return {code}", args=[])["value"]

    def end(self):
        """Ends the browser."""
        try:
            self.call("Marionette:Quit", flags=["eForceQuit"])
        except (RuntimeError, OSError, ValueError):
            self.process.terminate()
        self.process.wait()
        shutil.rmtree(self.profile, ignore_errors=True)
