"""A Firefox that tests drive by its own protocol, Marionette, so that no `geckodriver` is needed, which Debian 12 does not have."""

import json
import socket
import subprocess
import time

from tools import FIREFOX

PATIENCE = 120  # seconds until a browser that does not answer is a failure


def free_port():
    with socket.socket() as one:
        one.bind(("127.0.0.1", 0))
        return one.getsockname()[1]


class Firefox:
    """Commands go as lists of numbers, names and values in JSON, each with its length before it."""

    def __init__(self, folder):
        port, profile = free_port(), folder / "firefox"
        profile.mkdir(exist_ok=True)
        (profile / "user.js").write_text(f'user_pref("marionette.port", {port});\nuser_pref("datareporting.policy.dataSubmissionEnabled", false);\n')
        self.running = subprocess.Popen(
            [FIREFOX, "--headless", "--marionette", "--no-remote", "--profile", profile], stdout=subprocess.DEVNULL, stderr=subprocess.DEVNULL
        )
        try:
            self.talk, self.number, self.rest = self.connected(port), 0, b""
            self.answer()  # what the browser says of itself
            self.command("WebDriver:NewSession", capabilities={})
        except BaseException:
            self.running.kill()
            raise

    def connected(self, port):
        begun = time.monotonic()
        while time.monotonic() < begun + PATIENCE:
            try:
                return socket.create_connection(("127.0.0.1", port), timeout=PATIENCE)
            except OSError:
                time.sleep(0.1)
        raise TimeoutError("Firefox does not start")

    def answer(self):
        while True:
            size, colon, begin = self.rest.partition(b":")
            if colon and len(begin) >= int(size):
                self.rest = begin[int(size) :]
                return json.loads(begin[: int(size)])
            more = self.talk.recv(65536)
            if not more:
                raise ConnectionError("Firefox has ended")
            self.rest += more

    def command(self, name, **values):
        self.number += 1
        text = json.dumps([0, self.number, name, values]).encode()
        self.talk.sendall(b"%d:%s" % (len(text), text))
        _, _, fault, result = self.answer()
        if fault:
            raise RuntimeError(f"Firefox, {name}: {fault.get('message')}")
        return result

    def load(self, page, after=""):
        """Loads the file of a page, and waits until it has read its texts."""
        self.command("WebDriver:Navigate", url="about:blank")
        self.command("WebDriver:Navigate", url=page.as_uri() + after)
        begun = time.monotonic()
        while not self.run("return document.documentElement.dataset.ready") and time.monotonic() < begun + PATIENCE:
            time.sleep(0.05)
        return self.run("return document.documentElement.dataset.ready") == "yes"

    def run(self, script, *values):
        return self.command("WebDriver:ExecuteScript", script=script, args=list(values))["value"]

    def quit(self):
        try:
            self.command("Marionette:Quit", flags=["eForceQuit"])
            self.running.wait(20)
        except Exception:
            self.running.kill()
            self.running.wait()
