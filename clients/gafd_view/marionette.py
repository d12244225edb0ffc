"""Firefox without windows of its own, which is told what to do over its own socket (Marionette),
where an answer is its length, a colon and JSON."""
import json
import socket
import subprocess
import time

STARTING, PATIENCE = 480, 600
PREFERENCES = {"marionette.port": 0, "browser.shell.checkDefaultBrowser": False,
               "datareporting.policy.dataSubmissionEnabled": False, "app.update.auto": False,
               "browser.startup.homepage": "about:blank", "toolkit.telemetry.enabled": False}


class Marionette:
    """One Firefox with one window, over a folder for its profile."""

    def __init__(self, binary, profile):
        self.profile, self.socket = profile, None
        rows = [f"user_pref({json.dumps(name)}, {json.dumps(value)});\n"
                for name, value in PREFERENCES.items()]
        (self.profile / "user.js").write_text("".join(rows))
        words = [binary, "--headless", "--marionette", "--no-remote", "--profile", self.profile]
        self.process = subprocess.Popen(words, stdout=subprocess.DEVNULL, stderr=subprocess.DEVNULL)
        try:
            self.socket = socket.create_connection(("127.0.0.1", self.port()), PATIENCE)
            self.file, self.number = self.socket.makefile("rb"), 0
            self.answer()
            self.tell("WebDriver:NewSession", {"capabilities": {"alwaysMatch": {}}})
        except BaseException:
            self.close()
            raise

    def port(self):
        """The port that it chose, which it writes into its profile."""
        path, ends = self.profile / "MarionetteActivePort", time.monotonic() + STARTING
        while time.monotonic() < ends and self.process.poll() is None:
            if path.exists() and path.read_text().strip():
                return int(path.read_text())
            time.sleep(0.1)
        raise OSError("it does not start")

    def answer(self):
        length = b""
        while (byte := self.file.read(1)) != b":":
            if not byte:
                raise OSError("it went away")
            length += byte
        return json.loads(self.file.read(int(length)))

    def tell(self, command, words):
        """What a command answers."""
        self.number += 1
        data = json.dumps([0, self.number, command, words]).encode()
        self.socket.sendall(b"%d:%s" % (len(data), data))
        _, _, fault, result = self.answer()
        if fault:
            raise ValueError(f"{command}: {fault['error']}: {fault['message']}")
        return result.get("value") if isinstance(result, dict) else result

    def close(self):
        """Ends it. What stands on the PATH may be a script, which ends when its browser does."""
        if self.socket and self.process.poll() is None:
            try:
                self.tell("Marionette:Quit", {"flags": ["eForceQuit"]})
                self.process.wait(10)
            except (OSError, ValueError, subprocess.TimeoutExpired):
                pass
        if self.socket:
            self.socket.close()
        if self.process.poll() is None:
            self.process.terminate()
            self.process.wait(PATIENCE)
