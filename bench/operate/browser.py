"""A headless Chromium that looks at a page: Debian's chromium, by its own protocol over a pair of pipes."""

import base64
import json
import os
import subprocess
import tempfile


class Browser:
    """Opens a page of this size, and asks it for things."""

    def __init__(self, address, width=1120, height=770):
        self.folder = tempfile.TemporaryDirectory(dir=os.environ["WORK"], ignore_cleanup_errors=True)
        theirs, self.write = os.pipe()
        self.read, out = os.pipe()
        words = ["chromium", "--headless=new", "--no-sandbox", "--disable-gpu", "--disable-dev-shm-usage", "--no-first-run"]
        words += ["--remote-debugging-pipe", f"--user-data-dir={self.folder.name}", f"--window-size={width},{height}", "about:blank"]
        shell = ["sh", "-c", f'exec 3<&{theirs} 4>&{out}; exec "$@"', "sh", *words]
        log = open(f"{self.folder.name}/log", "wb")
        self.process = subprocess.Popen(shell, pass_fds=(theirs, out), stdout=log, stderr=log)
        os.close(theirs), os.close(out)
        self.last, self.rest, self.session = 0, b"", None
        target = self.ask("Target.createTarget", url=address)["targetId"]
        self.session = self.ask("Target.attachToTarget", targetId=target, flatten=True)["sessionId"]

    def ask(self, method, **words):
        """The result of a call of the protocol."""
        self.last += 1
        message = {"id": self.last, "method": method, "params": words}
        if self.session:
            message["sessionId"] = self.session
        os.write(self.write, json.dumps(message).encode() + b"\0")
        while True:
            while b"\0" not in self.rest:
                came = os.read(self.read, 1 << 20)
                if not came:
                    raise OSError("the browser has ended")
                self.rest += came
            said, _, self.rest = self.rest.partition(b"\0")
            said = json.loads(said)
            if said.get("id") == self.last:
                if "error" in said:
                    raise OSError(f"{method}: {said['error']}")
                return said["result"]

    def value(self, expression):
        """What an expression is in the page."""
        return self.ask("Runtime.evaluate", expression=expression, returnByValue=True)["result"].get("value")

    def picture(self, path):
        taken = self.ask("Page.captureScreenshot", format="png")["data"]
        with open(path, "wb") as it:
            it.write(base64.b64decode(taken))

    def close(self):
        self.process.kill()
        self.process.wait()
        self.folder.cleanup()
