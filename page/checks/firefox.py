"""Firefox without a window, by its Marionette protocol: each message is its length, a colon, and a list in JSON."""
import base64
import json
import shutil
import socket
import subprocess
import tempfile
import time
from pathlib import Path


class Firefox:
    """A browser with a fresh profile on a free port. It ends with `quit`."""
    name = "Firefox"

    @staticmethod
    def program() -> str | None:
        return shutil.which("firefox-esr") or shutil.which("firefox")

    def __init__(self) -> None:
        self.profile = tempfile.mkdtemp(prefix="page-check-")
        with socket.socket() as free:
            free.bind(("127.0.0.1", 0))
            port = free.getsockname()[1]
        settings = {"marionette.port": port, "browser.shell.checkDefaultBrowser": False, "datareporting.policy.dataSubmissionEnabled": False,
                    "app.update.enabled": False, "network.captive-portal-service.enabled": False}
        Path(self.profile, "user.js").write_text("".join(f"user_pref({json.dumps(key)}, {json.dumps(value)});\n" for key, value in settings.items()))
        self.process = subprocess.Popen([self.program(), "--headless", "--marionette", "--no-remote", "--profile", self.profile, "about:blank"],
                                        stdout=subprocess.DEVNULL, stderr=subprocess.DEVNULL)
        self.number = 0
        try:
            self.socket = self.connected(port)
            self.receive()
            self.version = self.send("WebDriver:NewSession", {})["capabilities"]["browserVersion"]
            self.send("WebDriver:SetTimeouts", {"script": 300_000, "pageLoad": 60_000})
        except BaseException:
            self.quit()
            raise

    def connected(self, port: int) -> socket.socket:
        for _ in range(600):
            try:
                return socket.create_connection(("127.0.0.1", port), timeout=400)
            except ConnectionRefusedError:
                if self.process.poll() is not None:
                    break
                time.sleep(0.1)
        raise RuntimeError("Firefox didn't start")

    def receive(self) -> object:
        head = b""
        while not head.endswith(b":"):
            head += self.some(1)
        body = b""
        while len(body) < int(head[:-1]):
            body += self.some(int(head[:-1]) - len(body))
        return json.loads(body)

    def some(self, most: int) -> bytes:
        came = self.socket.recv(most)
        if came == b"":
            raise RuntimeError("Firefox has gone")
        return came

    def send(self, command: str, details: dict) -> dict:
        self.number += 1
        message = json.dumps([0, self.number, command, details]).encode()
        self.socket.sendall(f"{len(message)}:".encode() + message)
        _, _, error, result = self.receive()
        if error is not None:
            raise RuntimeError(f"{command}: {error.get('message')}")
        return result

    def open(self, url: str) -> None:
        self.send("WebDriver:Navigate", {"url": url})

    def run(self, script: str, *words: object) -> object:
        """What a script returns, or the promise that it returns comes to."""
        return self.send("WebDriver:ExecuteScript", {"script": script, "args": list(words)})["value"]

    def act(self, actions: list[dict]) -> None:
        """Pointer and keys, as WebDriver writes them."""
        self.send("WebDriver:PerformActions", {"actions": actions})

    def requests(self) -> list[str]:
        """What the page asked for, beside itself."""
        return self.run("return performance.getEntriesByType('resource').map(({name}) => name)")

    def size(self, width: int, height: int) -> None:
        self.send("WebDriver:SetWindowRect", {"width": width, "height": height})

    def picture(self, path: str, width: int, height: int) -> None:
        self.size(width, height)
        Path(path).write_bytes(base64.b64decode(self.send("WebDriver:TakeScreenshot", {"full": False, "hash": False})["value"]))

    def printed(self) -> bytes:
        """The page as it is printed, as PDF."""
        return base64.b64decode(self.send("WebDriver:Print", {"page": {"width": 21, "height": 29.7}})["value"])

    def quit(self) -> None:
        self.process.terminate()
        self.process.wait(timeout=30)
        shutil.rmtree(self.profile, ignore_errors=True)
