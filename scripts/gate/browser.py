"""Chromium without a window, by its debugging protocol over a pipe, and a server of a folder. For web_cases.py."""
import base64
import http.server
import json
import os
import shutil
import subprocess
import threading
from functools import partial

SECONDS = 120
WORDS = ["--headless=new", "--no-sandbox", "--disable-gpu", "--disable-dev-shm-usage", "--no-first-run", "--remote-debugging-pipe", "--window-size=1400,1000"]


class Missing(Exception):
    """There is no browser."""


class Silent(http.server.SimpleHTTPRequestHandler):
    def log_message(self, *words):
        """Says nothing."""


class Server:
    """Serves a folder at `url` while it is entered."""

    def __init__(self, folder):
        self.server = http.server.ThreadingHTTPServer(("127.0.0.1", 0), partial(Silent, directory=str(folder)))
        self.url = f"http://127.0.0.1:{self.server.server_port}/"

    def __enter__(self):
        threading.Thread(target=self.server.serve_forever, daemon=True).start()
        return self

    def __exit__(self, *why):
        self.server.shutdown()
        self.server.server_close()


class Browser:
    """A browser with a home of its own; `events` has what it told so far."""

    def __init__(self, room):
        program = next((it for it in ("chromium", "google-chrome", "chromium-browser") if shutil.which(it)), None)
        if program is None:
            raise Missing("Chromium")
        (theirs, self.to), (self.ours, theirs_too) = os.pipe(), os.pipe()
        words = [program, *WORDS, f"--user-data-dir={room / 'profile'}", "about:blank"]
        self.child = subprocess.Popen(["bash", "-c", f'exec "$@" 3<&{theirs} 4>&{theirs_too}', "browser", *words], pass_fds=(theirs, theirs_too),
                                      stdin=subprocess.DEVNULL, stdout=subprocess.DEVNULL, stderr=subprocess.DEVNULL, env={**os.environ, "HOME": str(room)})
        os.close(theirs), os.close(theirs_too)
        self.count, self.held, self.events = 0, b"", []
        self.watch = threading.Timer(SECONDS * 5, self.child.kill)
        self.watch.start()

    def __enter__(self):
        return self

    def __exit__(self, *why):
        self.watch.cancel()
        self.child.terminate()
        self.child.wait()
        os.close(self.to), os.close(self.ours)

    def read(self):
        while b"\0" not in self.held:
            more = os.read(self.ours, 1 << 20)
            if not more:
                raise ValueError("the browser ended")
            self.held += more
        message, _, self.held = self.held.partition(b"\0")
        return json.loads(message)

    def ask(self, method, session=None, **given):
        self.count += 1
        message = {"id": self.count, "method": method, "params": given, **({"sessionId": session} if session else {})}
        whole = json.dumps(message).encode() + b"\0"
        while whole:
            whole = whole[os.write(self.to, whole):]
        while True:
            answer = self.read()
            if answer.get("id") == self.count:
                if "error" in answer:
                    raise ValueError(f"{method}: {answer['error']}")
                return answer["result"]
            self.events.append(answer)

    def open(self, url):
        """A tab that has loaded a page."""
        target = self.ask("Target.createTarget", url="about:blank")["targetId"]
        tab = Tab(self, self.ask("Target.attachToTarget", targetId=target, flatten=True)["sessionId"])
        for domain in ("Page", "Runtime", "Log", "Network"):
            tab.ask(f"{domain}.enable")
        tab.ask("Page.navigate", url=url)
        tab.wait("document.readyState === 'complete' && location.href !== 'about:blank'")
        return tab


class Tab:
    def __init__(self, browser, session):
        self.browser, self.session = browser, session

    def ask(self, method, **given):
        return self.browser.ask(method, self.session, **given)

    def run(self, code):
        """The value of an expression, once it is there."""
        done = self.ask("Runtime.evaluate", expression=code, awaitPromise=True, returnByValue=True)
        if "exceptionDetails" in done:
            raise ValueError(f"{code[:200]}: {done['exceptionDetails'].get('exception', {}).get('description', done)}")
        return done["result"].get("value")

    def wait(self, code):
        """Waits until an expression is true."""
        if not self.run(f"(async () => {{ for (let i = 0; i < {SECONDS * 100}; i++) {{ if ({code}) return true; await new Promise((go) => setTimeout(go, 10)); }} }})()"):
            raise ValueError(f"this did not come: {code}")

    def press(self, key):
        for kind in ("keyDown", "keyUp"):
            self.ask("Input.dispatchKeyEvent", type=kind, key=key, code=key, windowsVirtualKeyCode={"Tab": 9, "Enter": 13}[key], text="\r" if key == "Enter" and kind == "keyDown" else "")

    def picture(self, file):
        file.write_bytes(base64.b64decode(self.ask("Page.captureScreenshot", format="png")["data"]))
