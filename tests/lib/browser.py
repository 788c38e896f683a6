"""A browser that a test drives: Debian's chromium without a screen, by the WebDriver protocol of its chromium-driver."""

import base64
import contextlib
import http.client
import json
import os
import pathlib
import signal
import subprocess
import time

from serving import HOST, free_port

# Seconds that the browser may take for anything that it is asked or waited for.
PATIENCE = 60

ELEMENT = "element-6066-11e4-a52e-4f735466cecf"

# No sandbox, since the tests may run as root in a container; nothing is fetched from elsewhere.
SWITCHES = [
    "--headless=new",
    "--no-sandbox",
    "--disable-gpu",
    "--disable-dev-shm-usage",
    "--disable-background-networking",
    "--disable-component-update",
    "--disable-sync",
    "--no-first-run",
    "--no-proxy-server",
    "--host-resolver-rules=MAP * ~NOTFOUND, EXCLUDE 127.0.0.1",
]


class Browser:
    """A window of a browser, and what is done in it."""

    def __init__(self, port, folder):
        self.port, self.session = port, None
        options = {"binary": "/usr/bin/chromium", "args": [*SWITCHES, f"--user-data-dir={folder}/profile"]}
        wanted = {"browserName": "chrome", "goog:chromeOptions": options, "goog:loggingPrefs": {"browser": "ALL"}}
        self.session = self.send("POST", "/session", {"capabilities": {"alwaysMatch": wanted}})["sessionId"]

    def send(self, method, path, body=None):
        """Sends one command, and answers its value."""
        connection = http.client.HTTPConnection(HOST, self.port, timeout=PATIENCE)
        with contextlib.closing(connection):
            target = path if self.session is None else f"/session/{self.session}{path}"
            connection.request(method, target, None if body is None else json.dumps(body), {"Content-Type": "application/json"})
            value = json.loads(connection.getresponse().read())["value"]
        if isinstance(value, dict) and "error" in value:
            raise AssertionError((path, value["error"], value["message"].partition("\n")[0]))
        return value

    def goes_to(self, url):
        self.send("POST", "/url", {"url": url})

    def resizes(self, width, height):
        self.send("POST", "/window/rect", {"width": width, "height": height})

    def runs(self, script, *given):
        """What a script in the page returns; elements are given and returned as the protocol writes them."""
        return self.send("POST", "/execute/sync", {"script": script, "args": list(given)})

    def element(self, css):
        return self.send("POST", "/element", {"using": "css selector", "value": css})

    def clicks(self, css):
        self.send("POST", f"/element/{self.element(css)[ELEMENT]}/click", {})

    def types(self, css, text):
        """Types a text in the place of what stands there; a file input takes paths."""
        element = self.element(css)
        self.runs("if (arguments[0].type !== 'file') arguments[0].value = ''", element)
        self.send("POST", f"/element/{element[ELEMENT]}/value", {"text": text})

    def presses(self, *keys):
        """Presses keys, one after the other, wherever the focus is."""
        actions = [{"type": kind, "value": key} for key in keys for kind in ["keyDown", "keyUp"]]
        self.send("POST", "/actions", {"actions": [{"type": "key", "id": "keys", "actions": actions}]})

    def clicks_at(self, x, y):
        """Clicks at a point of the window."""
        moves = {"type": "pointerMove", "duration": 0, "x": round(x), "y": round(y), "origin": "viewport"}
        actions = [moves, {"type": "pointerDown", "button": 0}, {"type": "pointerUp", "button": 0}]
        self.send("POST", "/actions", {"actions": [{"type": "pointer", "id": "mouse", "actions": actions}]})

    def text(self, css):
        """What a reader sees of the elements, one after the other."""
        return self.runs("return [...document.querySelectorAll(arguments[0])].map(e => e.innerText).join('\\n')", css)

    def waits_for(self, what, found):
        """Waits until a function of this browser answers something true, and answers that."""
        ends = time.monotonic() + PATIENCE
        while not (value := found(self)):
            assert time.monotonic() < ends, (what, self.text("body"))
            time.sleep(0.05)
        return value

    def shows(self, css, text):
        """Waits until the elements show a text."""
        self.waits_for((css, text), lambda browser: text in browser.text(css))

    def complaints(self):
        """What the browser has written since it was last asked: errors of scripts, and what the page was not let do."""
        return [entry["message"] for entry in self.send("POST", "/se/log", {"type": "browser"})]

    def pictured(self, path):
        pathlib.Path(path).write_bytes(base64.b64decode(self.send("GET", "/screenshot")))


def is_ready(port):
    connection = http.client.HTTPConnection(HOST, port, timeout=PATIENCE)
    with contextlib.closing(connection), contextlib.suppress(OSError):
        connection.request("GET", "/status")
        return json.loads(connection.getresponse().read())["value"]["ready"]
    return False


@contextlib.contextmanager
def browsing(folder):
    """A browser that ends with the test, and whatever it started with it."""
    port = free_port()
    words = ["/usr/bin/chromedriver", f"--port={port}", f"--log-path={folder}/driver.log"]
    settings = {"stdin": subprocess.DEVNULL, "stdout": subprocess.DEVNULL, "stderr": subprocess.DEVNULL, "start_new_session": True}
    driver = subprocess.Popen(words, env={**os.environ, "HOME": str(folder)}, **settings)
    try:
        ends = time.monotonic() + PATIENCE
        while not is_ready(port):
            assert driver.poll() is None and time.monotonic() < ends, "chromium-driver does not start"
            time.sleep(0.05)
        browser = Browser(port, folder)
        yield browser
        browser.send("DELETE", "")
    finally:
        with contextlib.suppress(ProcessLookupError):
            os.killpg(driver.pid, signal.SIGKILL)
        driver.wait()
