"""A headless Chromium and WebKit (the engine of Safari), driven by their drivers in the words of the WebDriver protocol; a headless Firefox, in its own
words for the same, Marionette; and Node, which runs the scripts of tests too, but has no page.

Each has a new profile and ports that the system gave it, and with it ends all that it started. A browser that doesn't come up or that dies lies with the
machine, and not with the page: it is started again, three times in all, and a line says so."""

import base64
import contextlib
import ctypes.util
import functools
import glob
import http.client
import http.server
import json
import os
import re
import shutil
import signal
import socket
import subprocess
import sys
import tempfile
import threading
import time
import traceback
import urllib.error
import urllib.request

from shared import counting

CHROMIUM, DRIVER, FIREFOX, NODE = "chromium", "chromedriver", "firefox-esr", "node"
# WebKit needs a display, which Xvfb is. Its browser isn't on the PATH.
WEBKIT_DRIVER, XVFB, WEBKIT = "WebKitWebDriver", "Xvfb", "/usr/lib/*/webkit2gtk-4.*/MiniBrowser"
# What drags files onto a window there, in the folder of this file, and a place of the display that is within the page.
DRAGGING, HERE, WITHIN = "import sys, dragging; sys.exit(dragging.main(sys.argv[1:]))", os.path.dirname(os.path.abspath(__file__)), (400, 400)
ELEMENT = "element-6066-11e4-a52e-4f735466cecf"
# The most seconds of a script, of a condition that is waited for, until a browser is up, and until it has ended.
SECONDS, PATIENCE, STARTING, ENDING = 600, 120, 120, 30
# How often a browser is started, where it doesn't come up or dies.
STARTS = 3
# What the driver answers where the browser is no longer there.
DEATH = re.compile("session not created|invalid session id|no such window|disconnected|not reachable|cannot connect|crashed|target closed")
# No proxy of the machine stands between a test and its driver.
DIRECT = urllib.request.build_opener(urllib.request.ProxyHandler({}))


def is_there():
    """Whether both are installed."""
    return bool(shutil.which(CHROMIUM) and shutil.which(DRIVER))


def has_webkit():
    """Whether WebKit's browser, its driver and a display for it are installed."""
    return bool(glob.glob(WEBKIT) and shutil.which(WEBKIT_DRIVER) and shutil.which(XVFB))


def can_drag():
    """Whether the libraries are there by which files are dragged onto WebKit's page."""
    return all(map(ctypes.util.find_library, ("gtk-3", "Xtst")))


class Failed(Exception):
    """What the driver or a script answers in place of a value."""


class Died(Exception):
    """The browser or its driver has ended, or does not come up."""


def tested(name, start, tests):
    """Runs tests in a browser that `start` makes. Where it dies, they are run again in another one and counted once; what fails in any other way is
    counted as a failure."""
    for number in range(1, STARTS + 1):
        before = counting.passed, counting.failed
        try:
            with start() as browser:
                tests(browser)
            return
        except Died as why:
            counting.passed, counting.failed = before
            print(f"{name}: the browser died, start {number} of {STARTS}: {why}", flush=True)
        except Exception:  # so that the other tests go on, and the last line comes
            counting.check(False, f"{name}: {traceback.format_exc()}")
            return
    counting.check(False, f"{name}: the browser died {STARTS} times")


# ---- the processes of a browser


def started(words, home, name="said", **more):
    """Starts a process in a session of its own, whose home is a folder, and whose output goes into the file `said` there."""
    environment = {**os.environ, "HOME": home, "TMPDIR": home, **more}
    with open(os.path.join(home, name), "wb") as said:
        return subprocess.Popen(words, stdin=subprocess.DEVNULL, stdout=said, stderr=subprocess.STDOUT, env=environment, start_new_session=True)


def left_of(session, home):
    """The processes of a session, and those that have left it, which their home tells."""
    for pid in map(int, filter(str.isdigit, os.listdir("/proc"))):
        with contextlib.suppress(OSError):
            with open(f"/proc/{pid}/stat", encoding="utf-8", errors="replace") as it:
                state, _, _, own = it.read().rpartition(") ")[2].split()[:4]
            with open(f"/proc/{pid}/environ", "rb") as it:
                homes = it.read().split(b"\0")
            if state != "Z" and (int(own) == session or f"HOME={home}".encode() in homes):
                yield pid


def end(process, home):
    """Ends a process, and all that it started."""
    process.terminate()
    with contextlib.suppress(subprocess.TimeoutExpired):
        process.wait(ENDING)
    last = time.monotonic() + ENDING
    while time.monotonic() < last:
        left = list(left_of(process.pid, home))
        for pid in left:
            with contextlib.suppress(OSError):
                os.kill(pid, signal.SIGKILL)
        if not left:
            break
        time.sleep(0.05)
    process.wait()


def awaited(what, process, found):
    """Waits until a browser that comes up has something, which is returned."""
    last = time.monotonic() + STARTING
    while time.monotonic() < last and process.poll() is None:
        value = found()
        if value:
            return value
        time.sleep(0.05)
    raise Died(f"{what} is not up" if process.poll() is None else f"{what} has ended with status {process.returncode}")


def text_in(path):
    """The text of a file, which may not be there yet."""
    with contextlib.suppress(OSError):
        with open(path, encoding="utf-8", errors="replace") as it:
            return it.read()
    return ""


def number_in(path, pattern):
    """The number behind a pattern in a file, which may not be there yet."""
    found = re.search(pattern, text_in(path))
    return found and int(found[1])


def port_of(process):
    """The port at which a process listens, if it does yet."""
    with contextlib.suppress(OSError):
        folder = f"/proc/{process.pid}/fd"
        sockets = {os.readlink(os.path.join(folder, it)) for it in os.listdir(folder)}
        with open(f"/proc/{process.pid}/net/tcp", encoding="ascii") as it:
            for words in map(str.split, it.readlines()[1:]):
                if words[3] == "0A" and f"socket:[{words[9]}]" in sockets:  # the state of a socket that listens
                    return int(words[1].split(":")[1], 16)
    return None


# ---- browsers


class Scripted:
    """A window in which scripts run: what is above `start`, `stop` and `evaluated`, which hands over the value of a script that calls its last
    argument."""

    process = None

    def __init__(self):
        """Starts the browser, and again where it doesn't come up."""
        for number in range(1, STARTS + 1):
            self.profile = tempfile.TemporaryDirectory(ignore_cleanup_errors=True)
            try:
                self.start()
                return
            except (Died, Failed) as why:
                self.close()
                said = f"{type(self).__name__} did not start, {number} of {STARTS}: {why}"
                if number == STARTS:
                    raise Died(said) from None
                print(said, flush=True)
            except BaseException:
                self.close()
                raise

    def run(self, script, *arguments):
        """The value of a script, which may await."""
        body = f"const done = arguments[arguments.length - 1]; const given = [...arguments].slice(0, -1);\n" \
               f"(async (...given) => {{ {script} }})(...given).then(value => done({{ value }}), why => done({{ why: `${{why}} ${{why.stack}}` }}));"
        answer = self.evaluated(body, list(arguments))
        if "why" in answer:
            raise Failed(answer["why"])
        return answer.get("value")

    def until(self, condition, seconds=PATIENCE):
        """Waits until an expression of the page is true."""
        script = f"const end = performance.now() + {seconds * 1000}; " \
                 f"while (!({condition})) {{ if (performance.now() > end) return false; await new Promise(it => setTimeout(it, 20)); }} return true;"
        if not self.run(script):
            raise Failed(f"in {seconds} s it never came to {condition}")

    def text(self, name):
        """The text of the element with this id."""
        return self.run("return document.getElementById(given[0]).innerText;", name)

    def click(self, name):
        self.run("document.getElementById(given[0]).click();", name)

    def close(self):
        """Ends the browser, and removes its profile."""
        try:
            with contextlib.suppress(Died, Failed, OSError):
                self.stop()
        finally:
            if self.process is not None:
                end(self.process, self.profile.name)
            self.profile.cleanup()

    def __enter__(self):
        return self

    def __exit__(self, *_):
        self.close()


class Driven(Scripted):
    """A window that is driven in the words of the WebDriver protocol."""

    address = None

    def connect(self, port, wanted):
        """Opens a window by the driver at a port."""
        sessions = f"http://127.0.0.1:{port}/session"
        self.address = f"{sessions}/{self.answer(sessions, 'POST', {'capabilities': {'alwaysMatch': wanted}}, STARTING)['sessionId']}"
        self.asked("POST", "/timeouts", {"script": SECONDS * 1000})

    def stop(self):
        if self.address is not None:
            self.answer(self.address, "DELETE", None, ENDING)

    def answer(self, address, method, body, seconds):
        """What the driver answers to a command at an address."""
        data = None if body is None else json.dumps(body).encode()
        request = urllib.request.Request(address, data, {"Content-Type": "application/json"}, method=method)
        try:
            with DIRECT.open(request, timeout=seconds) as answer:
                return json.load(answer)["value"]
        except urllib.error.HTTPError as error:
            with error:
                value = json.load(error)["value"]
            said = value["message"].split("\n", maxsplit=1)[0]
            raise (Died if DEATH.search(f"{value['error']} {said}") else Failed)(said) from None
        except (OSError, http.client.HTTPException, ValueError) as why:
            raise Died(f"the driver does not answer: {why!r}") from None

    def asked(self, method, path, body=None):
        """What the driver answers to a command to the window."""
        return self.answer(self.address + path, method, body, SECONDS + 20)

    def open(self, address):
        self.asked("POST", "/url", {"url": address})

    def evaluated(self, body, arguments):
        return self.asked("POST", "/execute/async", {"script": body, "args": arguments})

    def give(self, name, paths):
        """Hands files to an input of the page, as its dialog does."""
        found = self.asked("POST", "/element", {"using": "css selector", "value": f"#{name}"})[ELEMENT]
        self.asked("POST", f"/element/{found}/value", {"text": "\n".join(paths)})


class Browser(Driven):
    """A window of Chromium, of this many pixels."""

    def __init__(self, width=1200, height=900):
        self.size = f"{width},{height}"
        super().__init__()

    def start(self):
        self.address = None
        self.process = started([DRIVER, "--port=0"], self.profile.name)
        said = os.path.join(self.profile.name, "said")
        port = awaited(DRIVER, self.process, lambda: number_in(said, r"successfully on port (\d+)"))
        words = ["--headless=new", "--no-sandbox", "--disable-gpu", "--hide-scrollbars", f"--window-size={self.size}",
                 f"--user-data-dir={self.profile.name}/profile", "--disable-background-networking", "--disable-dev-shm-usage", "--no-first-run"]
        options = {"args": words, "binary": shutil.which(CHROMIUM)}
        self.connect(port, {"goog:chromeOptions": options, "goog:loggingPrefs": {"browser": "ALL", "performance": "ALL"}})

    def command(self, name, **parameters):
        """A command of the browser's own protocol."""
        return self.asked("POST", "/goog/cdp/execute", {"cmd": name, "params": parameters})

    def drop(self, paths):
        """Drops files and folders on the page."""
        data = {"items": [], "files": paths, "dragOperationsMask": 1}
        for kind in ("dragEnter", "dragOver", "drop"):
            self.command("Input.dispatchDragEvent", type=kind, x=300, y=150, data=data)

    def log(self, kind):
        """What was logged since it was last asked for: "browser" for errors of the page, "performance" for requests."""
        return self.asked("POST", "/se/log", {"type": kind})

    def requests(self):
        """The addresses that were asked for since this was last called."""
        messages = [json.loads(it["message"])["message"] for it in self.log("performance")]
        return [it["params"]["request"]["url"] for it in messages if it["method"] == "Network.requestWillBeSent"]

    def picture(self, path):
        """Saves what the window shows."""
        with open(path, "wb") as it:
            it.write(base64.b64decode(self.asked("GET", "/screenshot")))


class Firefox(Scripted):
    """A window of Firefox."""

    def start(self):
        self.connection, self.read, self.count = None, b"", 0
        with open(os.path.join(self.profile.name, "user.js"), "w", encoding="ascii") as it:
            it.write('user_pref("marionette.port", 0);\nuser_pref("app.update.enabled", false);\n')
        self.process = started([FIREFOX, "--headless", "--marionette", "--no-remote", "--profile", self.profile.name], self.profile.name)
        told = os.path.join(self.profile.name, "MarionetteActivePort")  # which it writes where the port is 0
        port = awaited(FIREFOX, self.process, lambda: number_in(told, r"^(\d+)"))
        try:
            self.connection = socket.create_connection(("127.0.0.1", port), timeout=SECONDS + 20)
        except OSError as why:
            raise Died(f"{FIREFOX} does not answer: {why!r}") from None
        self.message()
        self.asked("WebDriver:NewSession", {"capabilities": {"alwaysMatch": {"timeouts": {"script": SECONDS * 1000}}}})

    def stop(self):
        if self.connection is not None:
            self.connection.close()

    def more(self):
        """What comes next."""
        try:
            data = self.connection.recv(1 << 16)
        except OSError as why:
            raise Died(f"{FIREFOX} does not answer: {why!r}") from None
        if not data:
            raise Died(f"{FIREFOX} has closed its connection")
        return data

    def message(self):
        """The next message: its length, a colon, and its text."""
        while b":" not in self.read:
            self.read += self.more()
        length, _, rest = self.read.partition(b":")
        while len(rest) < int(length):
            rest += self.more()
        self.read = rest[int(length):]
        return json.loads(rest[: int(length)])

    def asked(self, command, parameters):
        self.count += 1
        text = json.dumps([0, self.count, command, parameters]).encode()
        try:
            self.connection.sendall(b"%d:%s" % (len(text), text))
        except OSError as why:
            raise Died(f"{FIREFOX} does not answer: {why!r}") from None
        _, _, error, value = self.message()
        if error:
            raise Failed(error["message"])
        return value

    def open(self, address):
        self.asked("WebDriver:Navigate", {"url": address})

    def evaluated(self, body, arguments):
        return self.asked("WebDriver:ExecuteAsyncScript", {"script": body, "args": arguments})["value"]


class WebKit(Driven):
    """A window of WebKit, on a display that is seen nowhere."""

    def start(self):
        self.address = None
        home = self.profile.name
        # What ends the driver ends the display too, whose home is the same (see `end`).
        display = started([XVFB, "-displayfd", "1", "-screen", "0", "1200x900x24"], home, "display")
        number = awaited(XVFB, display, lambda: re.search(r"(?m)^\d+$", text_in(os.path.join(home, "display"))))
        self.display = f":{number[0]}"
        self.process = started([WEBKIT_DRIVER, "--port=0"], home, DISPLAY=self.display)
        port = awaited(WEBKIT_DRIVER, self.process, lambda: port_of(self.process))
        self.connect(port, {"webkitgtk:browserOptions": {"binary": glob.glob(WEBKIT)[-1], "args": ["--automation"]}})

    def drag(self, paths):
        """Drags files and folders onto the page with the pointer, from another window of the display."""
        words = [sys.executable, "-B", "-c", DRAGGING, *map(str, WITHIN), *paths]
        environment = {**os.environ, "DISPLAY": self.display}
        ran = subprocess.run(words, cwd=HERE, env=environment, capture_output=True, text=True, timeout=PATIENCE, check=False)
        if ran.returncode:
            raise Failed(f"the window doesn't take what is dragged onto it: {ran.stderr[-500:]}")


# Runs each script that comes in a line, and writes its value in a line.
IN_NODE = """
Object.assign(globalThis, { window: globalThis, require });
require("readline").createInterface({ input: process.stdin }).on("line", line => {
  const [body, given] = JSON.parse(line);
  new Function(body)(...given, value => process.stdout.write(JSON.stringify(value) + "\\n"));
});
"""


class Node(Scripted):
    """Node, which runs the scripts of a window without a page."""

    def start(self):
        with open(os.path.join(self.profile.name, "scripts.cjs"), "w", encoding="ascii") as it:
            it.write(IN_NODE)
        self.process = subprocess.Popen([NODE, it.name], stdin=subprocess.PIPE, stdout=subprocess.PIPE, text=True, start_new_session=True,
                                        env={**os.environ, "HOME": self.profile.name})

    def stop(self):
        self.process.stdin.close()
        self.process.stdout.close()

    def open(self, address):
        pass

    def evaluated(self, body, arguments):
        try:
            self.process.stdin.write(json.dumps([body, arguments]) + "\n")
            self.process.stdin.flush()
            return json.loads(self.process.stdout.readline())
        except (OSError, ValueError) as why:
            raise Died(f"{NODE} does not answer: {why!r}") from None


class Server:
    """A web server of a folder, on this machine alone."""

    def __init__(self, folder):
        handler = functools.partial(Quiet, directory=folder)
        self.server = http.server.ThreadingHTTPServer(("127.0.0.1", 0), handler)
        threading.Thread(target=self.server.serve_forever, daemon=True).start()
        self.address = f"http://127.0.0.1:{self.server.server_port}"

    def __enter__(self):
        return self

    def __exit__(self, *_):
        self.server.shutdown()
        self.server.server_close()


class Quiet(http.server.SimpleHTTPRequestHandler):
    """Serves files, and says nothing."""

    extensions_map = {**http.server.SimpleHTTPRequestHandler.extensions_map, ".mjs": "text/javascript", ".wasm": "application/wasm"}

    def log_message(self, *_):
        pass
