#!/usr/bin/env python3
"""Opens the desk's page in headless Chromium, does what docs/manual/page.md says, and says where the page differs.

usage: tools/try_page.py [PATH/smsd] [--pictures FOLDER] [--manual] [--port PORT]

It wants Debian's package chromium (apt-get update && apt-get install -y chromium), and nothing else. Without a path the page is served by
tools/mock_desk.py, and with one by that program over a store in a folder of its own; the measure of 1,024 volumes and
20,000 data sets is the mock desk's in both. Each step is asserted in the page's DOM; no script of another origin, no
inline one and no inline style may be asked for (Content-Security-Policy), no exception may come, and on each view at
1,280 and 390 pixels, in light and in dark, no text is cut, none goes over the edge, and each has a contrast of 4.5.
With a FOLDER each view is put there as a picture, and with --manual the manual's pictures are made anew. The exit status is 1 where something differs.
"""
import atexit
import base64
import http.client
import json
import os
import secrets
import shutil
import signal
import socket
import struct
import subprocess
import sys
import tempfile
import time
from urllib.parse import quote

from desk_page import read_file

HERE = os.path.dirname(os.path.abspath(__file__))
differing = 0


def check(holds, what):
    global differing
    if not holds:
        differing += 1
        print(f"differs: {what}", flush=True)


# ---- The desk that is asked

DECK = """version = 2
system = "SYSA"
[dataclass.DCTEXT]
space = "(TRK,(15,15))"
[storclass.SCSTD]
[storclass.SCFAST]
[mgmtclass.MCPROD]
expire_after = 30
[storgroup.SGPROD]
high = 80
low = 40
[storgroup.SGPROD.volume.PRD001]
tracks = 500
[storgroup.SGPROD.volume.PRD002]
tracks = 500
[storgroup.SGPROD.volume.PRD003]
tracks = 800
[storgroup.SGLARGE]
[storgroup.SGLARGE.volume.LRG001]
cylinders = 65583
[storgroup.SGSPILL]
overflow = true
[storgroup.SGSPILL.volume.SPL001]
tracks = 900
status = "QUIALL"
[routine]
dataclass = '''
PROC DATACLAS
  SELECT
    WHEN (&LLQ = 'JCL') SET &DATACLAS = 'DCTEXT'
    WHEN (&LLQ = 'LIST') SET &DATACLAS = 'DCTEXT'
  END
END
'''
storclass = '''
PROC STORCLAS
  WRITE 'STORAGE CLASS OF ' &DSN
  SELECT
    WHEN (&HLQ = 'TEST') SET &STORCLAS = 'SCSTD'
    OTHERWISE SET &STORCLAS = 'SCFAST'
  END
END
'''
mgmtclass = '''
PROC MGMTCLAS
  SET &MGMTCLAS = 'MCPROD'
END
'''
storgroup = '''
PROC STORGRP
  SELECT
    WHEN (&HLQ = 'BIG') SET &STORGRP = 'SGLARGE'
    OTHERWISE SET &STORGRP = 'SGPROD','SGSPILL'
  END
END
'''
"""
HOSTILE = DECK.replace("STORAGE CLASS OF ", "<img src=x onerror=alert(1)> ")
FAULTY = DECK.replace("high = 80", "high = 180")
WRONG_ROUTINE = DECK.replace("SET &MGMTCLAS = 'MCPROD'", "SET &MGMTCLAS 'MCPROD'")
SMALLER = DECK.replace("[storgroup.SGPROD.volume.PRD002]\ntracks = 500\n", "")


class Desk:
    """A desk that is served, and may be killed and begun anew over what it kept."""

    def __init__(self, words, cwd, port):
        self.words, self.cwd, self.port, self.program = words, cwd, port, None
        atexit.register(self.kill)

    def begin(self):
        self.program = subprocess.Popen(self.words, cwd=self.cwd, stderr=subprocess.DEVNULL, stdout=subprocess.DEVNULL)
        for _ in range(300):
            try:
                return self.ask("GET", "/desk")
            except OSError:
                time.sleep(0.05)
        sys.exit(f"{self.words[0]} can't be reached on port {self.port}")

    def kill(self):
        if self.program:
            self.program.send_signal(signal.SIGKILL)
            self.program.wait()
            self.program = None

    def ask(self, method, path, body=""):
        link = http.client.HTTPConnection("127.0.0.1", self.port, timeout=20)
        link.request(method, path, body.encode())
        answer = link.getresponse()
        text = answer.read().decode()
        link.close()
        return answer.status, text

    def has(self, method, path, body=""):
        return self.ask(method, path, body)[0] == 200


def mock(folder, port, *more):
    state = [] if "--load" in more else ["--state", os.path.join(folder, f"mock{port}")]
    return Desk([sys.executable, os.path.join(HERE, "mock_desk.py"), str(port), *state, *more], folder, port)


# ---- The browser, by the protocol of its developers' tools

class Socket:
    """A web socket: messages of text, as RFC 6455 has them."""

    def __init__(self, port, path):
        self.link = socket.create_connection(("127.0.0.1", port), timeout=60)
        key = base64.b64encode(secrets.token_bytes(16)).decode()
        self.link.sendall((f"GET {path} HTTP/1.1\r\nHost: 127.0.0.1:{port}\r\nUpgrade: websocket\r\nConnection: Upgrade\r\n"
                           f"Sec-WebSocket-Key: {key}\r\nSec-WebSocket-Version: 13\r\n\r\n").encode())
        self.rest = b""
        while b"\r\n\r\n" not in self.rest:
            self.rest += self.link.recv(65536)
        head, _, self.rest = self.rest.partition(b"\r\n\r\n")
        if b" 101 " not in head.split(b"\r\n")[0]:
            sys.exit(f"Chromium refuses a web socket: {head!r}")

    def send(self, text):
        data, mask = text.encode(), secrets.token_bytes(4)
        length = len(data)
        size = struct.pack("!B", 128 | length) if length < 126 else (
            struct.pack("!BH", 128 | 126, length) if length < 65536 else struct.pack("!BQ", 128 | 127, length))
        masked = (int.from_bytes(data, "big") ^ int.from_bytes((mask * (length // 4 + 1))[:length], "big")).to_bytes(length, "big")
        self.link.sendall(b"\x81" + size + mask + masked)

    def take(self, count):
        while len(self.rest) < count:
            more = self.link.recv(1 << 20)
            if not more:
                sys.exit("Chromium has ended")
            self.rest += more
        data, self.rest = self.rest[:count], self.rest[count:]
        return data

    def receive(self):
        text = b""
        while True:
            first, second = self.take(2)
            length = second & 127
            if length >= 126:
                length = int.from_bytes(self.take(2 if length == 126 else 8), "big")
            data = self.take(length)
            if first & 15 in (0, 1):
                text += data
            if first & 128 and first & 15 in (0, 1):
                return text.decode()


def seen(selector):
    """The texts of the elements that are seen, as the page's script has them."""
    return f"[...document.querySelectorAll({json.dumps(selector)})].filter((it) => it.checkVisibility()).map((it) => it.innerText)"


class Browser:
    def __init__(self, folder):
        name = shutil.which("chromium") or shutil.which("chromium-browser") or sys.exit("Chromium is wanted: apt-get install -y chromium")
        room = os.path.join(folder, "chromium")
        self.program = subprocess.Popen(
            [name, "--headless=new", "--no-sandbox", "--disable-gpu", "--hide-scrollbars", "--remote-debugging-port=0",
             f"--user-data-dir={room}", "about:blank"], stderr=subprocess.DEVNULL, stdout=subprocess.DEVNULL)
        atexit.register(self.program.kill)
        port = self.port_in(os.path.join(room, "DevToolsActivePort"))
        link = http.client.HTTPConnection("127.0.0.1", port, timeout=30)
        link.request("PUT", "/json/new?about:blank")
        path = json.loads(link.getresponse().read())["webSocketDebuggerUrl"].split(str(port), 1)[1]
        self.socket, self.number, self.faults = Socket(port, path), 0, []
        for domain in ("Page", "Runtime", "Log", "Performance"):
            self.call(f"{domain}.enable")
        self.call("Page.addScriptToEvaluateOnNewDocument", source=AT_THE_BEGINNING)

    def port_in(self, path):
        for _ in range(600):
            if os.path.exists(path) and os.path.getsize(path) > 0:
                with open(path) as file:
                    return int(file.readline())
            time.sleep(0.05)
        sys.exit("Chromium doesn't begin")

    def call(self, method, **parameters):
        self.number += 1
        self.socket.send(json.dumps({"id": self.number, "method": method, "params": parameters}))
        while True:
            message = json.loads(self.socket.receive())
            if message.get("id") == self.number:
                if "error" in message:
                    sys.exit(f"{method}: {message['error']}")
                return message["result"]
            self.note(message)

    def note(self, message):
        if message.get("method") == "Runtime.exceptionThrown":
            self.faults.append(message["params"]["exceptionDetails"].get("exception", {}).get("description", "an exception"))
        if message.get("method") == "Log.entryAdded" and message["params"]["entry"]["source"] == "security":
            self.faults.append(message["params"]["entry"]["text"])

    def run(self, code):
        made = self.call("Runtime.evaluate", expression=code, awaitPromise=True, returnByValue=True)
        if "exceptionDetails" in made:
            sys.exit(f"{code}: {made['exceptionDetails']['exception'].get('description')}")
        return made["result"].get("value")

    def worked(self):
        """The milliseconds that the page's tasks took so far, waiting for a processor counted."""
        metrics = self.call("Performance.getMetrics")["metrics"]
        return 1000 * next(it["value"] for it in metrics if it["name"] == "TaskDuration")

    def text(self, selector):
        return self.run(f"{seen(selector)}.join('\\n')")

    def wait(self, condition, what, seconds=30):
        end = time.time() + seconds
        while time.time() < end:
            if self.run(f"Boolean({condition})"):
                return True
            time.sleep(0.03)
        check(False, f"{what} (waited {seconds} s for {condition})")
        return False

    def sees(self, selector, words, seconds=30):
        if not self.wait(f"{seen(selector)}.join(' ').includes({json.dumps(words)})", f"{selector} shows {words!r}", seconds):
            print(f"         it shows {self.text(selector)[:300]!r}; {self.faults}")

    def size(self, width, height, scheme="light", scale=1):
        self.call("Emulation.setDeviceMetricsOverride", width=width, height=height, deviceScaleFactor=scale, mobile=False)
        self.call("Emulation.setEmulatedMedia", features=[{"name": "prefers-color-scheme", "value": scheme}])

    def open(self, url):
        self.call("Page.navigate", url=url)
        self.wait("document.readyState === 'complete' && document.querySelector('nav a[aria-current]')", f"{url} is open")

    def key(self, key, code=None, text=None):
        number = {"Enter": 13, "Escape": 27, "Tab": 9, "ArrowRight": 39, "ArrowLeft": 37, "Home": 36, "End": 35}.get(key, ord(key[0]))
        text = {"Enter": "\r"}.get(key, key if len(key) == 1 else text)
        more = {"text": text} if text else {}
        self.call("Input.dispatchKeyEvent", type="keyDown", key=key, code=code or key, windowsVirtualKeyCode=number, **more)
        self.call("Input.dispatchKeyEvent", type="keyUp", key=key, code=code or key, windowsVirtualKeyCode=number)

    def place(self, selector):
        return self.run(f"""(() => {{ const it = document.querySelector({json.dumps(selector)});
            it.scrollIntoView({{block: 'center'}}); const box = it.getBoundingClientRect();
            return [box.left, box.top, box.width, box.height]; }})()""")

    def click(self, selector, x=0.5, y=0.5):
        if not self.wait(f"document.querySelector({json.dumps(selector)})", f"{selector} is there"):
            return
        left, top, width, height = self.place(selector)
        for kind in ("mouseMoved", "mousePressed", "mouseReleased"):
            self.call("Input.dispatchMouseEvent", type=kind, x=left + width * x, y=top + height * y, button="left", clickCount=1)

    def point(self, selector, x=0.5, y=0.5):
        left, top, width, height = self.place(selector)
        self.call("Input.dispatchMouseEvent", type="mouseMoved", x=left + width * x, y=top + height * y)

    def put(self, selector, text):
        self.run(f"{{ const it = document.querySelector({json.dumps(selector)}); it.focus(); it.select(); }}")
        self.call("Input.insertText", text=text)

    def drop(self, selector, path):
        left, top, width, height = self.place(selector)
        data = {"items": [], "files": [path], "dragOperationsMask": 1}
        for kind in ("dragEnter", "dragOver", "drop"):
            self.call("Input.dispatchDragEvent", type=kind, x=left + width / 2, y=top + height / 2, data=data)

    def picture(self, path, most=2400):
        size = self.run(f"[innerWidth, Math.min({most}, Math.max(innerHeight, document.documentElement.scrollHeight))]")
        made = self.call("Page.captureScreenshot", format="png", captureBeyondViewport=True,
                         clip={"x": 0, "y": 0, "width": size[0], "height": size[1], "scale": 1})
        with open(path, "wb") as file:
            file.write(base64.b64decode(made["data"]))


AT_THE_BEGINNING = """
window.violations = [];
document.addEventListener('securitypolicyviolation', (event) => violations.push(event.violatedDirective + ' ' + event.blockedURI));
window.longest = 0;
window.stall = 0;
new PerformanceObserver((seen) => {
  for (const task of seen.getEntries()) window.longest = Math.max(window.longest, task.duration);
}).observe({ type: 'longtask', buffered: true });
(function frame(last) {
  requestAnimationFrame((now) => {
    window.stall = Math.max(window.stall, now - last);
    frame(now);
  });
})(performance.now());
"""

# What is cut, goes over the edge, lies on another, or is pale on the view that is shown.
LAYOUT = """(() => {
  const found = [];
  const page = document.documentElement;
  if (page.scrollWidth > innerWidth) found.push(`the page is ${page.scrollWidth} wide`);
  const light = (color) => {
    const [red, green, blue] = color.map((part) => (part /= 255) <= 0.03928 ? part / 12.92 : ((part + 0.055) / 1.055) ** 2.4);
    return 0.2126 * red + 0.7152 * green + 0.0722 * blue;
  };
  const parts = (text) => (text.match(/[0-9.]+/g) || []).map(Number);
  const ground = (it) => {
    for (let at = it; at; at = at.parentElement) {
      const color = parts(getComputedStyle(at).backgroundColor);
      if (color.length === 3 || color[3] === 1) return color.slice(0, 3);
    }
    return [255, 255, 255];
  };
  const walker = document.createTreeWalker(document.body, NodeFilter.SHOW_TEXT);
  for (let node = walker.nextNode(); node; node = walker.nextNode()) {
    const it = node.parentElement;
    if (!node.data.trim() || !it.checkVisibility() || it.closest('script, noscript, option')) continue;
    const style = getComputedStyle(it);
    const range = document.createRange();
    range.selectNodeContents(node);
    const box = range.getBoundingClientRect();
    const name = `${it.tagName}.${it.className} "${node.data.trim().slice(0, 40)}"`;
    const scrolls = it.closest('.excerpt, .source, .gutter, textarea');
    if (!scrolls && (box.right > innerWidth + 1 || box.left < -1)) found.push(`over the edge: ${name}`);
    if (!scrolls && it.scrollWidth > it.clientWidth + 1 && style.overflow !== 'visible') found.push(`cut: ${name}`);
    const [one, other] = [light(parts(style.color)), light(ground(it))];
    const contrast = (Math.max(one, other) + 0.05) / (Math.min(one, other) + 0.05);
    if (contrast < 4.5) found.push(`pale (${contrast.toFixed(1)}): ${name}`);
  }
  const within = document.querySelector('dialog[open]') ?? document;
  const boxes = [...within.querySelectorAll('button, input, select, textarea, a, h2, td')].filter((it) => it.checkVisibility())
    .map((it) => [it, it.getBoundingClientRect()]).filter(([, box]) => box.width > 0).slice(0, 400);
  boxes.forEach(([one, a], at) => boxes.slice(at + 1).forEach(([other, b]) => {
    if (one.contains(other) || other.contains(one)) return;
    const wide = Math.min(a.right, b.right) - Math.max(a.left, b.left);
    const high = Math.min(a.bottom, b.bottom) - Math.max(a.top, b.top);
    if (wide > 2 && high > 2) found.push(`overlap: ${one.tagName} "${one.textContent.slice(0, 20)}" and ${other.tagName} "${other.textContent.slice(0, 20)}"`);
  }));
  return found.slice(0, 8);
})()"""


# ---- The steps

def go(browser, hash_, selector):
    browser.run(f"location.hash = {json.dumps(hash_)}")
    browser.wait(f"document.querySelector({json.dumps(selector)})?.checkVisibility()", f"{hash_} shows {selector}")


def step_open(browser, desk):
    browser.open(f"http://127.0.0.1:{desk.port}/")
    browser.sees("#standing", "Connected: nothing active")
    browser.sees("#pool-groups", "Nothing is active")
    check(browser.run("document.title") == "Desk", "the title")


def step_activate(browser, desk):
    browser.key("4")
    browser.wait("document.activeElement && !document.querySelector('#view-deck').hidden", "4 shows Deck")
    browser.put("#deck-text", HOSTILE)
    browser.click("#deck-check")
    if desk.has("POST", "/check", DECK):
        browser.sees("#deck-result [data-code=A04]", "This deck would be active.")
    else:
        browser.sees("#deck-result", "This desk does not check decks.")
    browser.sees("#deck-result", "Nothing is active: all of it would be new.")
    browser.click("#deck-activate")
    browser.sees("#question", "Activate this deck?")
    browser.key("Escape")
    browser.wait("!document.querySelector('#question').open", "Esc leaves the question")
    check('"activations":null' in desk.ask("GET", "/desk")[1], "a question that was left activates nothing")
    browser.click("#deck-activate")
    browser.click("#question-yes")
    browser.sees("#deck-result [data-code=A04]", "A04 ACTIVATED 1")
    browser.sees("#standing", "activation 1")


def step_allocate(browser, _):
    browser.key("Escape")
    browser.run("document.activeElement.blur()")
    browser.key("3")
    browser.sees("#try-title", "Try a request")
    for name, value in (("JOB", "payjob"), ("DSN", "pay.master"), ("PRIMARY", "40"), ("SECONDARY", "10")):
        browser.put(f"#try-form [name={name}]", value)
    browser.click("#try-allocate")
    browser.sees("#question", "PAYJOB")
    browser.click("#question-yes")
    browser.sees("#try-result [data-code=A00]", "A00 GRANTED")
    browser.sees("#try-result", "<img src=x onerror=alert(1)>")
    check(browser.run("document.images.length") == 0, "what a routine wrote is no HTML")
    browser.click("#try-allocate")
    browser.click("#question-yes")
    browser.sees("#try-result [data-code=R13]", "A data set of this name is catalogued.")
    browser.put("#try-form [name=JOB]", "1JOB.")
    browser.click("#try-allocate")
    browser.click("#question-yes")
    browser.sees("#try-result .bad", "this isn't a request as the desk reads them")


def fill(desk):
    """Data sets of a shop, and statuses, so that there is something to be seen."""
    desk.ask("POST", "/admin/10/activate", DECK)
    for at in range(1, 60):
        hlq, size = ("TEST" if at % 4 == 0 else "PAY"), 3 + (at * 7) % 17
        desk.ask("POST", f"/job/FILL/{at}/alloc/{hlq}.D{at:04}.{'JCL' if at % 3 == 0 else 'DATA'}", json.dumps({"SPACE": f"(TRK,({size},5))", "DAY": at}))
    for at in range(1, 5):
        desk.ask("POST", f"/job/FILL/{100 + at}/alloc/BIG.LOG{at}", json.dumps({"SPACE": f"(CYL,{12 + 40 * (at % 2)})", "EATTR": "OPT", "RETPD": 30}))
        desk.ask("POST", f"/job/FILL/{110 + at}/alloc/BIG.BASE{at}", json.dumps({"SPACE": f"(CYL,{8000 * at})"}))
    desk.ask("POST", "/job/FILL/120/delete/BIG.BASE1")
    for at in range(1, 60, 6):
        desk.ask("POST", f"/job/FILL/{200 + at}/delete/PAY.D{at:04}.DATA")
    desk.ask("POST", "/admin/11/vary/volume/PRD002/disable-new")
    desk.ask("POST", "/admin/12/vary/volume/PRD003/quiesce")


def step_pool(browser, desk):
    go(browser, "#pool", "[data-group=SGPROD] .group-head")
    browser.sees("#pool-total", "3 storage groups, 5 volumes")
    browser.sees("[data-group=SGPROD]", "high 80 %, low 40 %" if '"high"' in desk.ask("GET", "/groups")[1] else "no thresholds")
    browser.run("document.querySelector('[data-group=SGPROD] .group-head').focus()")
    browser.key("Enter")
    browser.wait("document.querySelector('[data-volume=PRD002] canvas')", "the volumes of an opened storage group have strips")
    check(browser.run("document.activeElement.dataset.key") == "group SGPROD", "the opened storage group keeps the focus")
    browser.sees("[data-volume=PRD002] .status", "DISNEW: disabled for new data sets")
    browser.wait("document.querySelector('[data-volume=PRD001] canvas').width > 100", "the strip is drawn")
    browser.run("document.querySelector('[data-volume=PRD001] canvas').focus()")
    browser.sees("[data-volume=PRD001] .told", "tracks 0 to")
    first = browser.text("[data-volume=PRD001] .told")
    browser.key("ArrowRight")
    browser.wait(f"document.querySelector('[data-volume=PRD001] .told').innerText !== {json.dumps(first)}", "an arrow key goes on")
    browser.key("End")
    browser.sees("[data-volume=PRD001] .told", "to 499")
    browser.point("[data-volume=PRD001] canvas", 0.01)
    browser.sees("[data-volume=PRD001] .told", "tracks 0 to")
    go(browser, "#pool/SGLARGE", "[data-volume=LRG001] canvas")
    check(browser.run("document.querySelectorAll('[data-volume=LRG001] canvas').length") == 2, "both parts of a large volume")
    browser.sees("[data-volume=LRG001]", "cylinder-managed, tracks 982,800 to 983,744")
    go(browser, "#volume/SPL001", "[data-volume=SPL001]")
    check(browser.run("document.querySelectorAll('[data-volume]').length") == 1, "a volume that is found stands alone")
    go(browser, "#volume/NONE99", "#pool-note:not([hidden])")
    browser.sees("#pool-note", desk_sentence(desk, "/volume/NONE99"))


def desk_sentence(desk, path):
    return json.loads(desk.ask("GET", path)[1])["error"]


def step_sets(browser, desk):
    browser.run("document.activeElement.blur()")
    browser.key("2")
    browser.sees("#sets-list", "PAY.MASTER")
    browser.key("/")
    browser.wait("document.activeElement.id === 'sets-mask'", "/ goes to the mask")
    browser.call("Input.insertText", text="test.**")
    browser.key("Enter")
    browser.wait("[...document.querySelectorAll('#sets-list td.name')].every((it) => it.innerText.startsWith('TEST.'))", "the mask is kept to")
    check(browser.run("document.querySelectorAll('#sets-list tbody tr').length") > 9, "data sets that fit the mask")
    go(browser, "#sets/A.%25%25%2F", "#sets-note:not([hidden])")
    browser.run("location.hash = '#sets'")
    browser.sees("#sets-list", "PAY.MASTER")
    browser.run("[...document.querySelectorAll('#sets-list a')].find((it) => it.innerText === 'PAY.MASTER').focus()")
    browser.key("Enter")
    browser.sees("#set-title", "PAY.MASTER")
    browser.wait("document.querySelectorAll('#set-detail .extents tbody tr').length === 1", "its extents")
    browser.wait("document.querySelector('#set-detail canvas')?.width > 100", "its strip")
    history = "A00 the data set was allocated" if desk.has("GET", "/answers") else "does not show its answers"
    browser.sees("#set-detail", history)
    browser.key("Escape")
    browser.wait("!document.querySelector('#view-sets').hidden", "Esc leaves the data set")
    go(browser, "#set/NONE.SUCH", "#set-note:not([hidden])")
    browser.sees("#set-note", desk_sentence(desk, "/set/NONE.SUCH"))


def step_try(browser, desk):
    go(browser, "#try", "#try-form")
    for name, value in (("JOB", "JOB1"), ("DSN", "TEST.LIST"), ("PRIMARY", "10")):
        browser.put(f"#try-form [name={name}]", value)
    entries = desk.ask("GET", "/desk")[1]
    browser.click("#try-classify")
    if desk.has("POST", "/classify/JOB1/TEST.LIST", "{}"):
        browser.sees("#try-result .code-line", "CLASSES DCTEXT SCSTD MCPROD SGPROD,SGSPILL")
        browser.sees("#try-result .tiles", "SCSTD")
    else:
        browser.sees("#try-result", "This desk does not classify requests.")
    if desk.has("POST", "/explain/JOB1/TEST.LIST", "{}"):
        browser.wait("document.querySelectorAll('#try-path [data-story]').length === 4", "the path through four routines")
        browser.sees("#try-path [data-story=STORCLAS] li.ran", "&HLQ EQ 'TEST' TRUE 'TEST'")
        browser.sees("#try-path [data-story=DATACLAS] li.ran", "&LLQ EQ 'JCL' FALSE 'LIST'")
        browser.sees("#try-path [data-story=STORCLAS] li.not", "OTHERWISE")
    else:
        browser.sees("#try-path", "This desk does not show the path through the routines")
    check(desk.ask("GET", "/desk")[1] == entries, "a classification enters nothing")
    check(browser.run("document.images.length") == 0, "what a routine wrote is no HTML")


def step_faulty_decks(browser, desk, folder):
    go(browser, "#deck", "#deck-text")
    faults = (("faulty.toml", FAULTY, "R21", "high = 180", "K4"), ("routine.toml", WRONG_ROUTINE, "R21", "SET &MGMTCLAS 'MCPROD'", "K7"),
              ("broken.toml", DECK.replace('"SYSA"', '"SYSA'), "R21", 'system = "SYSA', "K1"),
              ("lacking.toml", DECK.replace("tracks = 800", ""), "R21", "[storgroup.SGPROD.volume.PRD003]", "K3"),
              ("twice.toml", DECK.replace("[storgroup.SGSPILL.volume.SPL001]", "[storgroup.SGSPILL.volume.PRD001]"), "R21", "[storgroup.SGSPILL.volume.PRD001]", "K6"),
              ("unknown.toml", DECK.replace("= 'SCSTD'", "= 'SCNONE'"), "R21", "SET &STORCLAS = 'SCNONE'", "K8"),
              ("smaller.toml", SMALLER, "R22", None, None), ("html.toml", "version = 1\nx = '<img src=x>'\n", "R21", "x = '<img src=x>'", "K2"))
    if not desk.has("POST", "/check", FAULTY):
        faults = ()
    for name, text, code, line, fault in faults:
        path = os.path.join(folder, name)
        with open(path, "w") as file:
            file.write(text)
        browser.drop("#deck-text", path)
        browser.sees(f"#deck-result [data-code={code}]", "This deck would be refused")
        if line:
            browser.sees("#deck-result .at-fault", line)
            browser.sees("#deck-fault", fault)
            browser.wait("document.querySelector('#deck-lines').textContent.includes('>')", "the faulty line is marked beside the text")
        check(browser.run("document.images.length") == 0, "the text of a deck is no HTML")
        if name == "smaller.toml":
            browser.sees("#deck-difference", "PRD002")
    browser.put("#deck-text", DECK.replace("[storgroup.SGSPILL]", "[storgroup.SGNEW.volume.NEW001]\ntracks = 9\n[storgroup.SGSPILL]"))
    browser.click("#deck-check")
    browser.sees("#deck-difference", "NEW001")
    check("PRD001" not in browser.text("#deck-difference"), "what is the same is no difference")


def step_answers(browser, desk):
    go(browser, "#answers", "#answers-find")
    if not desk.has("GET", "/answers"):
        return browser.sees("#answers-note", "This desk does not show its answers.")
    browser.sees("#answers-list tbody tr:first-child", "VARY PRD003")
    browser.put("#answers-job", "payjob")
    browser.wait("[...document.querySelectorAll('#answers-list tbody tr')].every((it) => it.innerText.includes('PAYJOB'))", "the job is kept to")
    browser.put("#answers-code", "r13")
    browser.wait("document.querySelectorAll('#answers-list tbody tr').length === 1", "one entry fits job and code")
    browser.click("#answers-find button[type=reset]")
    browser.put("#answers-number", "255")
    browser.sees("#answers-list", "DELETE PAY.D0055.DATA")
    check(browser.run("document.querySelectorAll('#answers-list tbody tr').length") == 1, "a request's number is found")
    browser.click("#answers-find button[type=reset]")


def step_held(browser, desk):
    """What is pointed at and what is typed stays where the view is drawn anew."""
    go(browser, "#pool/SGPROD", "[data-volume=PRD001] canvas")
    browser.run("document.querySelector('[data-volume=PRD001] canvas').focus()")
    for _ in range(3):
        browser.key("ArrowRight")
    told = browser.text("[data-volume=PRD001] .told")
    held = browser.run("document.querySelector('[data-volume=PRD001] canvas').isHeld = true")
    desk.ask("POST", "/job/LIVE/3/delete/PAY.MASTER" if held else "/")
    browser.wait("!document.querySelector('[data-volume=PRD001] canvas').isHeld", "the strips are drawn anew behind a DELETE")
    browser.sees("[data-volume=PRD001] .told", "(4 of ")
    check(told != "" and browser.run("document.activeElement.dataset.key") == "strip PRD001 track-managed", "the strip keeps the focus")
    browser.put("[data-key=filter]", "prd")
    desk.ask("POST", "/job/LIVE/4/alloc/PAY.MASTER", json.dumps({"SPACE": "(TRK,(40,10))"}))
    entries = json.loads(desk.ask("GET", "/desk")[1])["entries"]
    browser.sees("#standing", f"{entries} entries")
    time.sleep(0.5)
    check(browser.run("document.querySelector('[data-key=filter]').value") == "prd", "what is typed stays")
    go(browser, "#sets/LIVE.**", "#sets-list a")


def step_current(browser, desk):
    go(browser, "#sets/LIVE.**", "#sets-list .empty")
    desk.ask("POST", "/job/LIVE/1/alloc/LIVE.ONE", json.dumps({"SPACE": "(TRK,1)"}))
    browser.sees("#sets-list", "LIVE.ONE", 5)
    step_held(browser, desk)
    browser.run("window.asked = 0; { const real = fetch; window.fetch = (...words) => { window.asked += 1; return real(...words); }; }")
    time.sleep(6.5)
    check(2 <= browser.run("window.asked") <= 4, f"a desk at rest is asked every two seconds, not {browser.run('window.asked')} times in 6.5")
    desk.kill()
    browser.sees("#gone", "The desk is gone", 6)
    browser.sees("#sets-list", "LIVE.ONE")
    browser.click("#gone")
    desk.begin()
    browser.wait("document.querySelector('#gone').hidden", "the page says no more that the desk is gone", 6)
    desk.ask("POST", "/job/LIVE/2/alloc/LIVE.TWO", json.dumps({"SPACE": "(TRK,1)"}))
    browser.sees("#sets-list", "LIVE.TWO", 6)
    browser.sees("#standing", "Connected")


def step_keys(browser):
    browser.run("document.activeElement.blur()")
    browser.key("?")
    browser.sees("#keys", "the extents and gaps of a strip")
    browser.key("Escape")
    for key, view in (("1", "pool"), ("2", "sets"), ("3", "try"), ("4", "deck"), ("5", "answers")):
        browser.key(key)
        browser.wait(f"document.querySelector('nav a[aria-current]').dataset.view === '{view}'", f"{key} shows {view}")


# ---- Each view at both widths, in light and in dark

VIEWS = (("pool", "#pool/SGPROD", "[data-volume=PRD001] canvas"), ("large", "#pool/SGLARGE", "[data-volume=LRG001] canvas"),
         ("sets", "#sets", "#sets-list tbody tr"), ("set", "#set/PAY.MASTER", "#set-detail canvas"), ("try", "#try", "#try-result"),
         ("deck", "#deck", "#deck-result"), ("answers", "#answers", "#answers-find"))


def look_at(browser, pictures, name):
    found = browser.run(LAYOUT)
    check(not found, f"{name}: {found}")
    if pictures:
        browser.picture(os.path.join(pictures, f"{name}.png"))
    if name in MANUAL and "--manual" in sys.argv:
        path = os.path.join(HERE, "..", "docs", "manual", "pictures", f"{name.split('-')[0]}.png")
        os.makedirs(os.path.dirname(path), exist_ok=True)
        browser.picture(path, 800)
        check(os.path.getsize(path) < 150 * 1024, f"{path} has {os.path.getsize(path)} bytes")


MANUAL = ("pool-1280-light", "deck-1280-light", "try-1280-dark", "set-390-light")


def look_at_questions(browser, pictures, name):
    go(browser, "#deck", "#deck-text")
    browser.click("#deck-activate")
    browser.sees("#question", "Activate this deck?")
    look_at(browser, pictures, f"question-{name}")
    browser.key("Escape")
    browser.run("document.activeElement.blur()")
    browser.key("?")
    browser.sees("#keys", "the views")
    look_at(browser, pictures, f"keys-{name}")
    browser.key("Escape")
    browser.run("document.querySelector('#try-form details').open = true")
    go(browser, "#try", "#try-more input")
    look_at(browser, pictures, f"operands-{name}")
    browser.run("document.querySelector('#try-form details').open = false")


def step_views(browser, pictures, folder):
    path = os.path.join(folder, "faulty.toml")
    for width, height in ((1280, 800), (390, 844)):
        for scheme in ("light", "dark"):
            browser.size(width, height, scheme)
            for name, hash_, selector in VIEWS:
                go(browser, hash_, selector)
                if name == "try":
                    browser.click("#try-classify")
                    time.sleep(0.4)
                if name == "deck" and os.path.exists(path):
                    browser.drop("#deck-text", path)
                if name == "pool":
                    browser.run("document.querySelector('[data-volume=PRD001] canvas').focus()")
                    browser.key("ArrowRight")
                time.sleep(0.3)
                browser.run("scrollTo(0, 0)")
                look_at(browser, pictures, f"{name}-{width}-{scheme}")
            look_at_questions(browser, pictures, f"{width}-{scheme}")
    browser.size(1280, 800)


# ---- Time, with 1,024 volumes and 20,000 data sets

LOADED = (("the storage groups", "#pool", "document.querySelectorAll('.group').length === 4"),
          ("a storage group of 256 volumes", "#pool/SG1", "document.querySelectorAll('[data-volume] canvas').length === 16"),
          ("its next page", "#pool/SG1//2", "document.querySelector('[data-volume=V00016] canvas')"),
          ("another storage group", "#pool/SG3", "document.querySelectorAll('[data-group=SG3] canvas').length === 16"),
          ("a page of 20,000 data sets", "#sets", "document.querySelectorAll('#sets-list tbody tr').length === 200"),
          ("a mask over them", "#sets/PAY7.**", "document.querySelector('#sets-list a').innerText.startsWith('PAY7.')"),
          ("a data set on a volume of 6,667 extents", "#set/PAY0.D0000.N00000", "document.querySelector('#set-detail canvas')"),
          ("the answers", "#answers", "document.querySelector('#answers-list tr')"))


def step_large_deck(browser):
    go(browser, "#deck", "#deck-text")
    lines = ["version = 1", "[storclass.SC1]", *(f"# {'x' * 90}" for _ in range(1000))]
    for group in range(4):
        lines += [f"[storgroup.SG{group + 1}.volume.V{group}{at:04}]\ntracks = {50085 + at}" for at in range(256)]
    text = "\n".join([*lines, "[routine]", "storclass = '''", "PROC STORCLAS", *["  SET &STORCLAS = 'SC1'"] * 2500, "END", "'''", ""])
    browser.run(f"{{ document.querySelector('#deck-text').value = {json.dumps(text)}; window.longest = window.stall = 0; }}")
    browser.click("#deck-check")
    browser.sees("#deck-difference", "changed")
    time.sleep(0.5)
    longest, stall = browser.run("[window.longest, window.stall]")
    print(f"loaded: a deck of {len(text):,} bytes checked and compared: {told(longest, stall)}", flush=True)


def told(longest, stall):
    task = f"longest task {longest:.0f} ms" if longest else "no task of 50 ms"
    return f"{task}, longest time between two frames {stall:.0f} ms"


def step_load(browser, desk):
    browser.open(f"http://127.0.0.1:{desk.port}/")
    worst = 0
    for what, hash_, condition in LOADED:
        browser.run("window.longest = window.stall = 0")
        before, start = browser.worked(), time.time()
        browser.run(f"location.hash = {json.dumps(hash_)}")
        browser.wait(condition, what)
        shown = time.time() - start
        time.sleep(0.5)
        longest, stall = browser.run("[window.longest, window.stall]")
        nodes = browser.run("document.querySelectorAll('*').length")
        worst = max(worst, longest)
        work = browser.worked() - before
        print(f"loaded: {what}: shown after {1000 * shown:.0f} ms, {told(longest, stall)}, {work:.0f} ms of work, {nodes} elements", flush=True)
    go(browser, "#pool/SG1", "[data-volume=V00001] canvas")
    time.sleep(0.5)
    browser.run("window.longest = window.stall = 0")
    desk.ask("POST", "/job/LIVE/1/alloc/LIVE.ONE", json.dumps({"SPACE": "(TRK,1)"}))
    time.sleep(4)
    longest, stall = browser.run("[window.longest, window.stall]")
    moves = browser.run("""(async () => { const canvas = document.querySelector('[data-volume=V00001] canvas'); canvas.focus();
        const start = performance.now();
        for (let at = 0; at < 50; at += 1) canvas.dispatchEvent(new KeyboardEvent('keydown', { key: 'ArrowRight' }));
        return (performance.now() - start) / 50; })()""")
    step_large_deck(browser)
    print(f"loaded: drawn anew behind an entry: {told(longest, stall)}; an arrow key over 6,667 extents {moves:.1f} ms", flush=True)
    check(max(worst, longest) < 200, f"a redraw takes {max(worst, longest):.0f} ms")
    check(moves < 50, f"an arrow key takes {moves:.0f} ms")


def step_without(browser, desk):
    browser.open(f"http://127.0.0.1:{desk.port}/")
    desk.ask("POST", "/admin/1/activate", DECK)
    desk.ask("POST", "/job/JOB1/1/alloc/PAY.MASTER", json.dumps({"SPACE": "(TRK,10)"}))
    browser.sees("#standing", "activation 1")
    go(browser, "#pool/SGPROD", "[data-volume=PRD001]")
    browser.sees("[data-volume=PRD001]", "This desk does not show where the extents of a volume lie.")
    go(browser, "#answers", "#answers-note:not([hidden])")
    browser.sees("#answers-note", "This desk does not show its answers.")
    go(browser, "#set/PAY.MASTER", "#set-detail .extents")
    browser.sees("#set-detail", "This desk does not show its answers.")
    step_try(browser, desk)
    go(browser, "#deck", "#deck-text")
    browser.put("#deck-text", DECK.replace("PRD003", "PRD004"))
    browser.click("#deck-check")
    browser.sees("#deck-result", "This desk does not check decks.")
    browser.sees("#deck-difference", "PRD004")
    browser.sees("#deck-result", "does not show the active deck")


def step_ascii():
    total = 0
    for name in ("markup", "style", "script"):
        text = read_file(name)
        total += len(text)
        check(all(byte in b"\n" or 32 <= byte < 127 for byte in text), f"{name} has a byte that isn't printed ASCII")
        check(b'"' not in text and b"\\" not in text, f"{name} has a double quote or a backslash")
    check(total < 120 * 1024, f"the files have {total} bytes")
    print(f"files: {total} bytes", flush=True)


def ends(browser, where):
    violations = browser.run("window.violations")
    check(not violations, f"{where}: against the policy: {violations}")
    check(not browser.faults, f"{where}: {browser.faults}")
    browser.faults.clear()


def main(words):
    option = lambda name, other: words[words.index(name) + 1] if name in words else other
    pictures, port = option("--pictures", None), int(option("--port", "18200"))
    paths = [word for at, word in enumerate(words) if not word.startswith("--") and (at == 0 or not words[at - 1].startswith("--"))]
    if pictures:
        os.makedirs(pictures, exist_ok=True)
    step_ascii()
    with tempfile.TemporaryDirectory(ignore_cleanup_errors=True) as folder:
        serving = ["serve", "--port", str(port), "--store", "desk.db"]
        desk = Desk([os.path.abspath(paths[0]), *serving], folder, port) if paths else mock(folder, port)
        desk.begin()
        browser = Browser(folder)
        browser.size(1280, 800)
        step_open(browser, desk)
        step_activate(browser, desk)
        step_allocate(browser, desk)
        fill(desk)
        step_pool(browser, desk)
        step_sets(browser, desk)
        step_try(browser, desk)
        step_faulty_decks(browser, desk, folder)
        step_answers(browser, desk)
        step_current(browser, desk)
        step_keys(browser)
        ends(browser, "the steps")
        step_views(browser, pictures, folder)
        ends(browser, "the views")
        desk.kill()
        bare = mock(folder, port + 1, "--without", "answers,classify,check,deck,explain,tracks")
        bare.begin()
        step_without(browser, bare)
        ends(browser, "a desk without routes")
        bare.kill()
        load = mock(folder, port + 2, "--load")
        load.begin()
        step_load(browser, load)
        ends(browser, "the load")
        load.kill()
        browser.program.kill()
        browser.program.wait()
    print(f"{differing} differ")
    return 1 if differing else 0


if __name__ == "__main__":
    signal.signal(signal.SIGTERM, lambda *_: sys.exit(1))
    if "--help" in sys.argv or "-h" in sys.argv:
        sys.exit(__doc__)
    sys.exit(main(sys.argv[1:]))
