#!/usr/bin/env python3
"""Opens pages of the player in Chromium: browser.py CHROMIUM PLAYER PROGRAM FOLDER.

Every moment of the gallery is shown, on and back, and the lane that is drawn is compared with the one that the proved
program reads there (with several lanes: the library, by the player). Then keys, addresses, phones, screenshots, and a
page of 1,000 ticks. Needs nothing but Python: Chromium is driven by a pipe.
"""

import json
import pathlib
import random
import signal
import subprocess
import sys
import time

CHROMIUM, PLAYER, PROGRAM, FOLDER = sys.argv[1:]
FOLDER = pathlib.Path(FOLDER).resolve()
EXAMPLES = pathlib.Path(__file__).resolve().parents[2] / "examples"
DESKTOP, PHONE = (1280, 900), (360, 740)
# What 1,000 ticks of 64 slots may take to open, and a step.
OPEN_SECONDS, STEP_SECONDS = 2.0, 0.05
# A browser that hangs ends the test.
ALARM_SECONDS = 120


def flat(event):
    """An event's own names and those of its parameters, as pairs."""
    pairs = {**event, **event.get("params", {})}
    return {(name, value) for name, value in pairs.items() if isinstance(value, str)}


class Browser:
    """Chromium's DevTools protocol over a pipe: its file 3 is our standard output to it, its file 4 our input."""

    def __init__(self):
        shell = 'exec "$0" "$@" 3<&0 4>&1 </dev/null >/dev/null 2>&1'
        options = ["--headless", "--no-sandbox", "--disable-gpu", "--hide-scrollbars", "--remote-debugging-pipe"]
        options.append(f"--user-data-dir={FOLDER / 'profile'}")
        command = ["sh", "-c", shell, CHROMIUM, *options, "about:blank"]
        self.process = subprocess.Popen(command, stdin=subprocess.PIPE, stdout=subprocess.PIPE)
        self.number, self.session, self.events = 0, None, []
        target = self.call("Target.createTarget", url="about:blank")["targetId"]
        self.session = self.call("Target.attachToTarget", targetId=target, flatten=True)["sessionId"]
        for domain in ["Page", "Runtime", "Log", "Network"]:
            self.call(f"{domain}.enable")
        self.call("Page.setLifecycleEventsEnabled", enabled=True)

    def message(self):
        text = bytearray()
        while (byte := self.process.stdout.read(1)) != b"\0":
            if not byte:
                raise SystemExit("tests/pages: the browser has ended")
            text += byte
        return json.loads(text)

    def call(self, method, **params):
        self.number += 1
        request = {"id": self.number, "method": method, "params": params}
        if self.session:
            request["sessionId"] = self.session
        self.process.stdin.write(json.dumps(request).encode() + b"\0")
        self.process.stdin.flush()
        while (message := self.message()).get("id") != self.number:
            self.events.append(message)
        if "error" in message:
            raise SystemExit(f"tests/pages: {method}: {message['error']}")
        return message["result"]

    def navigate(self, url):
        """Goes to another document, and waits until it is loaded."""
        self.events.clear()
        loader = self.call("Page.navigate", url=url)["loaderId"]
        loaded = {"method": "Page.lifecycleEvent", "name": "load", "loaderId": loader}
        while not any(loaded.items() <= flat(event) for event in self.events):
            self.events.append(self.message())

    def size(self, width, height):
        self.call("Emulation.setDeviceMetricsOverride", width=width, height=height, deviceScaleFactor=1, mobile=False)

    def open(self, file, address=""):
        """Opens a page afresh and gives the seconds that it took."""
        self.navigate("about:blank")
        begun = time.monotonic()
        self.navigate(f"{file.as_uri()}{address}")
        return time.monotonic() - begun

    def js(self, expression):
        given = self.call("Runtime.evaluate", expression=expression, returnByValue=True, awaitPromise=True)
        if "exceptionDetails" in given:
            raise SystemExit(f"tests/pages: {expression}: {given['exceptionDetails']}")
        return given["result"].get("value")

    def key(self, key, code=None, shift=False):
        text = {"text": key} if len(key) == 1 else {}
        common = {"key": key, "code": code or key, "modifiers": 8 if shift else 0}
        codes = {"ArrowLeft": 37, "ArrowRight": 39, "Home": 36, "End": 35, " ": 32}
        common["windowsVirtualKeyCode"] = codes.get(key, ord(key[0].upper()))
        self.call("Input.dispatchKeyEvent", type="keyDown", **common, **text)
        self.call("Input.dispatchKeyEvent", type="keyUp", **common)

    def close(self):
        """Lets it end by itself, so that nothing writes to its folder any more."""
        self.session = None
        self.call("Browser.close")
        try:
            self.process.wait(timeout=10)
        except subprocess.TimeoutExpired:
            self.process.kill()

    def faults(self):
        """What the page said on its console or asked of a network."""
        found = []
        for event in self.events:
            method, params = event.get("method"), event.get("params", {})
            if method == "Runtime.exceptionThrown" or method == "Runtime.consoleAPICalled":
                found.append(json.dumps(params))
            if method == "Log.entryAdded" and params["entry"]["level"] in ("error", "warning"):
                found.append(params["entry"]["text"])
            if method == "Network.requestWillBeSent" and not params["request"]["url"].startswith(("file:", "data:")):
                found.append(f"asks for {params['request']['url']}")
        return found

    def colours(self):
        """How many colours a screenshot has."""
        picture = self.call("Page.captureScreenshot", format="png")["data"]
        return self.js(
            f"""(async () => {{
                const image = new Image();
                image.src = "data:image/png;base64,{picture}";
                await image.decode();
                const {{ width, height }} = image;
                const canvas = Object.assign(document.createElement("canvas"), {{ width, height }});
                const context = canvas.getContext("2d");
                context.drawImage(image, 0, 0);
                return new Set(new Uint32Array(context.getImageData(0, 0, width, height).data.buffer)).size;
            }})()"""
        )


def check(holds, said):
    if not holds:
        raise SystemExit(f"tests/pages: {said}")


def run_of(file):
    """The data in a page."""
    data = file.read_text().split('<script type="application/json" id="run">')[1]
    return json.loads(data.split("</script>")[0])


def words_of(run):
    """The table's words after each moment, and before the first."""
    words, every = [], [[]]
    for moment in run["moments"]:
        if "table" in moment:
            words = list(moment["table"])
        wrote = moment.get("wrote", [])
        for place, word in zip(wrote[::2], wrote[1::2]):
            words[place] = word
        every.append(list(words))
    return every


def printed_by(command, lines):
    return subprocess.run(command, input=lines, capture_output=True, text=True, check=True).stdout


def lanes_read(run, several):
    """The lanes after each moment, read by the proved program, or by the player with several lanes."""
    lines, expected = [], [(0, 0)]
    lanes = 1
    for moment in run["moments"]:
        text = run["lines"][moment["line"]][0]
        if moment["kind"] == "start":
            lanes = moment["table"][3]
        if moment["kind"] == "tick":
            hint = moment["hint"]
            text = f"(dispatch {hint} 1)" if moment.get("dispatched") else f"(tick {moment['task']} {hint} 1)"
        lines += [text, *([f"(lane {k})" for k in range(lanes)] if several else ["(lane)"])]
        expected.append((len(lines) - lanes, len(lines)))
    command = [PLAYER, "--lanes", str(FOLDER / "again.html")] if several else [PROGRAM]
    printed = printed_by(command, "\n".join(lines) + "\n").split("\n")
    return [[line[len("(lane") : -1].split() for line in printed[begin:end]] for begin, end in expected]


# What a page shows of its lanes, its rows and its free slots.
SHOWN = """(() => {
    const lanes = [...document.querySelectorAll("#picture [data-lane]")];
    return {
        now: document.querySelector("#now").textContent,
        lanes: lanes.map((lane) => {
            const bags = lane.querySelectorAll("[data-strip=list] .bag");
            return [...bags].map((slot) => slot.dataset.value);
        }),
        rows: lanes.map((lane) => lane.querySelector(".row .tags")?.textContent.split(" ") ?? []),
        slots: document.querySelectorAll("#picture [data-lane] [data-slot]").length,
        free: (document.querySelector("[data-free]")?.dataset.free ?? "").split(" ").filter(Boolean).map(Number),
        address: document.querySelector("#now").dataset.address,
    };
})()"""
PRESS = 'document.querySelector("[data-do={0}]").click()'
SLIDE = "slider.value = at; slider.dispatchEvent(new Event('input'))"


def moments_shown(browser, file, several, stride=1):
    """Shows each moment, or one of so many, on and back: what is drawn is what is read there."""
    run = run_of(file)
    expected = lanes_read(run, several)
    words = words_of(run)
    chosen = list(range(1, len(words), stride))
    forth = browser.js(f"{chosen}.map((at) => {{ {SLIDE if stride > 1 else PRESS.format('on')}; return {SHOWN}; }})")
    back = browser.js(
        f"{chosen[::-1]}.map((at) => {{ {SLIDE}; const shown = {SHOWN}; {PRESS.format('back')}; return shown; }})"
    )
    for one, other in zip(forth, back[::-1]):
        check(one == other, f"{file.name}: on shows {one}, and back {other}")
    for at, shown in zip(chosen, forth):
        moment, where = run["moments"][at - 1], f"{file.name}, moment {at} ({shown['now']})"
        if not words[at]:
            continue
        check(shown["lanes"] == expected[at], f"{where}: shows {shown['lanes']}, and read is {expected[at]}")
        check(shown["rows"] == expected[at], f"{where}: the row is {shown['rows']}, and read is {expected[at]}")
        slots = words[at][0]
        check(shown["slots"] + len(shown["free"]) == slots, f"{where}: not every slot is drawn once")
        if "took" in moment and stride == 1:
            free = forth[at - 2]["free"]
            first = min(free, key=lambda slot: (slot - moment["hint"]) % slots)
            check(first == moment["took"], f"{where}: free were {free}, and {moment['took']} was taken")
    return run, words


def same_words(browser, file, words):
    """The words that are shown at some moments are the table's."""
    browser.js('document.querySelector("#words").open = true')
    for at in sorted({1, len(words) // 3, len(words) // 2, len(words) - 1}):
        cells = '[...document.querySelectorAll("#words td[data-at]")].map((cell) => cell.textContent)'
        shown = browser.js(f"((at) => {{ {SLIDE}; return {cells}; }})({at})")
        wanted = ["none" if word == 65535 else str(word) for word in words[at]]
        check(shown == wanted, f"{file.name}: other words at {at}")
    browser.js('document.querySelector("#words").open = false')


def keys(browser, file, run):
    """Each key does what its button says, and the address follows."""
    ticks = sum(moment["kind"] == "tick" for moment in run["moments"])

    def address():
        return browser.js(SHOWN)["address"]

    def address_after(key, shift=False):
        browser.key(key, shift=shift)
        return address()

    def expect(found, wanted, what):
        check(found == wanted, f"{file.name}: {what} leads to {found}, not to {wanted}")

    tick_at = [0]
    for moment in run["moments"]:
        tick_at.append(tick_at[-1] + (moment["kind"] == "tick"))
    chosen = {
        "a": lambda moment: moment.get("answer", "going") != "going",
        "s": lambda moment: "lost" in moment,
        "t": lambda moment: "took" in moment,
    }
    browser.open(file)
    expect(address(), "#tick=0", "the page")
    expect(address_after("ArrowRight"), "#tick=0+1", "the right arrow")
    expect(address_after("ArrowLeft"), "#tick=0", "the left arrow")
    for key, holds in chosen.items():
        address_after("Home")
        found = [tick_at[at] for at, moment in enumerate(run["moments"], 1) if holds(moment)]
        for tick in found[:3]:
            expect(address_after(key), f"#tick={tick}", key)
        if len(found) > 1:
            expect(address_after(key.upper(), shift=True), f"#tick={found[min(len(found), 3) - 2]}", f"shift and {key}")
    extra = len(run["moments"]) - tick_at.index(ticks)
    expect(address_after("End"), f"#tick={ticks}{f'+{extra}' if extra else ''}", "End")
    expect(address_after("Home"), "#tick=0", "Home")
    # Play moves by itself, and pauses.
    browser.js('document.querySelector("#speed").value = "120"')
    browser.key(" ")
    time.sleep(0.8)
    browser.key(" ")
    paused = address()
    check(paused != "#tick=0", f"{file.name}: space does not play")
    time.sleep(0.4)
    expect(address(), paused, "a pause")
    expect(browser.js("location.hash"), paused, "the address")
    # By keyboard alone: every control can have the focus, and a button that has it is pressed by a key.
    browser.js('document.querySelector("[data-do=last]").focus()')
    browser.key(" ")
    at_the_end = browser.js('document.querySelector("[data-do=on]").disabled')
    check(at_the_end, f"{file.name}: a button is not pressed by space")
    browser.open(file, "#tick=7")
    check("Tick 7:" in browser.js(SHOWN)["now"], f"{file.name}#tick=7 opens elsewhere")


def looks(browser, file, address):
    """It is not blank, fits the screen, and has its text, on a desk and on a phone."""
    for size in (DESKTOP, PHONE):
        browser.size(*size)
        browser.open(file, address)
        wide = browser.js("document.documentElement.scrollWidth")
        check(wide <= size[0], f"{file.name} is {wide} wide on a screen of {size[0]}")
        found = browser.js(SHOWN)
        said = browser.js('document.querySelector("#said").textContent')
        for lane in found["lanes"]:
            for tag in lane:
                check(f"bag {tag}" in said, f"{file.name}: {tag} is not in the words")
        named = '[...document.querySelectorAll("{0}")].every((one) => {1})'
        check(browser.js(named.format("svg", 'one.getAttribute("aria-label")')), "a picture has no name")
        check(browser.js(named.format("button", "one.textContent.trim()")), "a button has no name")
        colours = browser.colours()
        check(colours > 50, f"{file.name} at {size}: a screenshot has {colours} colours")
        check(not browser.faults(), f"{file.name}: {browser.faults()}")
    browser.size(*DESKTOP)


def large(browser):
    """1,000 ticks of 64 slots open fast and stay smooth; a longer run says what was cut."""
    some = random.Random(7)
    lines = ["(start (slots 64) (tasks 8) (growth 3))"]
    for tag in range(1, 291):
        task, side = some.randrange(8), some.choice(["left", "right"])
        others = [f"pop {side} 0", f"add {side} {tag % 6}", f"remove {side} {tag % 3}"]
        call = some.choice([f"push {side} {tag:010}"] * 3 + others)
        lines += [f"(begin {task} ({call}))"]
        lines += [f"(tick {some.randrange(8)} {some.randrange(64)} {some.randrange(1, 4)})" for _ in range(4)]
    file = FOLDER / "large.html"

    def make(lines):
        text = "\n".join(lines) + "\n"
        check(printed_by([PLAYER, str(file)], text) == printed_by([PROGRAM], text), "the player prints otherwise")
        return run_of(file)

    run = make(lines)
    ticks = sum(moment["kind"] == "tick" for moment in run["moments"])
    check(ticks >= 1000 and not run["cut"]["ticks"], f"{ticks} ticks in the large run")
    # The best of some, for others may be at work.
    opened = min(browser.open(file) for _ in range(3))
    batch = f"""(() => {{
        const begun = performance.now();
        for (let i = 0; i < 50; i++) {PRESS.format('on')}, document.body.offsetHeight;
        return (performance.now() - begun) / 50 / 1000;
    }})()"""
    steps = min(browser.js(batch) for _ in range(4))
    check(opened < OPEN_SECONDS, f"{ticks} ticks of 64 slots open in {opened:.2f} s")
    check(steps < STEP_SECONDS, f"a step takes {steps:.3f} s")
    check(browser.js('document.querySelector("#cut").hidden'), "something is cut")
    moments_shown(browser, file, False, stride=20)
    check(not browser.faults(), f"{file.name}: {browser.faults()}")

    run = make(lines * 6)
    browser.open(file)
    said = browser.js('document.querySelector("#cut").textContent')
    cut = run["cut"]
    check(f" {cut['ticks']} ticks" in said and f" {cut['lines']} lines" in said, f"what is cut is not said: {said}")
    check(browser.js('document.querySelector("#cut").offsetHeight') > 0, "what is cut is not seen")
    return ticks, opened, steps


def strip(browser, where):
    """The slots drawn there, with their values."""
    slots = f'document.querySelectorAll("[data-strip={where}] [data-slot]")'
    return browser.js(f"[...{slots}].map((slot) => slot.dataset.slot + slot.dataset.value)")


def main():
    signal.alarm(ALARM_SECONDS)
    browser = Browser()
    try:
        browser.size(*DESKTOP)
        moments = 0
        for name, address in [("paper", "#tick=11"), ("spur", "#tick=29"), ("full", "#tick=91"), ("lanes", "#tick=18")]:
            file = EXAMPLES / "pages" / f"{name}.html"
            browser.open(file)
            run, words = moments_shown(browser, file, name == "lanes")
            moments += len(run["moments"])
            same_words(browser, file, words)
            check(not browser.faults(), f"{file.name}: {browser.faults()}")
            keys(browser, file, run)
            looks(browser, file, address)
        spur = EXAMPLES / "pages" / "spur.html"
        browser.open(spur, "#tick=29")
        check(strip(browser, "beside") == ["4RY"], f"case 5: the spur is {strip(browser, 'beside')}")
        browser.open(spur, "#tick=3")
        check(strip(browser, "chain") == ["4RN", "3RN", "2RX"], f"case 5: the chain is {strip(browser, 'chain')}")
        ticks, opened, steps = large(browser)
    finally:
        browser.close()
    print(f"in a browser: {moments} moments of the gallery, on and back;", end=" ")
    print(f"{ticks} ticks of 64 slots open in {opened:.2f} s, a step takes {steps * 1000:.0f} ms")


main()
