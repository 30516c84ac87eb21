#!/usr/bin/env python3
"""Opens a picture in headless Chromium, points at things and searches, and
checks what is lit and which words are shown.

    apt-get install chromium chromium-driver
    route --picture .. (rust/README.md) writes the HTML files; then
    python3 tests/browser/drive.py a.html [--shots FOLDER] [--plan a.plan]

With a plan sheet, ways are followed by this script's own reading of its B lines
and compared with the words. Std only: WebDriver is plain HTTP. Not part of
`cargo test`.
"""

import argparse
import base64
import json
import pathlib
import re
import subprocess
import sys
import time
import urllib.request

PORT = 9517


class Browser:
    """Chromedriver, and the window that it drives."""

    def __init__(self, width=1500, height=950):
        self.driver = subprocess.Popen(
            ["chromedriver", f"--port={PORT}", "--silent"], stdout=subprocess.DEVNULL
        )
        for _ in range(100):
            try:
                urllib.request.urlopen(f"http://127.0.0.1:{PORT}/status", timeout=2).read()
                break
            except OSError:
                time.sleep(0.1)
        words = ["--headless=new", "--no-sandbox", "--disable-gpu", f"--window-size={width},{height}"]
        options = {
            "goog:chromeOptions": {"args": words},
            "goog:loggingPrefs": {"browser": "ALL"},
        }
        made = self.call("POST", "/session", {"capabilities": {"alwaysMatch": options}})
        self.base = f"/session/{made['sessionId']}"

    def call(self, method, path, body=None):
        data = None if body is None else json.dumps(body).encode()
        request = urllib.request.Request(
            f"http://127.0.0.1:{PORT}{path}",
            data=data,
            method=method,
            headers={"Content-Type": "application/json"},
        )
        return json.load(urllib.request.urlopen(request, timeout=120))["value"]

    def post(self, path, body):
        return self.call("POST", self.base + path, body)

    def open(self, file, behind=""):
        self.post("/url", {"url": "about:blank"})
        started = time.time()
        self.post("/url", {"url": pathlib.Path(file).resolve().as_uri() + behind})
        self.settle()
        return time.time() - started

    def settle(self):
        """Two frames later what was asked for has been painted."""
        wait = "const done = arguments[0]; requestAnimationFrame(() => requestAnimationFrame(() => done(1)));"
        self.post("/execute/async", {"script": wait, "args": []})

    def frame(self):
        """Seconds for a step of zoom with all that is painted for it, the mean of some."""
        step = """
            const done = arguments[0], started = performance.now();
            let left = 10;
            const next = () => {
                if (!left--) return done((performance.now() - started) / 10000);
                document.getElementById(left % 2 ? "closer" : "farther").click();
                requestAnimationFrame(() => setTimeout(next));
            };
            next();"""
        return self.post("/execute/async", {"script": step, "args": []})

    def run(self, script, *args):
        return self.post("/execute/sync", {"script": script, "args": list(args)})

    def pointer(self, *steps):
        finger = {"type": "pointer", "id": "m", "parameters": {"pointerType": "mouse"}, "actions": list(steps)}
        self.post("/actions", {"actions": [finger]})

    def point(self, x, y, click=False):
        steps = [{"type": "pointerMove", "duration": 0, "x": round(x), "y": round(y)}]
        if click:
            steps += [{"type": "pointerDown", "button": 0}, {"type": "pointerUp", "button": 0}]
        self.pointer(*steps)

    def drag(self, x, y, to_x, to_y):
        move = {"type": "pointerMove", "duration": 0}
        self.pointer(
            {**move, "x": x, "y": y},
            {"type": "pointerDown", "button": 0},
            {**move, "x": to_x, "y": to_y},
            {"type": "pointerUp", "button": 0},
        )

    def wheel(self, x, y, by):
        step = {"type": "scroll", "x": x, "y": y, "deltaX": 0, "deltaY": by, "duration": 0}
        self.post("/actions", {"actions": [{"type": "wheel", "id": "w", "actions": [step]}]})

    def shot(self, file):
        data = self.call("GET", self.base + "/screenshot")
        pathlib.Path(file).write_bytes(base64.b64decode(data))

    def errors(self):
        log = self.post("/se/log", {"type": "browser"})
        return [entry["message"] for entry in log if entry["level"] == "SEVERE"]

    def end(self):
        self.call("DELETE", self.base)
        self.driver.terminate()
        self.driver.wait()


def words(browser):
    return browser.run("return document.getElementById('words').innerText")


def lit(browser, name):
    """The numbers of the lit things of a kind on the page in view."""
    script = "return [...document.querySelectorAll('#lit [data-' + arguments[0] + ']')].map(e => +e.dataset[arguments[0]])"
    return sorted(browser.run(script, name))


def find(browser, text):
    browser.run(
        "document.getElementById('find').value = arguments[0];"
        "document.getElementById('search').requestSubmit();",
        text,
    )
    time.sleep(0.2)


def where(browser, name, number):
    """The middle of a lit thing on the screen."""
    script = """
        const at = document.querySelector('#lit [data-' + arguments[0] + '="' + arguments[1] + '"]').getBoundingClientRect();
        return [at.left + at.width / 2, at.top + at.height / 2];"""
    return browser.run(script, name, number)


def ways(plan):
    """Each delivered wire's way in words, and its bus wires, from the B lines."""
    feeders, deliveries = {}, {}
    rows = [line.split("\t")[1:] for line in plan.splitlines() if line.startswith("B\t")]
    for number, (kind, node, port, to, to_node, to_port, wire, distance) in enumerate(rows):
        before = (number, None if kind == "p" else int(node), f"{node}.{port}")
        if to == "b":
            feeders[int(to_node)] = before
        else:
            deliveries[int(wire)] = (before, f"{to_node}.{to_port}", distance)
    found = {}
    for wire, ((number, rerouter, port), target, distance) in deliveries.items():
        back, buses = [], [number]
        while rerouter is not None:
            back.append(str(rerouter))
            number, rerouter, port = feeders[rerouter]
            buses.append(number)
        said = " > ".join([port, *reversed(back), target])
        found[wire] = (f"wire {wire}: {said}; distance {distance}", sorted(buses), sorted(map(int, back)))
    return found


class Checks:
    def __init__(self):
        self.done = self.failed = 0

    def that(self, holds, what):
        self.done += 1
        if not holds:
            self.failed += 1
            print("NOT SO:", what)


def check_wires(browser, checks, found):
    """Some wires by search: words, bus wires and rerouters as the plan has them."""
    step = max(1, len(found) // 12)
    for wire in sorted(found)[::step]:
        said, buses, rerouters = found[wire]
        find(browser, f"w{wire}")
        shown = words(browser)
        checks.that(shown.startswith(said), f"{said} is told as {shown[:200]}")
        checks.that(lit(browser, "bus") == buses, f"wire {wire}: bus wires {buses}, lit {lit(browser, 'bus')}")
        checks.that(lit(browser, "rerouter") == rerouters, f"wire {wire}: rerouters {rerouters}")
        checks.that(browser.run("return !!document.querySelector('.page.dim')"), "the rest is dim")


def check_pointing(browser, checks, found):
    """Points at a rerouter and at a run: the way of its wire is lit."""
    wire = sorted(found)[len(found) // 2]
    said, _, rerouters = found[wire]
    middle = rerouters[-1]
    find(browser, f"r{middle}")
    x, y = where(browser, "rerouter", middle)
    let_go(browser)
    checks.that(lit(browser, "rerouter") == [], "Esc lets go")
    browser.point(x, y)
    shown = words(browser)
    checks.that(shown.startswith(f"rerouter {middle}: "), f"rerouter {middle} is told as {shown[:120]}")
    checks.that(f"wire {wire}: " in shown or "wires more" in shown, f"wire {wire} goes through rerouter {middle}")
    checks.that(set(rerouters) <= set(lit(browser, "rerouter")), f"the way of wire {wire} is lit")
    browser.point(3, 400)
    browser.point(x, y, click=True)
    browser.point(700, 500)
    checks.that(words(browser).startswith(f"rerouter {middle}: "), "a click holds")
    let_go(browser)


def let_go(browser):
    browser.run("document.dispatchEvent(new KeyboardEvent('keydown', {key: 'Escape'}))")


def check_things(browser, checks, found):
    """Points at ports, bricks and runs that the way of a wire passes."""
    told = {"port": 0, "node": 0, "bus": 0}
    step = max(1, len(found) // 6)
    for wire in sorted(found)[::step]:
        ends = re.match(r"wire \d+: ([\d.]+) .* ([\d.]+);", found[wire][0]).groups()
        for name, number in [("port", ends[0]), ("port", ends[1])] + [("bus", b) for b in found[wire][1][:3]]:
            find(browser, f"w{wire}")
            browser.settle()
            if not browser.run("return !!document.querySelector('#lit [data-' + arguments[0] + '=\"' + arguments[1] + '\"]')", name, number):
                continue  # on another page
            x, y = where(browser, name, number)
            let_go(browser)
            inside = browser.run("return document.elementFromPoint(arguments[0], arguments[1])?.closest('#board') !== null", x, y)
            checks.that(inside, f"wire {wire}: {name} {number} is out of view at {x}, {y}")
            if not inside:
                continue
            browser.point(x, y)
            shown = words(browser)
            right = {"port": f"port {number}", "bus": f"bus wire {number}: "}[name]
            told[name] += shown.startswith(right) and (f"wire {wire}: " in shown or "wires more" in shown)
        node = ends[1].split(".")[0]
        find(browser, f"n{node}")
        browser.settle()
        box = browser.run("const e = document.querySelector('#lit [data-node=\"' + arguments[0] + '\"]'); if (!e) return null; const r = e.getBoundingClientRect(); return [r.left, r.top, r.width, r.height];", node)
        let_go(browser)
        for across in (0.3, 0.5, 0.7, 0.9) if box else ():
            browser.point(box[0] + box[2] * across, box[1] + box[3] * 0.12)
            if words(browser).startswith(f"node {node}: "):
                told["node"] += 1
                break
    checks.that(all(told.values()), f"ports, bricks and runs are told: {told}")
    print("  pointed at and told:", told)


def hover(browser):
    """Milliseconds for pointing at one place and then at another, the mean of some."""
    script = """
        const svg = document.getElementById("board"), box = svg.getBoundingClientRect(), started = performance.now();
        for (let k = 0; k < 40; k++) {
            const at = {clientX: box.left + box.width * (0.3 + 0.01 * k), clientY: box.top + box.height * (0.2 + 0.015 * k), bubbles: true};
            svg.dispatchEvent(new PointerEvent("pointermove", at));
        }
        return (performance.now() - started) / 40;"""
    return browser.run(script)


def check_view(browser, checks):
    """Zoom and pan move the view; what is not there is said."""
    box = lambda: [float(n) for n in browser.run("return document.getElementById('board').getAttribute('viewBox')").split()]
    settle = browser.settle
    browser.run("document.getElementById('whole').click()")
    settle()
    whole = box()
    browser.wheel(600, 400, -400)
    settle()
    near = box()
    checks.that(near[2] < whole[2] * 0.8, f"the wheel brings nearer: {whole}, {near}")
    browser.drag(600, 300, 500, 250)
    settle()
    moved = box()
    checks.that(moved[0] > near[0] and moved[1] > near[1], f"a drag moves: {near}, {moved}")
    browser.run("document.getElementById('whole').click()")
    settle()
    checks.that(box() == whole, "the whole page again")
    find(browser, "w99999999")
    checks.that("Nothing is named" in words(browser), words(browser))
    find(browser, "<img src=x>")
    checks.that("Nothing is named <img src=x>" in words(browser), words(browser))


def main():
    read = argparse.ArgumentParser(description=__doc__, formatter_class=argparse.RawDescriptionHelpFormatter)
    read.add_argument("html", nargs="+")
    read.add_argument("--plan", help="the plan sheet of the one HTML file")
    read.add_argument("--shots", help="a folder for PNG files")
    read.add_argument("--find", action="append", default=[], help="search for this and take a picture of it")
    asked = read.parse_args()
    checks = Checks()
    browser = Browser()
    try:
        for file in asked.html:
            name = pathlib.Path(file).stem
            times = sorted(browser.open(file) for _ in range(3))
            print(f"{name}: {pathlib.Path(file).stat().st_size} bytes, loaded and painted in {times[1]:.2f} s, a step of zoom {browser.frame():.3f} s")
            print(f"  pointing takes {hover(browser):.1f} ms")
            shots = asked.shots and pathlib.Path(asked.shots)
            if shots:
                time.sleep(0.3)
                browser.shot(shots / f"{name}.png")
            for text in asked.find:
                find(browser, text)
                print(f"  {text}: {words(browser)[:300]}")
                if shots:
                    browser.shot(shots / f"{name}-{re.sub('[^a-z0-9]', '_', text)}.png")
            if asked.plan:
                found = ways(pathlib.Path(asked.plan).read_text())
                check_wires(browser, checks, found)
                check_pointing(browser, checks, found)
                check_things(browser, checks, found)
                check_view(browser, checks)
            checks.that(not browser.errors(), f"{name}: errors in the console")
    finally:
        browser.end()
    print(f"{checks.done} checked, {checks.failed} not so")
    sys.exit(1 if checks.failed else 0)


if __name__ == "__main__":
    main()
