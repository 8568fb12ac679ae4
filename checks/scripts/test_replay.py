"""`replay`: the page's data, and the page in headless Chromium."""
import gzip
import json
import os
import re
import shutil
import time
import unittest

from calls import Calls, content, example, run
from common import EXAMPLES

import arena
from spoken import packet_words

try:
    from selenium import webdriver
    from selenium.webdriver.chrome.options import Options
    from selenium.webdriver.chrome.service import Service
except ImportError:
    webdriver = None
BROWSER, DRIVER = shutil.which("chromium"), shutil.which("chromedriver")


STOREYS = b"""arena -131072 -131072 0 131072 131072 65536
block -65536 -65536 0 -32768 65536 4096
block -65536 -65536 20000 65536 65536 24576
block -65536 -65536 40000 65536 65536 45056
spawn 0 0 30720
spawn 20480 0 6144
spawn -20480 0 6144
frame
from 7 0101
end
"""


def head_of(page):
    return json.loads(re.search(rb'id="head">(.*?)</script>', page, re.S)[1])


class Pages(Calls):
    def test_each_example_is_shown(self):
        for name in sorted(os.listdir(EXAMPLES)):
            output = name[:-5] + ".out"
            if not name.endswith(".demo") or name.startswith(("refused", "unfinished")) or b"frame " not in content(output):
                continue
            page, error, _ = self.call("replay", example(name), example(output), status=0)
            self.assertEqual((error, head_of(page)["frames"]), (b"", content(output).count(b"frame ")))
            self.assertNotIn(b"http", page.replace(b"http-equiv", b""))

    def test_events(self):
        head = head_of(self.call("replay", example("duel.demo"), example("duel.out"), status=0)[0])
        events = [[head["kinds"][event[1]], *event[2:]] for event in head["events"]]
        shots = [event for event in events if event[0] == "hit"]
        self.assertEqual([shot[1] for shot in shots].count(0), 4)
        self.assertEqual([event for event in events if event[0] == "fell"], [["fell", 1, 0]])
        head = head_of(self.call("replay", example("leaving.demo"), example("leaving.out"), status=0)[0])
        events = [[event[0], head["kinds"][event[1]], *event[2:]] for event in head["events"]]
        self.assertEqual(events, [[0, "joined", 0, 7], [0, "left", 0, 7], [1, "joined", 0, 8]])

    def test_the_program_plays_where_no_output_is_given(self):
        one, _, _ = self.call("replay", example("tour.demo"), status=0)
        other, _, _ = self.call("replay", example("tour.demo"), example("tour.out"), status=0)
        self.assertEqual(one, other)
        packed = self.path("tour.demo", gzip.compress(content("tour.demo")))
        self.assertEqual(self.call("replay", packed, status=0)[0], other)
        self.call("replay", example("tour.demo"), status=2, env={"ARENA_CLI": "/none"})

    def test_an_output_of_feed(self):
        fed = run(["feed", "2"], content("tour.demo"))[0]
        self.assertEqual(head_of(self.call("replay", example("tour.demo"), self.path("fed", fed), status=0)[0])["frames"], 13)

    def test_a_name_is_no_markup(self):
        path = self.path("<script>alert(1)<.demo", content("one-join.demo"))
        page, _, _ = self.call("replay", path, status=0)
        self.assertNotIn(b"<script>alert", page)
        self.assertEqual(head_of(page)["title"], os.path.basename(path))
        page, _, _ = self.call("replay", self.path("a \x1b.demo", content("one-join.demo")), status=0)
        self.assertNotIn(b"\x1b", page)

    def test_what_cannot_be_shown(self):
        self.call("replay", status=2)
        empty = self.path("empty.demo", b"")
        why = b"replay: recording refused: line 1, fault 10; there is no frame before it to show\n"
        self.assertEqual(self.call("replay", empty, status=1)[:2], (b"", why))
        no_program = {"ARENA_CLI": shutil.which("false")}
        why = b"replay: the program ended with status 1: it said nothing\n"
        self.assertEqual(self.call("replay", example("duel.demo"), status=1, env=no_program)[:2], (b"", why))
        self.call("replay", self.path("none"), status=2)
        self.call("replay", example("duel.out"), status=1)
        self.call("replay", example("duel.demo"), example("duel.demo"), status=1)
        self.call("replay", example("no-frame.demo"), example("no-frame.out"), status=1)
        self.call("replay", example("duel.demo"), self.path("bad.out", b"frame 0\ndid 3 1 0 0 0 -\n"), status=1)
        self.call("replay", example("duel.demo"), self.path("cut.out", content("duel.out")[:9000]), status=0)

    def test_size(self):
        """64 players take about two kilobytes a frame, so 2,000 frames are far below 20 MB."""
        recording = run(["make", "7", "64", "100"])[0]
        page, _, _ = self.call("replay", self.path("large.demo", recording), status=0)
        self.assertLess(len(page), 20_000_000 * 100 / 2000)


@unittest.skipUnless(webdriver and BROWSER and DRIVER, "Chromium, its driver or selenium for this Python isn't here")
class InBrowser(Calls):
    def setUp(self):
        super().setUp()
        options = Options()
        for word in ("--headless=new", "--no-sandbox", "--disable-gpu", "--disable-dev-shm-usage", "--window-size=1200,800"):
            options.add_argument(word)
        options.binary_location = BROWSER
        options.set_capability("goog:loggingPrefs", {"browser": "ALL"})
        self.browser = webdriver.Chrome(service=Service(DRIVER), options=options)
        self.addCleanup(self.browser.quit)

    def show(self, page):
        self.browser.get("file://" + self.path("page.html", page))
        until = time.monotonic() + 60
        while not self.browser.execute_script("return document.body.dataset.ready"):
            self.assertLess(time.monotonic(), until, "the page is ready")
            time.sleep(0.05)
        self.assertEqual(self.browser.execute_script("return document.body.dataset.ready"), "yes")

    def text(self, selector):
        return self.browser.execute_script("return document.querySelector(arguments[0]).innerText", selector)

    def click(self, selector):
        self.browser.execute_script("document.querySelector(arguments[0]).click()", selector)

    def test_a_match_is_shown(self):
        page, _, _ = self.call("replay", example("tour.demo"), example("tour.out"), status=0)
        self.show(page)
        self.assertEqual(self.text("#where"), "frame 0 of 12")
        self.click('button[data-tab="packets"]')
        with arena.opened(example("tour.demo")) as file:
            frames = list(arena.Recording(file))
        for number in (0, 5, 12):
            self.browser.execute_script("go(arguments[0])", number)
            shown = self.browser.execute_script("return [...document.querySelectorAll('#packets code')].map(c => c.textContent)")
            self.assertEqual(shown, [packet_words(arrival.data) for arrival in frames[number].arrivals])
        self.click('button[data-tab="events"]')
        self.click("#rows .row:last-child")
        self.assertNotEqual(self.text("#where"), "frame 12 of 12")
        self.click('button[data-tab="players"]')
        self.click("#players tbody tr")
        self.assertEqual(self.browser.execute_script("return state.followed"), 0)
        self.browser.execute_script("go(0)")
        self.click("#play")
        until = time.monotonic() + 60
        while self.text("#where") != "frame 12 of 12":
            self.assertLess(time.monotonic(), until, "the match was played to its end")
            time.sleep(0.1)
        self.assertEqual(self.browser.get_log("browser"), [])

    def test_what_stands_above_is_left_out(self):
        """Two spawns under a ceiling of 20,000 and one on it, under one of 40,000; without ceilings nothing is cut."""
        self.show(self.call("replay", self.path("storeys.demo", STOREYS), status=0)[0])
        shown = "return [shownHeight, world.blocks.filter(stands).length, byId('height').disabled]"
        self.assertEqual(self.browser.execute_script(shown), [19_999, 1, False])
        self.click("#players tbody tr")
        self.assertEqual(self.browser.execute_script(shown), [24_576 + 6_144 + 8_191, 2, True])
        self.click("#players tbody tr")
        self.browser.execute_script("byId('height').value = 65535; byId('height').oninput({ target: byId('height') })")
        self.assertEqual(self.browser.execute_script(shown), [65_535, 3, False])
        self.show(self.call("replay", example("duel.demo"), example("duel.out"), status=0)[0])
        self.assertEqual(self.browser.execute_script("return [shownHeight, byId('level').hidden]"), [None, True])
        self.assertEqual(self.browser.get_log("browser"), [])

    def test_refused_packets_are_shown(self):
        page, _, _ = self.call("replay", example("packet-faults.demo"), example("packet-faults.out"), status=0)
        self.show(page)
        self.click('button[data-tab="packets"]')
        shown = self.browser.execute_script("return [...document.querySelectorAll('#packets .no')].map(c => c.textContent)")
        wanted = [line.split(" ")[2] for line in content("packet-faults.out").decode().split("\n") if line.startswith("no ")]
        self.assertEqual(shown, [f"refused: {name}" for name in wanted])
        self.assertEqual(self.browser.get_log("browser"), [])


if __name__ == "__main__":
    unittest.main()
