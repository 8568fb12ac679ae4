"""The page of the live front in headless Chromium, for `checks/live --browser`."""
import contextlib
import math
import os
import random
import struct
import tempfile
import time

from selenium import webdriver
from selenium.webdriver.chrome.service import Service
from selenium.webdriver.common.action_chains import ActionChains
from selenium.webdriver.common.by import By
from selenium.webdriver.common.keys import Keys

import arena
from common import EXAMPLES, run

PREDICTED_MOVES = 600
STALLS = 20
LEAVES = 8
# Two players on a line, with ammunition between them.
RANGE = """arena -65536 -65536 0 65536 65536 49152
shots
spawn -20000 0 6144
spawn 20000 0 6144
item -12000 -4096 0 ammo 60000
"""


def try_browser(words):
    from live import MAP, Front, want

    with tempfile.TemporaryDirectory(prefix="live-") as top:
        with Front(MAP, "--bots", "6", "--save", os.path.join(top, "match")) as front:
            url = f"http://127.0.0.1:{front.http}/"
            with opened(url) as page, opened(url) as other:
                plays(page, other, want)
                leaves(page, want)
                refused = front.metrics().get('arena_refusals_total{name="front-leaving"}', 0)
                want(refused == 0, f"{refused:.0f} packets came from the page after a leave")
                if words.screenshot:
                    page.save_screenshot(words.screenshot)
            ends_right(front, want)
        with open(os.path.join(top, "range.map"), "w", encoding="ascii") as file:
            file.write(RANGE)
        with Front(file.name, "--save", os.path.join(top, "range")) as front:
            url = f"http://127.0.0.1:{front.http}/"
            with opened(url) as page, opened(url) as other:
                shoots(page, other, want)
            ends_right(front, want)
    print("browser: the page joins, walks, jumps, shoots and leaves as it is told; no console has a line")


def ends_right(front, want):
    text, status = front.end()
    print(text, end="")
    want(status == 0, f"the front's status is {status}")


def plays(page, other, want):
    wait_until(lambda: text_of(page, "slot").startswith("watching"), "the page watches")
    join(page)
    slot = int(text_of(page, "slot"))
    walk(page, want)
    stalls(page, want)
    wait_until(lambda: f"player {slot}" in text_of(other, "players"), "another page lists the player")
    watched_place_is_seen(page, other, slot, want)
    join(other)
    want(text_of(other, "slot") != text_of(page, "slot"), "two pages have one slot")
    predicts(page, want)
    cuts(page, want)
    tells_keys(page, ["shoots", "goal"], want)
    leave(page)
    are_silent((page, other), want)


def are_silent(pages, want):
    for page in pages:
        said = page.get_log("browser")
        want(not said, f"the console has {said}")


def shoots(page, other, want):
    """A player takes ammunition and shoots another until it falls."""
    join(page)
    join(other)
    held(page, "d", 0.6)
    wait_until(lambda: text_of(page, "ammo") == "20", "ammunition is taken")
    for _ in range(12):
        held(page, "f", 0.1)
    wait_until(lambda: "player 1 fell, hit by player 0" in text_of(other, "events"), "the other falls")
    ammo, score = int(text_of(page, "ammo")), int(text_of(page, "score"))
    want(ammo <= 16 and score >= 1, f"after four hits the ammunition is {ammo} and the score {score}")
    print(f"browser: {20 - ammo} shots, score {score}")
    tells_keys(page, ["shoots"], want)
    are_silent((page, other), want)


@contextlib.contextmanager
def opened(url):
    """A page in a browser of its own."""
    options = webdriver.ChromeOptions()
    options.binary_location = "/usr/bin/chromium"
    for word in ("headless=new", "no-sandbox", "disable-gpu", "disable-dev-shm-usage", "window-size=1400,900"):
        options.add_argument(f"--{word}")
    options.set_capability("goog:loggingPrefs", {"browser": "ALL"})
    page = webdriver.Chrome(options=options, service=Service("/usr/bin/chromedriver"))
    try:
        page.set_script_timeout(60)
        page.get(url)
        yield page
    finally:
        page.quit()


def text_of(page, name):
    return page.find_element(By.ID, name).text


def place_of(page):
    return [float(part) for part in text_of(page, "place").split(", ")]


def wait_until(is_so, what, seconds=15):
    from live import Wrong

    until = time.monotonic() + seconds
    while not is_so():
        if time.monotonic() > until:
            raise Wrong(f"not within {seconds} seconds: {what}")
        time.sleep(0.05)


def join(page):
    page.find_element(By.ID, "join").click()
    wait_until(lambda: text_of(page, "state") == "playing" and text_of(page, "slot").isdigit(), "the page joins")


def leave(page):
    page.find_element(By.ID, "join").click()
    wait_until(lambda: text_of(page, "state") == "watching", "the page watches after it left")


def leaves(page, want):
    """A page that leaves and joins again, often, sends nothing that is refused."""
    for _ in range(LEAVES):
        join(page)
        leave(page)
    are_silent((page,), want)


def walk(page, want):
    """Each key takes the player where it should, in the snapshot; a jump lifts it; what hinders is walked round."""
    for key, axis, sign in (("w", 1, 1), ("s", 1, -1), ("a", 0, -1), ("d", 0, 1)):
        for _ in range(3):
            before = place_of(page)
            held(page, key, 0.5)
            far = (place_of(page)[axis] - before[axis]) * sign
            if far > 20:
                break
            held(page, random.choice("wasd"), 0.3)
        want(far > 20, f"key {key} moves the player by {far} units")
        print(f"browser: key {key}: {far:.0f} units in half a second")
    ActionChains(page).key_down(Keys.SPACE).perform()
    heights = []
    for _ in range(20):
        heights.append(place_of(page)[2])
        time.sleep(0.02)
    ActionChains(page).key_up(Keys.SPACE).perform()
    want(max(heights) - min(heights) > 10, f"a jump lifts the player by {max(heights) - min(heights)} units")


def stalls(page, want):
    """A page that is held up for less than a quarter of a second makes up for it in few packets.

    On a busy machine a frame of the front may be late too, and take more of them than it should.
    """
    before = int(text_of(page, "refusals"))
    for _ in range(STALLS):
        page.execute_script("const begun = performance.now(); while (performance.now() - begun < 230);")
        time.sleep(0.15)
    time.sleep(1.5)
    more = int(text_of(page, "refusals")) - before
    want(more <= STALLS // 4, f"{more} packets are refused after {STALLS} stalls")


def held(page, key, seconds):
    ActionChains(page).key_down(key).perform()
    time.sleep(seconds)
    ActionChains(page).key_up(key).perform()
    time.sleep(0.3)


def tells_keys(page, words, want):
    """The panel tells what the map has, and all of it is in sight."""
    text = text_of(page, "keys")
    has = [word for word in ("shoots", "goal") if word in text]
    want(has == words, f"the keys are told so: {text}")
    low = page.execute_script("return document.getElementById('keys').getBoundingClientRect().bottom - innerHeight")
    want(low <= 0, f"the panel's text ends {low} pixels below the window")


def cuts(page, want):
    """Of a map with storeys what stands above is left out, of another one nothing."""
    storeys = "arena -65536 -65536 0 65536 65536 65536\nblock -65536 -65536 20000 65536 65536 24576\nspawn 0 0 6144\nspawn 0 0 30720"
    got = page.execute_async_script(
        "const [text, done] = arguments;"
        "Promise.all([import('/page.js'), fetch('map')]).then(async ([{ readMap, hasStoreys, heightOfSpawns }, flat]) => {"
        "  const map = readMap(text);"
        "  done([hasStoreys(map), heightOfSpawns(map), hasStoreys(readMap(await flat.text()))]);"
        "});",
        storeys,
    )
    # Each height shows one of the two spawns; the higher is just below the arena's upper face.
    want(got == [True, 65535, False], f"the page finds {got} of storeys")


def watched_place_is_seen(page, other, slot, want):
    """The other page, which watches this player, shows the same place."""
    other.find_element(By.CSS_SELECTOR, f'#players li[data-slot="{slot}"]').click()
    wait_until(lambda: text_of(other, "slot") == f"watching {slot}", "the other page watches the player")
    time.sleep(0.5)
    far = math.dist(place_of(page), place_of(other))
    want(far < 40, f"the pages show the player {far} units apart")


def predicts(page, want):
    """What the page predicts of random moves is, to the sub-unit, what the program does."""
    rng = random.Random(5)
    with open(os.path.join(EXAMPLES, "arena.map"), "rb") as file:
        lines = [line for line in file.read().splitlines() if not line.startswith((b"lift", b"teleport", b"shots", b"end"))]
    angle, commands = 0.0, []
    for number in range(1, PREDICTED_MOVES + 1):
        angle = rng.uniform(-math.pi, math.pi) if rng.random() < 0.06 else angle
        x, y = round(320 * math.cos(angle)), round(320 * math.sin(angle))
        commands.append(arena.Command(number, rng.randrange(1, 51), x, y, int(rng.random() < 0.1)))
    text = b"\n".join(lines) + b"\n"
    recording = text + b"frame\nfrom 1 0101\n"
    for command in commands:
        recording += b"frame\n" + arena.packet_line(1, arena.moves([command])).encode() + b"\n"
    output, _, status = run(["play", "1"], recording + b"end\n")
    want(status == 0, f"the program's status is {status}")
    moved = [line.split()[3:6] for line in output.splitlines() if line.startswith(b"did ")]
    wanted = [[int(part) for part in place] for place in moved]
    first = next(line for line in output.splitlines() if line.startswith(b"to "))
    origin = list(struct.unpack_from("<3i", bytes.fromhex(first.split()[2].decode()), 6))
    got = page.execute_async_script(
        "const [text, origin, commands, done] = arguments;"
        "import('/page.js').then(({ readMap, fixedSolids, move }) => {"
        "  const solids = fixedSolids(readMap(text));"
        "  let state = { origin, velocity: [0, 0, 0] };"
        "  done(commands.map((command) => { state = move(state, command, solids); return state.origin; }));"
        "});",
        text.decode(),
        origin,
        [{"ms": one.ms, "x": one.wish_x, "y": one.wish_y, "buttons": one.buttons} for one in commands],
    )
    wrong = [number for number, (one, other) in enumerate(zip(got, wanted), 1) if one != other]
    want(len(got) == len(wanted), f"{len(got)} places are predicted of {len(wanted)}")
    want(not wrong, f"{len(wrong)} of {len(got)} predicted places differ, the first is {wrong[:1]}")
    highest = max(place[2] for place in wanted)
    print(f"browser: {len(got)} moves are predicted to the sub-unit, up to a height of {highest / 256:.0f} units")
