"""`picture`: labels apart and within the page, hits and heights, and files that can't be drawn."""
import gzip
import os
import re
import unittest
import xml.etree.ElementTree as tree

from calls import Calls, content, example
from common import EXAMPLES

SVG = "{http://www.w3.org/2000/svg}"
# As wide as a letter is in the picture's own reckoning, and a little less than it is in most fonts of a browser.
LETTER = 0.5


def room_of(text):
    x, y, size = (float(text.get(key)) for key in ("x", "y", "font-size"))
    return x, y - 0.7 * size, x + LETTER * size * len(text.text), y


def meet(one, other):
    return one[0] < other[2] and other[0] < one[2] and one[1] < other[3] and other[1] < one[3]


class Pictures(Calls):
    def picture(self, name, output):
        return tree.fromstring(self.call("picture", example(name + ".demo"), example(output), status=0)[0])

    def names(self):
        for name in sorted(os.listdir(EXAMPLES)):
            if name.endswith(".demo") and not name.startswith(("map-rule", "refused", "unfinished", "ways")):
                yield name[:-5]

    def test_labels_are_apart_and_within_the_page(self):
        for name, output in [(name, name + ".out") for name in self.names()] + [("ways", "ways-to-10.out")]:
            self.labels_are_apart(self.picture(name, output), name)

    def test_hits(self):
        drawn = self.picture("duel", "duel.out")
        hits = [path.find(SVG + "title").text for path in drawn.iter(SVG + "path") if path.find(SVG + "title") is not None]
        self.assertEqual(hits.count("slot 0 hit slot 1"), 3)
        self.assertEqual(hits.count("slot 0 hit slot 1, which fell"), 1)
        self.assertEqual(hits.count("slot 1 hit slot 0"), 2)
        texts = [text.text for text in drawn.iter(SVG + "text")]
        self.assertIn("slot 0 hit slot 1 (4 times), which fell", texts)

    def test_heights(self):
        texts = [text.text for text in self.picture("lift", "lift.out").iter(SVG + "text")]
        self.assertIn("height of each player's origin, in units, over the frames", texts)

    def labels_are_apart(self, drawn, name):
        _, _, width, height = map(float, drawn.get("viewBox").split())
        rooms = [room_of(text) for text in drawn.iter(SVG + "text")]
        for place, room in enumerate(rooms):
            self.assertTrue(room[0] >= 0 and room[1] >= 0 and room[2] <= width and room[3] <= height, (name, room))
            self.assertFalse(any(meet(room, other) for other in rooms[:place]), (name, room))

    def cut(self, *words):
        drawn = tree.fromstring(self.call("picture", *words, status=0)[0])
        self.labels_are_apart(drawn, words)
        parts = {part.find(SVG + "title").text: part for part in drawn.iter() if part.find(SVG + "title") is not None}
        return parts, [text.text for text in drawn.iter(SVG + "text")]

    def test_a_height(self):
        """Two rooms above each other: at each height its own walls, floors, things and spawn alone."""
        lines = ["arena -65536 -65536 0 65536 65536 65536", "block -65536 -65536 30000 65536 65536 32768"]
        lines += ["block 0 0 0 256 65536 30000", "block 0 -65536 32768 256 0 65536"]
        lines += ["spawn 20000 20000 6144", "spawn -20000 20000 38912", "item 9000 9000 0 gem 5"]
        lines += ["item 9000 9000 32768 ammo 5", "lift 30000 30000 0 40000 40000 2000 20000 100", "end"]
        path = self.path("rooms.demo", "\n".join(lines).encode())
        low, texts = self.cut(path, "--height", "24")
        self.assertEqual({"gem 64", "lift 66", "blocks at this height"}, set(low))
        self.assertIn("rooms, cut at height 24: 1 of 3 blocks", texts)
        high, texts = self.cut("--height", "150", path)
        self.assertEqual({"ammo 65", "at most 64 units below", "more than 128", "blocks at this height"} & set(high), {
            "ammo 65", "at most 64 units below", "blocks at this height"})
        self.assertNotIn("lift 66", high)
        self.assertEqual(self.cut(path, "--height", "117.5")[1][0], "rooms, cut at height 117.5: 1 of 3 blocks")
        for word in ("256", "-1"):
            self.assertIn(b"reaches from 0 up to 256", self.call("picture", path, "--height", word, status=1)[1])
        for words in ([path], [path, "--height"], [path, "--height", "x"], [path, "--height", "1", "2", "3"], ["--height", "1"]):
            self.call("picture", *words, status=2)

    def test_labels_are_off_the_walls_where_there_is_room(self):
        wall = "block 17500 9000 0 65536 40000 30000"
        lines = ["arena -65536 -65536 0 65536 65536 65536", wall, "spawn 0 0 6144", "item 9000 9000 0 gem 5", "end"]
        path = self.path("wall.demo", "\n".join(lines).encode())
        drawn = tree.fromstring(self.call("picture", path, "--height", "24", status=0)[0])
        walls = [part for part in drawn.iter(SVG + "path") if "blocks at this height" in [title.text for title in part]]
        left, top, width, height = map(float, re.fullmatch(r"M(\S+) (\S+)h(\S+)v(\S+)h\S+z", walls[0].get("d")).groups())
        label = next(text for text in drawn.iter(SVG + "text") if text.text == "64")
        self.assertFalse(meet(room_of(label), (left, top, left + width, top + height)))

    def test_depths_that_no_map_has(self):
        for depth in (b"-1", b"2", b"60", b"2000"):
            text = content("no-frame.demo").split(b"\n", 1)
            path = self.path("deep.demo", b"\n".join([text[0], b"depth " + depth, text[1]]))
            error = self.call("picture", path, example("no-frame.out"), status=1)[1]
            self.assertIn(b"a tree has the depth 3, 4 or 5\n", error)

    def test_ways_and_long_names_at_a_height(self):
        for name in ("duel", "lift", "tour", "stairs"):
            self.cut(example(name + ".demo"), example(name + ".out"), "--height", "24")
        self.cut(example("ways.demo"), example("ways-to-10.out"), "--height", "24")
        narrow = "arena 0 0 0 32768 1048576 65536\nspawn 9000 9000 6144\n" + "item 9 9000 0 gem 5\n" * 60 + "end\n"
        self.cut(self.path("n" * 150 + "\x1b.demo", narrow.encode()), "--height", "24")

    def test_files(self):
        demo = self.path("duel.demo", gzip.compress(content("duel.demo")))
        plain, _, _ = self.call("picture", example("duel.demo"), example("duel.out"), status=0)
        self.assertEqual(self.call("picture", demo, example("duel.out"), status=0)[0], plain)
        for words in ([], [example("duel.demo")], [example("duel.demo"), self.path("none")], [self.folder, self.folder]):
            self.call("picture", *words, status=2)
        self.call("picture", example("duel.out"), example("duel.out"), status=1)
        self.call("picture", example("duel.demo"), example("ways-to-10.out"), status=1)
        self.call("picture", example("duel.demo"), self.path("bad", b"frame 0\nto 0 11\n"), status=1)
        self.call("picture", example("duel.demo"), self.path("wide", "frame 0\n".encode("utf-16")), status=1)
        flat = self.path("flat.demo", b"arena 0 0 0 0 0 0\nspawn 0 0 0\nframe\nend\n")
        self.call("picture", flat, self.path("one.out", b"frame 0\nend 1\n"), status=1)
        changed = self.path("plan", content("ways-to-10.out").replace(b"way 0 ", b"way x "))
        self.call("picture", example("ways.demo"), changed, status=1)
        cut = self.path("cut.out", content("duel.out")[: content("duel.out").index(b"end 48")])
        out, error, _ = self.call("picture", example("duel.demo"), cut, status=1)
        self.assertIn(b"</svg>", out)
        self.assertIn(b"the output ends before its line `end`; its whole frames are drawn", error)
        error, status = self.into_closed_pipe("picture", example("tour.demo"), example("tour.out"))
        self.assertEqual((error, status), (b"picture: the output was closed before all of it was written\n", 1))


if __name__ == "__main__":
    unittest.main()
