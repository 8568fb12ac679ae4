"""`from_quake`: what a user does wrong. `checks/from_quake` tries what it makes of maps."""
import math
import os
import random
import re
import resource
import struct
import subprocess
import unittest
import zipfile

from calls import SECONDS, Calls
from common import CHECKS, TOOLS, script

maps = script(CHECKS, "from_quake")
SPAWN = '{ "classname" "info_player_deathmatch" "origin" "0 0 30" }'
MOST_MEMORY = 4_000_000_000


def bounded():
    resource.setrlimit(resource.RLIMIT_AS, (MOST_MEMORY, MOST_MEMORY))


class FromQuake(Calls):
    def room(self, name="room.map", *more):
        return self.path(name, maps.room(*more).encode())

    def test_what_a_user_does_wrong(self):
        os.symlink("/none", self.path("link"))
        room = self.room()
        for words in (
            [], ["a", "b"], [room, "--depth", "6"], [room, "--limit", "0"], [room, "--lim", "5"], [self.path("none")],
            [self.folder], [self.path("link")], [room + ":maps/x.bsp.none", "--limit", "x"],
            [room, "--about", ""],
        ):
            self.call("from_quake", *words, status=2)
        for words in ([room + ":x.bsp"], [room, "--about", "/none/x"], [room, "--about", self.folder], ["-"]):
            error = self.call("from_quake", *words, status=1)[1]
            self.assertEqual(error.count(b"from_quake: "), 1, error)

    def test_outputs_that_take_nothing(self):
        room = self.room()
        error, status = self.into_closed_pipe("from_quake", room)
        self.assertTrue(error.endswith(b"from_quake: the output was closed before all of it was written\n"))
        self.assertEqual(status, 1)
        for words in ([], ["--about", "/dev/full"]):
            with open("/dev/full", "w") as full:
                done = subprocess.run(
                    [os.path.join(TOOLS, "from_quake"), room, *words], stdout=full, stderr=subprocess.PIPE, timeout=SECONDS
                )
            self.assertEqual(done.returncode, 1)
            self.assertTrue(done.stderr.endswith(b"No space left on device\n"), done.stderr)

    def test_numbers_that_no_map_has(self):
        for number in ("1e200", "-1e308", "1e999"):
            changed = self.room().replace("room", "changed")
            with open(self.room()) as room, open(changed, "w") as file:
                file.write(re.sub(r"\( -?[0-9.]+ ", f"( {number} ", room.read(), 1))
            self.assertIn(b"has a number that no map has\n", self.call("from_quake", changed, status=1)[1])

    def test_lines_that_take_long(self):
        """A plane's line without a texture could be parted into numbers in very many ways."""
        point = "( " + " ".join(["111111111111"] * 3) + " )"
        entity = '{\n"classname" "worldspawn"\n{\n' + " ".join([point] * 3) + "\n}\n}\n"
        self.call("from_quake", self.path("long.map", entity.encode()), status=1)
        planes = [((0.9 * math.cos(turn), 0.9 * math.sin(turn), 0.43), 100.0) for turn in range(160)]
        for name, data in (("a.bsp", maps.pack_bsp([planes], SPAWN)), ("a.map", maps.room(maps.entity_text({}, [planes])).encode())):
            self.assertIn(b"sides, and 72 are the most", self.call("from_quake", self.path(name, data), status=1)[1])

    def test_parts_that_are_not_there(self):
        """A curve of points before the first, and a package whose name of a part is no text."""
        face = struct.pack("<12i12fii", 0, -1, 2, -5, 9, *[0] * 7, *[0.0] * 12, 3, 3)
        planes = [maps.box_planes(*wall) for wall in maps.WALLS]
        data = maps.pack_bsp(planes, SPAWN)
        at = 8 + 8 * 13
        data = data[:at] + struct.pack("<ii", len(data), len(face)) + data[at + 8 :] + face
        error = self.call("from_quake", self.path("curve.bsp", data), status=1)[1]
        self.assertIn(b"a curve names points that aren't there", error)
        with zipfile.ZipFile(self.path("a.pk3"), "w") as package:
            package.writestr("maps/\xe9.bsp", data)
        with open(self.path("a.pk3"), "rb") as file:
            changed = file.read().replace("\xe9".encode(), b"\xff\xff")
        error = self.call("from_quake", self.path("b.pk3", changed) + ":maps/a.bsp", status=1)[1]
        self.assertIn(b"it is no package that can be read", error)

    def test_names(self):
        with zipfile.ZipFile(self.path("a :b.pk3"), "w") as package:
            package.write(self.room("\x1b[31m room.map"), "maps/room.map")
        plain = self.call("from_quake", self.path("\x1b[31m room.map"), status=0)
        packed = self.call("from_quake", self.path("a :b.pk3") + ":maps/room.map", status=0)
        self.assertEqual(plain[0], packed[0])
        self.assertIn(b"\\x1b[31m room.map: ", plain[1])
        error = self.call("from_quake", self.path("a :b.pk3"), status=1)[1]
        self.assertTrue(error.endswith(b"it is a package: a map of it is named after a colon, as in PACKAGE.pk3:maps/NAME.bsp\n"))
        self.assertIn(b"has no x\\x1by\n", self.call("from_quake", self.path("a :b.pk3") + ":x\x1by", status=1)[1])

    def test_no_control_byte_is_written(self):
        evil = maps.entity_text({"classname": "func_\x1b]0;evil\x07", "origin": "0 0 10"})
        out, error, _ = self.call("from_quake", self.room("evil.map", evil), "--about", self.path("about"), status=0)
        with open(self.path("about"), "rb") as about:
            written = out + error + about.read()
        self.assertIn(b"func_\\x1b]0;evil\\x07: not carried", error)
        self.assertTrue(all(32 <= b <= 126 or b == 10 for b in written), written)

    def test_broken_files(self):
        """Bytes of a BSP and of a text are changed at random: a map or a sentence comes of each."""
        rng = random.Random(5)
        planes = [maps.box_planes(*wall) for wall in maps.WALLS] + [maps.RAMP]
        bsp, text = maps.pack_bsp(planes, SPAWN), maps.full_room().encode()
        odd = [struct.pack("<f", value) for value in (float("nan"), float("inf"), 1e30, -1e9, 40000.0)]
        odd += [struct.pack("<i", value) for value in (-1, 1 << 30, -(1 << 31))]
        for data, name in ((bsp, "broken.bsp"), (text, "broken.map")):
            for _ in range(12):
                changed = bytearray(data)
                for _ in range(rng.randrange(1, 4)):
                    at = rng.randrange(8, len(data) // 4) * 4
                    value = rng.choice(odd) if name.endswith("bsp") else str(rng.choice((1e30, -9e99, "nan", '"', "}"))).encode()
                    changed[at : at + 4] = value
                _, error, status = self.call("from_quake", self.path(name, bytes(changed)), preexec_fn=bounded)
                self.assertIn(status, (0, 1), error)
                self.assertNotIn(b"memory", error)


if __name__ == "__main__":
    unittest.main()
