"""`audits`: a few changed logs, and what its judge says of logs that were worked out by hand."""
import os
import subprocess
import sys
import unittest

from calls import SECONDS, content, run
from common import CHECKS, PROGRAM, script

audits = script(CHECKS, "audits")
MAP = b"arena -65536 -65536 0 65536 65536 65536\nspawn 0 0 6144\nend\n"
# What follows the three lines of the map, and the line of the first wrong piece, or 0 where the log is right.
BY_HAND = [
    (b"end 0\n", 0),
    (b"end 0\nmore", 0),
    (b"end 0", 4),
    (b"", 4),
    (b"end 1\n", 4),
    (b"end 00\n", 4),
    (b"frame 0\n", 4),
    (b"frame 0\nfra", 4),
    (b"frame 0\nfrom", 4),
    (b"frame 0\nfrom 1\n", 4),
    (b"frame 0\nno 0 Empty\n", 5),
    (b"frame 0\nframe 1\n", 5),
    (b"frame 0\nend 1\n", 0),
    (b"frame 0\r\nend 1\n", 4),
    (b"frame 0\nend 1\r\n", 5),
    (b"frame 0\nfrom 7 -\nno 0 Empty\nend 1\n", 0),
    (b"frame 0\nfrom 7 -\nno 0 Empty\n", 7),
    (b"frame 0\nfrom 7 -\n", 4),
    (b"frame 0\nno 0 Empty\nfrom 7 -\nend 1\n", 5),
    (b"frame 0\nfrom 65535 " + b"00" * 250 + b"\nno 0 Version\nend 1\n", 0),
    (b"frame 0\nfrom 65535 " + b"00" * 251 + b"\nno 0 Version\nend 1\n", 4),
    (b"frame 0\nfrom 99 " + b"00" * 252 + b"\nno 0 Version\nend 1\n", 0),
    (b"frame 0\n" + b"from 1 -\n" * 512 + b"".join(b"no %d Empty\n" % n for n in range(512)) + b"end 1\n", 0),
    (b"frame 0\n" + b"from 1 -\n" * 513 + b"".join(b"no %d Empty\n" % n for n in range(513)) + b"end 1\n", 4),
    (b"frame 0\n" + b"x" * 16_501 + b"\nend 1\n", 4),
    (b"frame 0\n" + b"x" * 16_500 + b"\nend 1\n", 5),
]


class Audits(unittest.TestCase):
    def test_logs_by_hand(self):
        judge = audits.Judge()
        for text, line in BY_HAND:
            frames = text.count(b"\nend 1\n") if text.startswith(b"frame") else 0
            right = b"right frames %d moves 0\n" % frames, b"", 0
            found = {judge.verdict(MAP + text), run(["audit"], MAP + text)}
            self.assertEqual(found, {audits.wrong(line) if line else right}, text[:99])

    def test_maps(self):
        judge = audits.Judge()
        no_spawn = MAP.split(b"\n")[0] + b"\n"
        for data, wanted in (
            (content("map-rule.demo"), run(["play", "1"], content("map-rule.demo"))),
            (content("two-players.demo"), (b"", b"recording refused: line %d, fault 9\n", 1)),
            (no_spawn + b"frame\nend\n", (b"", b"recording refused: line 2, fault 7\n", 1)),
            (no_spawn + b"end\nend 0\n", (b"right frames 0 moves 0\n", b"", 0)),
            (no_spawn + b"end\nframe 0\nend 1\n", audits.wrong(3)),
            (no_spawn, (b"", b"recording refused: line 2, fault 10\n", 1)),
            (no_spawn + b"end", audits.wrong(3)),
        ):
            if b"%d" in wanted[1]:
                wanted = wanted[0], wanted[1] % (data.split(b"\n").index(b"frame") + 1), wanted[2]
            found = {judge.verdict(data), run(["audit"], data)}
            self.assertEqual(found, {wanted}, data[:99])

    def test_moves_of_a_player_out_of_order(self):
        """Two moves of one player change places, with what each then comes to: no order as sent gives that."""
        recording = content("three-moves.demo")
        log = audits.log_of(recording, "2")
        at = next(place for place, line in enumerate(log) if line.startswith(b"did "))
        log[at], log[at + 1] = log[at + 1], log[at]
        self.assertEqual(audits.Judge().verdict(b"".join(log))[2], 6)

    def test_a_few_changed_logs(self):
        words = [sys.executable, os.path.join(CHECKS, "audits"), "20", "3"]
        done = subprocess.run(words, capture_output=True, timeout=SECONDS, env={**os.environ, "ARENA_CLI": PROGRAM})
        self.assertEqual(done.returncode, 0, (done.stdout, done.stderr))
        self.assertTrue(done.stdout.endswith(b" 20 changes, 0 differences\n"), done.stdout)


if __name__ == "__main__":
    unittest.main()
