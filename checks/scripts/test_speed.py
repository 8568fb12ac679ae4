"""`speed`: its recordings, its parts, and what a user does wrong."""
import os
import subprocess
import sys
import unittest

from calls import SECONDS, Calls, content, run
from common import CHECKS, PROGRAM, FormatError, script

import speed_recordings as recordings
import walkers

speed = script(CHECKS, "speed")


def got(output):
    """The ids that each move got."""
    return [line.split()[6] for line in output.splitlines() if line.startswith(b"did ")]


class Speed(Calls):
    def speed(self, *words, status, out=subprocess.PIPE, **environment):
        done = subprocess.run(
            [sys.executable, os.path.join(CHECKS, "speed"), *words], stdout=out, stderr=subprocess.PIPE, timeout=SECONDS,
            env={**os.environ, "ARENA_CLI": PROGRAM, **environment},
        )
        self.assertNotIn(b"Traceback", done.stderr)
        self.assertEqual(done.returncode, status, done.stderr)
        return done.stdout, done.stderr.split(b"\n")[0]

    def test_each_recording_has_its_moves(self):
        for text, frames, moves in (
            (recordings.heavy(2), 3, 1024), (recordings.crowded(2, "depth 5"), 3, 1024),
            (recordings.with_items(2, 400), 3, 1024), (recordings.of_size(3, 1), 4, 3),
            (recordings.of_size(3, 8), 4, 24), (recordings.of_size(2, 512), 3, 1024),
        ):
            case = recordings.Case("", text)
            self.assertEqual((case.frames, case.moves), (frames, moves))
            self.assertNotIn(b"\nno ", recordings.played(text))
            self.assertEqual(recordings.Case("", case.without_moves()).moves, 0)

    def test_in_the_worst_frames_all_items_are_taken_and_nobody_falls(self):
        ids = got(recordings.played(recordings.worst(3)))
        taken = [int(word) for words in ids if words != b"-" for word in words.split(b",")]
        self.assertEqual((len(ids), sorted(taken)), (3 * 512, sorted(3 * list(range(64, 464)))))

    def test_walkers_join_as_there_is_room(self):
        text = content("arena.map")
        spawns = text.count(b"\nspawn ")
        out, error, status = run(["play", "1"], walkers.walked(text, 64, 100))
        self.assertEqual((error, status), (b"", 0))
        frames = out.split(b"\nframe ")
        self.assertEqual((frames[0].count(b"\njoined "), frames[0].count(b"\ndid ")), (spawns, spawns))
        with self.assertRaisesRegex(FormatError, "walk 7 64 100 ended with status 1: recording refused: line 1, fault 3"):
            walkers.walked(b"a map\n", 64, 100)

    def test_maps(self):
        played = [case.moves for case in recordings.on_maps(self.path("a.demo", content("duel.demo")), 9)]
        self.assertEqual(played, [content("duel.out").count(b"\ndid ")])
        self.path("about", b"a map")
        os.mkdir(self.path("none"))
        self.path("b.demo.gz", content("arena.map"))
        self.assertEqual([case.name for case in recordings.on_maps(self.folder, 2)], ["map a", "map b"])
        error = self.speed("--quick", "--map", self.path("none"), "workers", status=1)[1]
        self.assertEqual(error, f"speed: {self.path('none')}: there is no map".encode())
        bare = self.path("bare", content("arena.map").split(b"\n")[0] + b"\nend\n")
        with self.assertRaisesRegex(FormatError, "nobody can walk on this map"):
            list(recordings.on_maps(bare, 2))

    def test_a_table_and_what_else_ran(self):
        out, _ = self.speed("--quick", "once", "things", "copy", "--beside", PROGRAM, status=0)
        lines = out.decode().splitlines()
        self.assertRegex(out.decode(), r"(?m)^2 programs at once: \d+\.\d\d times the work of one$")
        self.assertRegex(lines[-1], r"^what else ran: .*load \d+\.\d before and \d+\.\d after$")
        self.assertIn("by `play 1 beside`", out.decode())

    def test_answers_on_a_pipe(self):
        head = recordings.map_lines(recordings.grid(9000, 3))
        times = speed.answer_times([PROGRAM, "play", "2"], head, 3, lambda frame: recordings.moves(frame, 3), 5)
        self.assertEqual((len(times), times), (5, sorted(times)))

    def test_a_program_that_fails(self):
        bad = self.path("bad", b"#!/bin/sh\necho why >&2\nexit 3\n")
        os.chmod(bad, 0o755)
        for part in ("workers", "pipe", "once"):
            self.assertIn(b"play 1 ended with status 3", self.speed("--quick", part, status=1, ARENA_CLI=bad)[1])

    def test_what_a_user_does_wrong(self):
        for words in (
            ["none"], ["--runs", "0"], ["--runs", "x"], ["--map", "/none"], ["--beside", "/none"],
            ["--beside", self.folder], ["--sing"],
        ):
            self.speed(*words, status=2)
        self.assertIn(b"there is no program /none/program", self.speed(status=2, ARENA_CLI="/none/program")[1])
        read, write = os.pipe()
        os.close(read)
        error = self.speed("--quick", "once", status=1, out=write)[1]
        os.close(write)
        self.assertEqual(error, b"speed: the output was closed before all of it was written")


if __name__ == "__main__":
    unittest.main()
