"""`explain`: words, packed and foreign files, long lines, closed pipes and full disks."""
import gzip
import os
import subprocess
import sys
import time
import unittest

from calls import Calls, content, example, run
from common import CHECKS, TOOLS


class Explain(Calls):
    def test_words(self):
        with open(os.path.join(CHECKS, "explained.txt"), "rb") as file:
            wanted = file.read()
        self.assertEqual(self.call("explain", example("two-players.demo"), example("two-players.out"), status=0)[0], wanted)
        packed = self.path("two.gz", gzip.compress(content("two-players.demo")))
        plain, _, _ = self.call("explain", example("two-players.demo"), status=0)
        self.assertEqual(self.call("explain", packed, status=0)[0], plain)
        self.assertEqual(self.call("explain", given=content("two-players.demo"), status=0)[0], plain)

    def test_kept_entities_are_said_as_each_alone(self):
        """An entity's words are kept from line to line: the words are those of each line explained by itself."""
        output = run(["play", "1"], run(["make", "3", "12", "4"])[0])[0]
        whole, _, _ = self.call("explain", given=output, status=0)
        lines = [line for line in output.splitlines(keepends=True) if line.startswith(b"to ")]
        for line in (lines[5], lines[-1]):
            self.assertIn(self.call("explain", given=line, status=0)[0], whole)
        bad = lines[0].rstrip(b"\n") + b"00\n"
        self.assertIn(b"not a snapshot (Long)", self.call("explain", given=lines[0] + bad, status=0)[0])
        swapped = lines[0][:-65] + lines[0][-33:-1] + lines[0][-65:-33] + b"\n"
        self.assertIn(b"not a snapshot (Order)", self.call("explain", given=lines[0] + swapped, status=0)[0])

    def test_no_control_byte_is_written(self):
        out, _, _ = self.call("explain", given=b"from 1 \x1b]0;evil\x07\n\xff\\\n" + b"x" * 70000 + b"\x00", status=0)
        self.assertTrue(all(32 <= b <= 126 or b == 10 for b in out))
        self.assertIn(b"\\xff\\\\\n", out)

    def test_what_is_no_file(self):
        dangling = self.path("dangling")
        os.symlink(self.path("none"), dangling)
        for path in (self.path("none"), self.folder, dangling):
            self.call("explain", path, status=2)
        self.call("explain", self.path("two.demo", content("duel.demo").decode().encode("utf-16")), status=1)
        cut = self.path("a cut.gz", gzip.compress(content("duel.demo"))[:100])
        self.assertIn(f"explain: {cut} can't be unpacked: ".encode(), self.call("explain", example("one-join.demo"), cut, status=1)[1])
        self.assertTrue(self.call("explain", "", status=2)[1].startswith(b"explain: a file's name is empty\n"))
        self.call("explain", self.path("\x1bname\n"), status=2)

    def test_a_closed_pipe_and_a_full_device(self):
        error, status = self.into_closed_pipe("explain", example("tour.out"))
        self.assertEqual((error, status), (b"explain: the output was closed before all of it was written\n", 1))
        with open("/dev/full", "wb") as full:
            done = subprocess.run([os.path.join(TOOLS, "explain"), example("tour.out")], stdout=full, stderr=subprocess.PIPE)
        self.assertEqual((done.stderr, done.returncode), (b"explain: No space left on device\n", 1))
        command = f"{os.path.join(TOOLS, 'explain')} {example('tour.out')}"
        for ending in (">&-", "<&-", "| head -n 1"):
            done = subprocess.run(["sh", "-c", f"{command} {ending}"], capture_output=True)
            self.assertNotIn(b"Traceback", done.stderr, ending)

    def test_it_streams(self):
        """A line is explained while the input is still open."""
        script = subprocess.Popen(
            [sys.executable, "-u", os.path.join(TOOLS, "explain")], stdin=subprocess.PIPE, stdout=subprocess.PIPE
        )
        script.stdin.write(b"from 1 0101\n")
        script.stdin.flush()
        began = time.monotonic()
        self.assertEqual([script.stdout.readline(), script.stdout.readline()], [b"from 1 0101\n", b"    join\n"])
        self.assertLess(time.monotonic() - began, 60)
        script.stdin.close()
        script.stdout.close()
        script.wait()


if __name__ == "__main__":
    unittest.main()
