"""`progress`: a whole output, a cut one, and a terminal."""
import os
import pty
import subprocess
import unittest

from calls import Calls, content
from common import TOOLS


class Progress(Calls):
    def test_a_whole_output_is_copied(self):
        out, error, _ = self.call("progress", "48", given=content("duel.out"), status=0)
        self.assertEqual(out, content("duel.out"))
        self.assertIn(b"frame 48 of 48", error)

    def test_an_output_without_frames(self):
        self.assertEqual(self.call("progress", "0", given=b"end 0\n", status=0)[0], b"end 0\n")

    def test_cut_outputs_are_named(self):
        data = content("duel.out")
        for part in (data[:-1], data[:-3], data[:20000], b"", data[: data.index(b"frame 30")]):
            out, error, _ = self.call("progress", "48", given=part, status=3)
            self.assertEqual(out, part)
            self.assertIn(b"the output was cut: it ends in frame", error)

    def test_another_number_of_frames(self):
        _, error, _ = self.call("progress", "47", given=content("duel.out"), status=3)
        self.assertIn(b"the output has 48 frames, and 47 were awaited", error)

    def test_an_end_without_its_frames(self):
        for lines in (b"", b"frame 0\nframe 2\n"):
            error = self.call("progress", "3", given=lines + b"end 3\n", status=3)[1]
            self.assertIn(b"the output has %d lines `frame`, and its last line says 3" % lines.count(b"frame"), error)

    def test_wrong_words(self):
        for words in ([], ["x"], ["-1"], ["1", "2"], ["\u00b2"], ["9" * 5000]):
            self.call("progress", *words, status=2)

    def test_no_control_byte_reaches_a_terminal(self):
        shown, terminal = pty.openpty()
        script = subprocess.Popen([os.path.join(TOOLS, "progress"), "1"], stdin=subprocess.PIPE, stdout=terminal, stderr=subprocess.PIPE)
        script.communicate(b"frame 0\n\x1b]0;evil\x07\nend 1\n", timeout=60)
        os.close(terminal)
        got = os.read(shown, 4096)
        os.close(shown)
        self.assertEqual(script.returncode, 0)
        self.assertNotIn(b"\x1b", got)
        self.assertIn(b"\\x1b]0;evil\\x07", got)

    def test_a_closed_pipe(self):
        error, status = self.into_closed_pipe("progress", "1")
        self.assertIn(status, (1, 3))
        self.assertNotIn(b"Traceback", error)


if __name__ == "__main__":
    unittest.main()
