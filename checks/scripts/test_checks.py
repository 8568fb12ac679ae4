"""What the checks say where a user gives them nothing to do, or what they need isn't there."""
import contextlib
import io
import os
import re
import shutil
import signal
import subprocess
import sys
import unittest
import unittest.mock

from calls import SECONDS, Calls, content, run
from common import CHECKS, PROGRAM, TOOLS, script

soak = script(CHECKS, "soak")

# A script that has a folder of its own while it waits.
HELD = """
import tempfile, time
from common import perform
def work():
    with tempfile.TemporaryDirectory():
        print("held", flush=True)
        time.sleep(600)
perform(work)
"""


class Checks(Calls):
    def check(self, name, *words, **environment):
        done = subprocess.run(
            [sys.executable, os.path.join(CHECKS, name), *words], capture_output=True, timeout=SECONDS,
            env={**os.environ, "ARENA_CLI": PROGRAM, **environment},
        )
        self.assertNotIn(b"Traceback", done.stderr)
        return done.stderr, done.returncode

    def test_an_empty_folder(self):
        for name in ("workers", "feeders"):
            error, status = self.check(name, self.folder)
            self.assertEqual((error.split(b"\n")[0], status), (f"{name}: there is no recording in these folders".encode(), 2))

    def test_a_dangling_link(self):
        os.symlink("/none", self.path("a.demo"))
        for name in ("workers", "feeders"):
            error, status = self.check(name, self.folder)
            self.assertIn(b"can't be read: No such file", error)
            self.assertEqual(status, 1)

    def test_no_compiler(self):
        error, status = self.check("refuse_memory", "check", PATH=self.folder)
        self.assertIn(b"a C compiler is needed", error)
        self.assertEqual(status, 2)

    def test_maps_that_are_not_known(self):
        for words in (["none"], ["--frames", "0"], ["--frames", "2001"], ["--packages", "/none"], ["--sing"]):
            self.assertEqual(self.check("real_maps", *words)[1], 2)

    def test_no_package(self):
        for command in ("apt-get", "dpkg-deb"):
            os.chmod(self.path(command, b"#!/bin/sh\necho 'E: Unable to locate package' >&2; exit 100\n"), 0o755)
        error, status = self.check("real_maps", "oa_dm1", PATH=f"{self.folder}:{os.environ['PATH']}")
        why = b"real_maps: apt-get download openarena-081-maps ended with status 100: E: Unable to locate package\n"
        self.assertTrue(error.endswith(why), error)
        self.assertEqual(status, 1)

    def test_a_signal_leaves_nothing(self):
        for number in (signal.SIGTERM, signal.SIGHUP):
            environment = {**os.environ, "TMPDIR": self.folder, "PYTHONPATH": CHECKS}
            pipes = {"stdout": subprocess.PIPE, "stderr": subprocess.PIPE}
            held = subprocess.Popen([sys.executable, "-c", HELD], env=environment, **pipes)
            self.assertEqual(held.stdout.readline(), b"held\n")
            held.send_signal(number)
            error = held.communicate(timeout=SECONDS)[1]
            self.assertEqual((error, held.returncode, os.listdir(self.folder)), (b"-c: stopped\n", 130, []))

    def test_numbers_without_end(self):
        for name, words in (("soak", ["\u00b2"]), ("no_memory", ["9" * 5000]), ("transcripts", ["9" * 5000])):
            self.assertEqual(self.check(name, *words)[1], 2)

    def test_nothing_to_try(self):
        for name, words in (("no_memory", ["5", "1"]), ("no_memory", ["0"]), ("transcripts", ["0"]), ("audits", ["00", "1"])):
            error, status = self.check(name, *words)
            self.assertRegex(error, b"^" + name.encode() + b": (of 0 changes|from allocation)")
            self.assertEqual(status, 2)
        self.assertEqual(self.check("refuse_memory", "play", "help", ARENA_CLI=shutil.which("true"))[1], 1)

    def test_a_wrong_way_is_a_fault(self):
        """`soak` says of which recording `bots` wrote what its certificate doesn't hold for, and goes on."""
        output, changed = run(["bots", "1"], content("ways.demo"))[0], []
        changed += [re.sub(rb"\nlength \d+\n", b"\nlength 999999\n", output), b"way x\n"]
        with contextlib.redirect_stdout(io.StringIO()) as told:
            for output in changed:
                with unittest.mock.patch.object(soak, "run", lambda words, given: (output, b"", 0)):
                    soak.plan_way("here", content("ways.demo"), (b"", 0), unittest.mock.Mock(**{"choice.return_value": 1}))
        self.assertEqual(told.getvalue().count("here: bots 1: this doesn't hold: "), 2)

    def test_a_program_that_writes_nothing(self):
        recordings = self.path("recordings")
        os.mkdir(recordings)
        with open(os.path.join(recordings, "a b.demo"), "wb") as file:
            file.write(content("one-join.demo"))
        lists = (["audits", "1"], ["feeders", recordings], ["from_quake"], ["transcripts", "1"], ["workers", recordings])
        for name, *words in lists:
            self.assertEqual(self.check(name, *words, ARENA_CLI=shutil.which("true"))[1], 1, name)

    def test_help_and_wrong_words(self):
        """Each script says what it does, and where that can't be written or a word is wrong gives a sentence."""
        scripts = [os.path.join(folder, name) for folder in (CHECKS, TOOLS) for name in sorted(os.listdir(folder))]
        scripts = [path for path in scripts if os.path.isfile(path) and os.access(path, os.X_OK)]
        for path in [*scripts, os.path.join(CHECKS, "scripts", "run")]:
            name = os.path.basename(path).encode()
            for word, to, status in (("--help", os.devnull, 0), ("--help", "/dev/full", None), ("--sing", "/dev/full", 2)):
                with open(to, "wb") as out:
                    done = subprocess.run([path, word], stdin=subprocess.DEVNULL, stdout=out, stderr=subprocess.PIPE, timeout=SECONDS)
                self.assertNotIn(b"Traceback", done.stderr, path)
                if status is not None:
                    self.assertEqual(done.returncode, status, (path, word))
                if status != 0:
                    self.assertNotEqual(done.returncode, 0, (path, word))
                    self.assertIn(name + b": ", done.stderr, (path, word))

    def test_no_program(self):
        for name, words in (("play", []), ("play", ["--built"]), ("workers", []), ("transcripts", []), ("soak", ["1", "1"])):
            error, status = self.check(name, *words, ARENA_CLI="/none/program")
            self.assertIn(b"there is no program /none/program", error)
            self.assertEqual(status, 2)


if __name__ == "__main__":
    unittest.main()
