"""Calls of the scripts of tools/, as a user makes them."""
import os
import subprocess
import tempfile
import unittest

from common import EXAMPLES, PROGRAM, TOOLS, run  # noqa: F401

SECONDS = 300


def example(name):
    return os.path.join(EXAMPLES, name)


def content(name):
    with open(example(name), "rb") as file:
        return file.read()


class Calls(unittest.TestCase):
    """A test with a folder of its own."""

    def setUp(self):
        folder = tempfile.TemporaryDirectory()
        self.addCleanup(folder.cleanup)
        self.folder = folder.name

    def path(self, name, data=None):
        """The path of a file of the folder, written anew where data is given."""
        path = os.path.join(self.folder, name)
        if data is not None:
            with open(path, "wb") as file:
                file.write(data)
        return path

    def call(self, name, *words, given=b"", status=None, **more):
        """What a script writes, its standard error and its status; it may never end by a traceback."""
        environment = {**os.environ, "ARENA_CLI": PROGRAM, **more.pop("env", {})}
        done = subprocess.run(
            [os.path.join(TOOLS, name), *words], input=given, capture_output=True, timeout=SECONDS, env=environment, **more
        )
        self.assertNotIn(b"Traceback", done.stderr, done.stderr.decode("utf-8", "replace"))
        if status is not None:
            self.assertEqual(done.returncode, status, (done.stdout[-2000:], done.stderr[-2000:]))
        return done.stdout, done.stderr, done.returncode

    def into_closed_pipe(self, name, *words):
        """The standard error and the status of a script whose output nobody reads."""
        read, write = os.pipe()
        os.close(read)
        done = subprocess.run(
            [os.path.join(TOOLS, name), *words], stdin=subprocess.DEVNULL, stdout=write, stderr=subprocess.PIPE, timeout=SECONDS
        )
        os.close(write)
        return done.stderr, done.returncode
