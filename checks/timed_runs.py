"""Runs of a program that are timed."""
import os
import subprocess
import tempfile
import threading
import time

from common import FormatError

import arena

SECONDS = 600


def why_failed(words, status, error):
    ended = f"was ended by signal {-status}" if status < 0 else f"ended with status {status}"
    return FormatError(f"{' '.join([os.path.basename(words[0]), *words[1:]])} {ended}: {arena.printable(error.strip())}")


def stopped_later(child):
    """What kills a program that runs too long, unless it is cancelled."""
    watch = threading.Timer(SECONDS, child.kill)
    watch.daemon = True
    watch.start()
    return watch


def timed(words, path):
    """The time, the user time and the system time of a run that reads the file at the path, in milliseconds."""
    with open(path, "rb") as given, open(os.devnull, "wb") as out, tempfile.TemporaryFile() as said:
        began = time.perf_counter()
        child = subprocess.Popen(words, stdin=given, stdout=out, stderr=said)
        watch = stopped_later(child)
        _, status, used = os.wait4(child.pid, 0)
        passed = time.perf_counter() - began
        watch.cancel()
        child.returncode = os.waitstatus_to_exitcode(status)
        if child.returncode != 0:
            said.seek(0)
            raise why_failed(words, child.returncode, said.read())
    return passed * 1000, used.ru_utime * 1000, used.ru_stime * 1000


def least_times(runs, ways):
    """The least times of each way, which is words and a path. The runs come in turns, so that each way meets the same
    machine."""
    least = {}
    for _ in range(runs):
        for name, (words, path) in ways.items():
            times = timed(words, path)
            least[name] = tuple(map(min, times, least.get(name, times)))
    return least
