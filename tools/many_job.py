"""Judges one recording for `many`, and prints what came of it as one line of JSON.

usage: many_job.py MODE PROGRAM WORKERS NAME FOLDER

It stands alone, since it is copied to other machines. MODE is `play` (NAME is a recording, played with so many
workers), `pairs` (NAME is a recording, and beside it is its output) or `logs` (NAME is a log, or beside it is the
map of which it is one). A file NAME of the current folder is taken before the one in FOLDER. Nothing is written to a
file: the output goes from the program into `check` or `audit` as it comes. The programs that it runs end with it,
however it ends; where a signal asks it to end, that is what came of the recording. The status is 0 where the output
is right, and 1 where something else came of it.
"""
import ctypes
import gzip
import json
import os
import re
import shutil
import signal
import stat
import subprocess
import sys
import threading
import zlib

BLOCK = 1 << 16
# A line of a recording has 512 bytes at the most. One of more is handed on by its first ones, for which it is refused.
MOST_LINE = 1 << 10
PR_SET_PDEATHSIG = 1
READING = (OSError, EOFError, zlib.error)
REFUSED = re.compile(r"recording refused: line (\d+), fault (\d+)")
TOO_MANY = 9
RIGHT = re.compile(r"right frames (\d+) moves (\d+)")


def die_with(sent, parent):
    """Asks the system to send a signal to this process once its parent has ended."""
    ctypes.CDLL(None).prctl(PR_SET_PDEATHSIG, sent, 0, 0, 0)
    if os.getppid() != parent:
        os.kill(os.getpid(), sent)


def program(words, **pipes):
    """A program that ends with this process."""
    parent = os.getpid()
    return subprocess.Popen(words, stderr=subprocess.PIPE, preexec_fn=lambda: die_with(signal.SIGKILL, parent), **pipes)


def opened(path):
    """A file's bytes, unpacked where they are packed by gzip."""
    if stat.S_ISFIFO(os.stat(path).st_mode):
        raise OSError(0, "is a pipe, which may have no end", path)
    file = open(path, "rb")
    return gzip.open(file, "rb") if file.peek(2)[:2] == b"\x1f\x8b" else file


def lines_of(file):
    """The lines of a recording, up to the first bytes of one that is too long."""
    while line := file.readline(MOST_LINE):
        yield line
        if len(line) == MOST_LINE:
            return


def lines_to_end(file):
    """The lines of a recording up to its `end`, which gets a line feed where it has none."""
    for line in lines_of(file):
        if line.rstrip(b"\r\n") == b"end":
            yield b"end\n"
            return
        yield line


def map_lines(file):
    for line in lines_of(file):
        if line.rstrip(b"\r\n") in (b"frame", b"end"):
            break
        yield line
    yield b"end\n"


class Judge:
    """`check` or `audit`, to which an output is written as it comes."""

    def __init__(self, path, command):
        self.program = program([path, command], stdin=subprocess.PIPE, stdout=subprocess.PIPE)
        self.listens = True

    def write(self, data):
        """Writes so long as it reads: it reads no further than it has to."""
        if self.listens:
            try:
                self.program.stdin.write(data)
            except BrokenPipeError:
                self.listens = False

    def end(self):
        """What it wrote, its line on standard error and its status."""
        try:
            self.program.stdin.close()
        except BrokenPipeError:
            pass
        self.program.stdin = None
        out, error = self.program.communicate()
        return first_line(out), first_line(error), self.program.returncode


def first_line(data):
    return data.split(b"\n")[0].decode("ascii", "backslashreplace")


def verdict(said, error, status):
    """The end that `check` or `audit` comes to, with its counts or its line."""
    counts = RIGHT.fullmatch(said)
    if status == 0 and counts:
        return {"end": "right", "frames": int(counts[1]), "moves": int(counts[2])}
    refused = REFUSED.fullmatch(error)
    if status == 1 and refused:
        is_long = int(refused[2]) == TOO_MANY
        end = "long" if is_long else "refused"
        return {"end": end, "line": int(refused[1]), "fault": int(refused[2]), "said": error}
    if status == 6:
        return {"end": "wrong", "said": error}
    return {"end": "failed", "said": error or f"the judging program ended with status {status}"}


def feed(pipe, file):
    """Copies a packed recording to a program that may end before it has read all.

    Where it can't be unpacked the program's input ends there, and the recording is found to be so by who reads it too.
    """
    try:
        with pipe:
            shutil.copyfileobj(file, pipe, BLOCK)
    except READING:
        pass


def begin_play(path, workers, recording):
    """The program that plays a recording, to which a packed one is written by a thread."""
    file = opened(recording)
    if not isinstance(file, gzip.GzipFile):
        os.lseek(file.fileno(), 0, os.SEEK_SET)  # the first bytes were looked at
        return program([path, "play", workers], stdin=file, stdout=subprocess.PIPE)
    player = program([path, "play", workers], stdin=subprocess.PIPE, stdout=subprocess.PIPE)
    threading.Thread(target=feed, args=(player.stdin, file), daemon=True).start()
    return player


def count_refusals(data, before):
    """How many lines `no ..` begin in a block after these bytes."""
    return (before + data).count(b"\nno ")


def play(path, workers, recording):
    judge = Judge(path, "check")
    player = begin_play(path, workers, recording)
    with opened(recording) as file:
        for line in lines_to_end(file):
            judge.write(line)
        if isinstance(file, gzip.GzipFile):
            while file.read(BLOCK):  # whether all of it can be unpacked
                pass
    refusals, before = 0, b"\n"
    was_stopped = False
    while data := player.stdout.read1(BLOCK):
        judge.write(data)
        refusals += count_refusals(data, before)
        before = (before + data)[-3:]
        if not judge.listens and judge.program.poll() == 6:
            player.kill()  # the output is wrong, whatever else comes
            was_stopped = True
            break
    player.stdin = None  # a packed recording's, which a thread closes
    _, error = player.communicate()
    found = verdict(*judge.end())
    refused = REFUSED.fullmatch(first_line(error))
    if was_stopped:
        return found
    if player.returncode == 1 and refused:
        return {"end": "refused", "line": int(refused[1]), "fault": int(refused[2]), "said": first_line(error)}
    if player.returncode != 0:
        return {"end": "failed", "said": first_line(error) or f"the program ended with status {player.returncode}"}
    return {**found, "refusals": refusals}


def copy_to(judge, file):
    """Writes the rest of a file to the judge, and gives how many lines `no ..` it has."""
    refusals, before = 0, b"\n"
    while data := file.read(BLOCK):
        judge.write(data)
        refusals += count_refusals(data, before)
        before = (before + data)[-3:]
    return refusals


def beside(recording, endings):
    """The file of the same name with one of these endings, packed or not, or None."""
    stem = recording.removesuffix(".gz").rsplit(".", 1)[0]
    paths = (stem + ending + packed for ending in endings for packed in ("", ".gz"))
    return next((path for path in paths if os.path.exists(path)), None)


def pair(path, recording):
    output = beside(recording, [".out"])
    if output is None:
        return {"end": "failed", "said": "there is no output beside it"}
    judge = Judge(path, "check")
    line, refusals = b"", 0
    with opened(recording) as file:
        for line in lines_to_end(file):
            judge.write(line)
    if line == b"end\n":  # without it the output would be read as lines of the recording
        with opened(output) as file:
            refusals = copy_to(judge, file)
    found = verdict(*judge.end())
    if found["end"] == "long" and not is_frame(recording, found["line"]):
        found["end"] = "refused"
    return {**found, "refusals": refusals}


def is_frame(recording, number):
    """Whether the line of this number begins a frame."""
    with opened(recording) as file:
        line = next((line for place, line in enumerate(lines_of(file), 1) if place == number), b"")
    return line.rstrip(b"\r\n") == b"frame"


def log(path, name):
    """Judges a log. One that begins with a frame has its map in a recording beside it."""
    judge = Judge(path, "audit")
    with opened(name) as file:
        if file.peek(6)[:6] in (b"frame ", b"end 0\n"):
            recording = beside(name, [".demo"])
            if recording is None:
                judge.program.kill()
                judge.end()
                return {"end": "failed", "said": "the log has no map, and there is no recording beside it"}
            with opened(recording) as head:
                for line in map_lines(head):
                    judge.write(line)
        refusals = copy_to(judge, file)
    found = verdict(*judge.end())
    if found["end"] == "long":
        found = {"end": "failed", "said": f"the lines of its map go on with a frame in line {found['line']}, without `end`"}
    return {**found, "refusals": refusals}


def judged(mode, path, workers, recording):
    if mode == "play":
        return play(path, workers, recording)
    return pair(path, recording) if mode == "pairs" else log(path, recording)


def line_of(name, found):
    return json.dumps({"name": name, **found}) + "\n"


def say_when_stopped(name):
    """Has SIGTERM end this process with its line printed, so that who reads the results knows why there is no other."""

    def stop(number, _):
        try:
            os.write(1, line_of(name, {"end": "failed", "said": f"signal {number} stopped its judging"}).encode("ascii"))
        finally:
            os._exit(1)

    signal.signal(signal.SIGTERM, stop)


def main():
    mode, path, workers, name, folder = sys.argv[1:]
    say_when_stopped(name)
    die_with(signal.SIGTERM, os.getppid())
    place = name if os.path.exists(name) else os.path.join(folder, name)
    try:
        found = judged(mode, path, workers, place)
    except READING as why:
        found = {"end": "failed", "said": getattr(why, "strerror", None) or str(why)}
    signal.signal(signal.SIGTERM, signal.SIG_IGN)
    print(line_of(name, found), end="", flush=True)
    return 0 if found["end"] == "right" else 1


if __name__ == "__main__":
    sys.exit(main())
