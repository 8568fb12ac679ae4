"""Where the program is that the scripts run, a run of it, and what the scripts say of what a user does wrong.

The program is `crates/arena_cli/out/arena_cli`, which `rt run` and `rt ci` leave there; the variable ARENA_CLI names
another one, by a path from the current folder or by a whole one.
"""
import errno
import os
import signal
import subprocess
import sys

import arena

HERE = os.path.dirname(os.path.abspath(__file__))
TOP = os.path.dirname(HERE)
PROGRAM = os.path.abspath(os.environ.get("ARENA_CLI") or os.path.join(TOP, "crates", "arena_cli", "out", "arena_cli"))
SECONDS = 120
NAME = os.path.basename(sys.argv[0])
STOPPED = 130


def run(words, given=b"", seconds=SECONDS):
    """Runs the program with these words and this input, and gives what it wrote, its standard error and its status."""
    done = subprocess.run([PROGRAM, *words], input=given, capture_output=True, timeout=seconds)
    return done.stdout, done.stderr, done.returncode


def shown(text):
    """A name or a text without bytes that a terminal takes for more than text."""
    return "".join(c if c.isprintable() else c.encode("unicode_escape", "backslashreplace").decode() for c in str(text))


def misused(text, why):
    """Ends a script that can't do what it was called for: why, and the script's text, with status 2."""
    print(f"{NAME}: {shown(why)}\n\n{text}", file=sys.stderr, end="")
    sys.exit(2)


def unable(why):
    """Ends a script that can't do what it was called for, though its words are right, with status 2."""
    print(f"{NAME}: {shown(why)}", file=sys.stderr)
    sys.exit(2)


def lacking(path=PROGRAM):
    """Why the program at this path can't be run, or None."""
    if not os.path.exists(path):
        return f"there is no program {path}; tools/build makes one in two minutes, `rt run` in crates/arena_cli a proved one"
    if not os.access(path, os.X_OK) or os.path.isdir(path):
        return f"{path} isn't a program that can be run"
    return None


def begin(text, needs=PROGRAM, wrong=lambda words: None):
    """Prints the script's text where that is asked for, and ends it for wrong words and where the program isn't built.

    `wrong` says what is wrong with the words, or gives None.
    """
    words = sys.argv[1:]
    if words in (["--help"], ["-h"]):
        print(text, end="")
        sys.exit(0)
    why = wrong(words)
    if why is not None:
        misused(text, why)
    why = lacking(needs) if needs else None
    if why is not None:
        unable(why)


def sentence_of(error):
    """What a user's doing raised, as a sentence, and the status that goes with it; None for a fault of the script."""
    if isinstance(error, KeyboardInterrupt):
        return "stopped", STOPPED
    if isinstance(error, arena.FormatError):
        return str(error), 1
    if isinstance(error, BrokenPipeError):
        return "the output was closed before all of it was written", 1
    if isinstance(error, subprocess.TimeoutExpired):
        return f"the program took more than {error.timeout:.0f} seconds", 1
    if isinstance(error, MemoryError):
        return "there isn't enough memory", 1
    if isinstance(error, OSError):
        place = f"{error.filename}: " if error.filename else ""
        return f"{place}{error.strerror or error}", 1
    return None


def stop(*_):
    raise KeyboardInterrupt


def perform(work):
    """Does the work and ends the script with the status that it gives, None for 0.

    What a user can cause, as a closed pipe, a full disk or a file of another format, ends it with a sentence and
    status 1. A signal that asks it to end does so as Control-C does, so that no folder and no process is left.
    """
    for number in (signal.SIGTERM, signal.SIGHUP):
        if signal.getsignal(number) is signal.SIG_DFL:
            signal.signal(number, stop)
    try:
        if sys.stdout is None:
            raise OSError(errno.EBADF, "standard output is closed")
        sys.stdout.reconfigure(errors="backslashreplace")
        status = work() or 0
        sys.stdout.flush()
    except (Exception, KeyboardInterrupt) as error:
        said = sentence_of(error)
        if said is None:
            raise
        why, status = said
        # What is still in the buffer can't be written; without this the interpreter would try, and say so.
        os.dup2(os.open(os.devnull, os.O_WRONLY), 1)
        print(f"{NAME}: {shown(why)}", file=sys.stderr)
    sys.exit(status)


def is_number(word):
    """Whether a word is a number, of no more digits than anything here is counted by."""
    return word.isascii() and word.isdecimal() and len(word) <= 18


def at_most_numbers(most):
    """Words are at most so many numbers."""

    def wrong(words):
        if len(words) <= most and all(map(is_number, words)):
            return None
        return f"at most {most} numbers are wanted"

    return wrong


def no_words(words):
    return "no words are wanted" if words else None


def folders(words):
    return next((f"there is no folder {word or 'without a name'}" for word in words if not os.path.isdir(word)), None)


def unreadable(path):
    """Why a file can't be read, before it is opened: None for standard input, `-`, and where nothing is known."""
    if path == "-":
        return None
    if not path:
        return "a file's name is empty"
    if os.path.islink(path) and not os.path.exists(path):
        return f"{path} is a link to {os.readlink(path)}, which isn't there"
    if os.path.isdir(path):
        return f"{path} is a folder"
    return None if os.path.exists(path) else f"there is no file {path}"


def files(words):
    return next((why for why in map(unreadable, words) if why), None)


def apart(words):
    """As `files`, of files that are all read before the script ends: standard input can't be two of them."""
    return "standard input can't be two files" if words.count("-") > 1 else files(words)
