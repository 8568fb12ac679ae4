"""The program on its pipe.

The program runs a frame when it reads the `frame` line of the next one, or `end`, and has written all of the frame's
text before it reads on. So a frame is always open: its packets are written, followed by the next `frame` line, and the
answer is there.
"""
import asyncio
from contextlib import suppress
from typing import List

import arena
from arena_live.roll import Roll

CHUNK = 1 << 20


class ProgramEnded(Exception):
    """The program ended where an answer was expected; the text says with what."""


class Pipe:
    """A run of `arena_cli play N`. `send` gives it lines, and `read_frame` gives the text of one frame."""

    def __init__(self, process: asyncio.subprocess.Process):
        self._process = process
        self._lines: List[bytes] = []
        self._next = 0
        self._rest = b""

    @classmethod
    async def start(cls, program: str, workers: int) -> "Pipe":
        """Starts the program in a session of its own, so that Control-C in a terminal reaches the front alone."""
        pipes = dict.fromkeys(("stdin", "stdout", "stderr"), asyncio.subprocess.PIPE)
        try:
            process = await asyncio.create_subprocess_exec(program, "play", str(workers), start_new_session=True, **pipes)
        except OSError as why:
            raise ProgramEnded(f"the program can't be started: {why.strerror}") from None
        return cls(process)

    @property
    def pid(self) -> int:
        return self._process.pid

    async def send(self, text: bytes) -> None:
        try:
            self._process.stdin.write(text)
            await self._process.stdin.drain()
        except (BrokenPipeError, ConnectionResetError):
            raise await self._ended() from None

    async def read_frame(self, roll: Roll) -> List[bytes]:
        """The lines of the next frame's text, without their ends, up to the one that `roll` says completes it."""
        frame = []
        while True:
            while self._next < len(self._lines):
                line = self._lines[self._next]
                self._next += 1
                frame.append(line)
                if roll.take(line):
                    return frame
            await self._read_more()

    async def _read_more(self) -> None:
        chunk = await self._process.stdout.read(CHUNK)
        if not chunk:
            raise await self._ended()
        *self._lines, self._rest = (self._rest + chunk).split(b"\n")
        self._next = 0

    async def finish(self) -> bytes:
        """Closes the program's input after the line `end` and gives the rest of its text."""
        self._process.stdin.close()
        ready = b"".join(line + b"\n" for line in self._lines[self._next :])
        rest = ready + self._rest + await self._process.stdout.read()
        status = await self._process.wait()
        if status != 0:
            raise await self._ended()
        return rest

    async def _ended(self) -> ProgramEnded:
        status = await self._process.wait()
        said = arena.printable((await self._process.stderr.read()).strip())
        return ProgramEnded(f"the program ended with status {status}" + (f": {said}" if said else ""))

    async def kill(self) -> None:
        """Ends the program where it still runs."""
        if self._process.returncode is None:
            self._process.kill()
            await self._process.wait()
        await close_input(self._process)


async def close_input(process: asyncio.subprocess.Process) -> None:
    """Closes the input of a process, which may be gone before it has read all of it."""
    process.stdin.close()
    with suppress(BrokenPipeError, ConnectionResetError):
        await process.stdin.wait_closed()
