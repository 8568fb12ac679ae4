"""Whether a saved match is right: the program's command `audit` judges its log, of any length and any number of workers."""
import asyncio
from contextlib import suppress
from dataclasses import dataclass
from typing import BinaryIO, Iterable

import arena
from arena_live.faults import sentence_of
from arena_live.pipe import close_input
from arena_live.saved import Saved, SaveFault, open_plain

CHUNK = 1 << 20
RIGHT, WRONG, NOT_JUDGED = "right", "wrong", "not judged"


@dataclass(frozen=True)
class Verdict:
    kind: str  # RIGHT, WRONG or NOT_JUDGED
    text: str

    def __str__(self) -> str:
        return f"{self.kind}: {self.text}"


async def judge(program: str, saved: Saved) -> Verdict:
    try:
        if not saved.is_over():
            return Verdict(NOT_JUDGED, f"the match isn't over: {saved.recording_path} has no line `end` yet")
        if not saved.is_answered():
            lacking = f"{saved.output_path} has no line `end` yet; `--resume {saved.folder}` adds what it lacks"
            return Verdict(NOT_JUDGED, lacking)
        return await _judged(program, saved)
    except SaveFault as why:
        return Verdict(NOT_JUDGED, str(why))
    except OSError as why:
        return Verdict(NOT_JUDGED, f"{why.filename or program}: {why.strerror}")
    except Exception as why:
        return Verdict(NOT_JUDGED, sentence_of(why))


async def _judged(program: str, saved: Saved) -> Verdict:
    pipes = dict.fromkeys(("stdin", "stdout", "stderr"), asyncio.subprocess.PIPE)
    process = await asyncio.create_subprocess_exec(program, "audit", start_new_session=True, **pipes)
    feeding = asyncio.create_task(_feed(process, _log(saved)))
    try:
        said, why, status = await process.stdout.read(), await process.stderr.read(), await process.wait()
        await feeding
    finally:
        feeding.cancel()
        if process.returncode is None:
            process.kill()
    sentence = f"`audit` says: {arena.printable((said or why).strip())}"
    if status == 0:
        return Verdict(RIGHT, sentence)
    return Verdict(WRONG if status in (1, 6) else NOT_JUDGED, f"{sentence} (status {status})")


async def _feed(process: asyncio.subprocess.Process, text: Iterable[bytes]) -> None:
    try:
        # It reads no further than it must, and is gone then.
        with suppress(BrokenPipeError, ConnectionResetError):
            piece = bytearray()
            for part in text:
                piece += part
                if len(piece) >= CHUNK:
                    process.stdin.write(bytes(piece))
                    await process.stdin.drain()
                    piece.clear()
            process.stdin.write(bytes(piece))
            await process.stdin.drain()
    finally:
        await close_input(process)


def _log(saved: Saved) -> Iterable[bytes]:
    """The map and `end`, and then each frame of the output with its packets after its line `frame K`."""
    with open_plain(saved.recording_path, "rb") as recording, open_plain(saved.output_path, "rb") as output:
        for line in recording:
            if line == b"frame\n":
                break
            yield line
        yield b"end\n"
        for line in output:
            yield line
            if line.startswith(b"frame "):
                yield b"".join(_packets(recording))


def _packets(recording: BinaryIO) -> Iterable[bytes]:
    for line in recording:
        if not line.startswith(b"from "):
            return
        yield line
