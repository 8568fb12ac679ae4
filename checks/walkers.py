"""Recordings of players that walk on a map, as the program's command `walk` writes them."""
from common import FormatError, run

import arena

SEED = "7"
SECONDS = 600


def walked(text, players, frames):
    """The recording of so many walkers on a map, in so many frames."""
    out, error, status = run(["walk", SEED, str(players), str(frames)], text, SECONDS)
    if status != 0:
        raise FormatError(f"walk {SEED} {players} {frames} ended with status {status}: {arena.printable(error.strip())}")
    return out
