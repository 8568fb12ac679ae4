"""The spawns of a map as waypoints, and the edges between them, from the lines of a recording alone.

An edge leads from a spawn to another one at the same height, not at the same place and at most 65,536 away on x and y,
where a player's body overlaps no wall or block at the one, nor at any step of its way to the other. A way has as many
steps as the greater of the distances on x and y, each cut toward 0. Its length is that number.
"""

MINS, MAXS = (-4096, -4096, -6144), (4096, 4096, 8192)
THICKNESS = 16384
REACH = 65536


def walls(arena):
    """The six boxes outside the arena."""
    lo, hi = arena[:3], arena[3:]
    found = []
    for axis in range(3):
        below_lo = [c - THICKNESS for c in lo]
        below_hi = [c + THICKNESS for c in hi]
        below_hi[axis] = lo[axis]
        above_lo = [c - THICKNESS for c in lo]
        above_hi = [c + THICKNESS for c in hi]
        above_lo[axis] = hi[axis]
        found += [below_lo + below_hi, above_lo + above_hi]
    return found


def part(distance, step, steps):
    """How far a way has come along an axis after so many of its steps."""
    size = abs(distance) * step // steps
    return size if distance >= 0 else -size


def steps_in(lo, hi, box_lo, box_hi, distance, steps):
    """The first and the last of the steps 1 to `steps` at which the body overlaps the box on this axis."""

    def first(test):
        """The first step from 1 on at which the test holds; it stays so from there."""
        low, high = 1, steps + 1
        while low < high:
            middle = (low + high) // 2
            if test(part(distance, middle, steps)):
                high = middle
            else:
                low = middle + 1
        return low

    if distance >= 0:
        return first(lambda d: hi + d > box_lo), first(lambda d: lo + d >= box_hi) - 1
    return first(lambda d: lo + d < box_hi), first(lambda d: hi + d <= box_lo) - 1


def overlaps(lo, hi, box):
    return all(lo[a] < box[3 + a] and box[a] < hi[a] for a in range(3))


def meets(origin, step, box, steps):
    """Whether the body overlaps the box at the way's beginning or at one of its steps."""
    lo = [c + m for c, m in zip(origin, MINS)]
    hi = [c + m for c, m in zip(origin, MAXS)]
    if overlaps(lo, hi, box):
        return True
    if not (lo[2] < box[5] and box[2] < hi[2]):
        return False
    begin, end = 1, steps
    for axis in range(2):
        one, other = steps_in(lo[axis], hi[axis], box[axis], box[3 + axis], step[axis], steps)
        begin, end = max(begin, one), min(end, other)
    return begin <= end


def length_between(one, other):
    return max(abs(other[0] - one[0]), abs(other[1] - one[1]))


def edges(arena, blocks, spawns):
    """The length of each edge, by the numbers of its spawns."""
    solids = walls(arena) + blocks
    found = {}
    for u, one in enumerate(spawns):
        for v, other in enumerate(spawns):
            length = length_between(one, other)
            if one[2] != other[2] or not 0 < length <= REACH:
                continue
            step = [b - a for a, b in zip(one, other)]
            if not any(meets(one, step, box, length) for box in solids):
                found[u, v] = length
    return found
