"""Finds the lines by which two long lists differ that are much alike, as two exports of one store are."""
from __future__ import annotations

Lines = list[bytes]
# How many lines are compared at a time; and how many are few enough to be compared as sets.
BLOCK, FEW = 1024, 2000


def differences(old: Lines, new: Lines) -> tuple[set[bytes], set[bytes]]:
    """Returns the lines that only the old list has, and those that only the new one has. In neither list a line may
    stand twice; lines in another place are no difference."""
    gone: set[bytes] = set()
    come: set[bytes] = set()
    parts = [(0, len(old), 0, len(new))]
    while parts:
        low, high, start, end = inner(old, new, parts.pop())
        place = 0 if min(high - low, end - start) <= FEW else place_of(old[(low + high) // 2], new, start, end)
        if place:
            middle = (low + high) // 2
            parts += [(low, middle, start, place), (middle, high, place, end)]
        else:
            gone.update(old[low:high])
            come.update(new[start:end])
    return gone - come, come - gone


def place_of(line: bytes, lines: Lines, start: int, end: int) -> int:
    """Returns the place of a line in a part of a list, or 0."""
    try:
        return lines.index(line, start, end)
    except ValueError:
        return 0


def inner(old: Lines, new: Lines, part: tuple[int, int, int, int]) -> tuple[int, int, int, int]:
    """Returns two parts of the lists, from and to which places, without the lines at both ends that are the same."""
    low, high, start, end = part
    step = BLOCK
    while step:
        if step <= min(high - low, end - start) and old[low : low + step] == new[start : start + step]:
            low, start = low + step, start + step
        else:
            step //= 2
    step = BLOCK
    while step:
        if step <= min(high - low, end - start) and old[high - step : high] == new[end - step : end]:
            high, end = high - step, end - step
        else:
            step //= 2
    return low, high, start, end
