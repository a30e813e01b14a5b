#!/usr/bin/env python3
"""Which name to show of a panel's block and a reference block, from the listings of tools/standard_reader.py: the expected output of the replay.

Standard input holds frames, each of two blocks: a length of two bytes, the low one first, then that many bytes. Standard output gets each frame's line,
then `--`.
"""
import sys

from standard_reader import Refused, frames, line, reading

NEITHER = 18
WHOSE = ("panel", "reference")


def names(block):
    """The start and the length of each name that the block's listing has; none where it is refused."""
    try:
        return [tuple(map(int, words.split()[1:3])) for words in reading(block) if words.startswith("name ")]
    except Refused:
        return []


def shown(blocks):
    """The number, and the start and the length of the text."""
    return next(((k, *places[0]) for k, places in enumerate(map(names, blocks)) if places), (NEITHER, 0, 0))


def answer(blocks):
    number, start, length = shown(blocks)
    if number == NEITHER:
        return line("refuse", NEITHER) + "\n"
    return line(WHOSE[number], start, length, *[blocks[number][start:start + length].hex()] * (length > 0)) + "\n"


if __name__ == "__main__":
    blocks = frames(sys.stdin.buffer)
    for pair in zip(blocks, blocks, strict=True):
        print(answer(pair), "--\n", sep="", end="")
