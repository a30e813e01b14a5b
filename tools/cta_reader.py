#!/usr/bin/env python3
"""The reading of CTA-861 extensions, written from order 8 of document 02 alone: the expected output of the replay. A timing is that of
tools/standard_reader.py, since order 8 asks for the standard slot rule.

Standard input holds frames: a length of two bytes, the low one first, then that many bytes. Standard output gets each frame's
listing, then `--`.
"""
from standard_reader import Refused, bits, detailed, line, little, main


def data_blocks(part, end):
    """Tag and bytes of each data block of a part that ends there."""
    while part:
        length = bits(part[0], 4, 0)
        if len(part) <= length:
            raise Refused(13, end - len(part))
        yield bits(part[0], 7, 5), part[1:length + 1]
        part = part[length + 1:]


def timings(part):
    """The timings of a part that ends at byte 127."""
    while len(part) >= 18 and little(part[:2]) > 0:
        yield detailed(part[:18], 127 - len(part))
        part = part[18:]


def reading(block):
    if len(block) != 128:
        raise Refused(7, 0)
    if sum(block) % 256 != 0:
        raise Refused(8, 127)
    if block[0] != 2:
        raise Refused(12, 0)
    revision, offset, support = block[1:4]
    if offset in (1, 2, 3) or offset > 127:
        raise Refused(13, 2)
    video, others = [], []
    for tag, part in data_blocks(block[4:offset], offset):
        if tag == 2:
            video += part
        else:
            others.append(line("block", tag, *([part.hex()] if part else [])))
    return [
        "accept",
        line("cta", revision, offset, support),
        line("video", *video),
        *others,
        *timings(block[offset:127] if offset else b""),
    ]


if __name__ == "__main__":
    main(reading)
