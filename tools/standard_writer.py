#!/usr/bin/env python3
"""The block that a standard record is written to, by document 01 and orders 3, 4 and 13 of document 02 alone: the expected output of write_replay.

Standard input holds frames, as for tools/standard_reader.py, which reads them: its listing, with the bytes that its texts show, is all that a
block is made of. Standard output gets for each frame the reader's refusal, or `block` and the 128 bytes in hex, then `--`. Every block that is made
is read again: its sum has to be zero, and what it shows has to be what was written.
"""
import sys

from blocks import descriptor, summed, timing
from standard_reader import DEPTHS, HEADER, OFFSETS, RATIOS, TEXTS, Refused, frames, line, reading

TAGS = {name: tag for tag, name in TEXTS.items()}
LISTED = {*TAGS, "white", "standard", "detailed", "range", "maker", "undefined"}  # these lines end with the slot's number
EYES = (0x00, 0x20, 0x40, 0x21, 0x41, 0x60, 0x61)  # bits 6, 5 and 0 of a timing's last byte, by the number of its stereo
NO_SLOT = descriptor(0x10, bytes(13))
NO_PAIR = b"\1\1"
NO_POINT = bytes(5)


def shown(block):
    """The words of each line of a block's listing, a text by its bytes in hex and not by its place."""
    lines = [words.split() for words in reading(block)]
    for words in lines:
        if words[0] in TAGS:
            start, length = int(words[1]), int(words[2])
            words[1:3] = [block[start:start + length].hex()]
    return lines


def low_first(number, size):
    return number.to_bytes(size, "little")


# ---- the head

def product(first, second, third, code, serial, week, year):
    letters = 0
    for letter in (first, second, third):
        letters = letters << 5 | (0 if letter == "0" else ord(letter) - ord("A") + 1)
    week = 0xFF if week == "model" else int(week)
    return letters.to_bytes(2, "big") + low_first(int(code), 2) + low_first(int(serial), 4) + bytes([week, int(year) - 1990])


def flags(words):
    """A number of flags, the first of them its highest bit."""
    byte = 0
    for word in words:
        byte = byte << 1 | int(word)
    return byte


def video(head):
    if "digital" in head:
        *depth, last = head["digital"]  # below revision 4 a flag alone
        return 0x80 | (DEPTHS.index(*depth) << 4 if depth else 0) | int(last)
    level, *rest = head["analog"]
    return int(level) << 5 | flags(rest)


def size(words):
    if words == ["none"]:
        return bytes(2)
    if words[0] == "ratio":
        return ratio(*map(int, words[1:]))
    return bytes(int(word) // 10 for word in words)


def ratio(across, down):
    """100:100 is landscape."""
    return bytes([across - 99, 0]) if down == 100 else bytes([0, down - 99])


def gamma(word):
    return 0xFF if word == "none" else int(word) - 100


def features(standby, suspend, lowpower, kind, srgb, preferred, gtf):
    """The display's type is a digit, its encodings are an e and a digit."""
    return flags((standby, suspend, lowpower)) << 5 | int(kind[-1]) << 3 | flags((srgb, preferred, gtf))


def chroma(words):
    lows, highs = 0, b""
    for number in map(int, words):
        lows, highs = lows << 2 | number % 4, highs + bytes([number // 4])
    return lows.to_bytes(2, "big") + highs


def established(words):
    """Flags 0 to 15 are the bits of two bytes, flag 16 is the highest of a third."""
    return low_first(sum(1 << int(word) + (7 if word == "16" else 0) for word in words), 3)


# ---- what a slot lists

def packed_to_front(parts, count, unused):
    return b"".join(parts) + unused * (count - len(parts))


def pair(width, across, down, rate):
    """Code 0 is 1:1 or 16:10: which of them, is seen when the block is read again."""
    ratio = int(across), int(down)
    code = 0 if ratio == (1, 1) else RATIOS.index(ratio)
    return bytes([int(width) // 8 - 31, code << 6 | int(rate) - 60])


def point(index, x, y, power):
    x, y = int(x), int(y)
    return bytes([int(index), x % 4 << 2 | y % 4, x // 4, y // 4, gamma(power)])


def detailed(clock, width, height, hfront, vfront, hsync, vsync, hback, vback, wide, high, hborder, vborder, interlaced, stereo, kind, one, two):
    if kind == 3:
        one, two = two, one
    last = interlaced << 7 | EYES[stereo] | kind << 3 | one << 2 | two << 1
    blanking = hfront + hsync + hback, vfront + vsync + vback
    return timing(clock // 10000, (width, height), blanking, (hfront, vfront), (hsync, vsync), (wide, high), (hborder, vborder), last)


def rates(least, most):
    """The lowest offset code that fits, and the two bytes."""
    for code in 0, 2, 3:
        low, high = least - OFFSETS[code][0], most - OFFSETS[code][1]
        if 0 <= low <= 255 and 0 <= high <= 255:
            return code, bytes([low, high])


def limits(vmin, vmax, hmin, hmax, clock, *rest):
    vertical, down = rates(int(vmin), int(vmax))
    horizontal, across = rates(int(hmin) // 1000, int(hmax) // 1000)
    data = down + across + bytes([int(clock) // 10000000]) + secondary(*rest)
    return descriptor(0xFD, data, horizontal << 2 | vertical)


def secondary(kind, *rest):
    if kind == "none":
        return b"\0\n      "
    if kind == "gtf":
        start, c, m, k, j = map(int, rest)
        return bytes([2, 0, start // 2000, c]) + low_first(m, 2) + bytes([k, j])
    return bytes([int(rest[0])]) + bytes.fromhex(rest[1])


def slot(entries):
    """The 18 bytes of what one slot lists: words that begin with what they are."""
    if not entries:
        return NO_SLOT
    name = entries[0][0]
    if name == "standard":
        return descriptor(0xFA, packed_to_front([pair(*words) for _, *words in entries], 6, NO_PAIR) + b"\n")
    if name == "white":
        return descriptor(0xFB, packed_to_front([point(*words) for _, *words in entries], 2, NO_POINT) + b"\n  ")
    (_, *words), = entries
    if name == "detailed":
        return detailed(*map(int, words))
    if name == "range":
        return limits(*words)
    if name in TAGS:
        return descriptor(TAGS[name], (bytes.fromhex(words[0]) + b"\n" + b" " * 12)[:13])
    return descriptor(int(words[0]), bytes.fromhex(words[1]))


# ---- the block

def written(lines):
    """The block of what a listing shows."""
    head, slots = {}, [[] for _ in range(5)]
    for name, *words in lines:
        if name in LISTED:
            slots[int(words.pop())].append((name, *words))
        else:
            head[name] = words
    version, revision = head["version"]
    block = HEADER + product(*head["product"]) + bytes([int(version), int(revision), video(head)])
    block += size(head["size"]) + bytes([gamma(*head["gamma"]), features(*head["dpms"])]) + chroma(head["chroma"])
    block += established(head["established"]) + packed_to_front([pair(*words) for _, *words in slots[0]], 8, NO_PAIR)
    block += b"".join(map(slot, slots[1:]))
    return summed(block + bytes([int(*head["extensions"]), 0]))


def answer(block):
    """The refusal, or the block written anew, as a line."""
    try:
        lines = shown(block)
    except Refused as refusal:
        return line("refuse", *refusal.args)
    new = written(lines)
    if len(new) != 128 or sum(new) % 256 or shown(new) != lines:
        sys.exit(f"standard_writer: {block.hex()} is written as {new.hex()}, which does not read the same")
    return line("block", new.hex())


def main():
    for block in frames(sys.stdin.buffer):
        print(answer(block), "--", sep="\n")


if __name__ == "__main__":
    main()
