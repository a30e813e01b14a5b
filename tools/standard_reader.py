#!/usr/bin/env python3
"""The standard reading of EDID blocks, written from document 01 and orders 1, 2, 4 and 13 of document 02 alone: the expected output of the replay.

Standard input holds frames: a length of two bytes, the low one first, then that many bytes. Standard output gets each frame's
listing, then `--`.
"""
import sys

HEADER = bytes.fromhex("00ffffffffffff00")
SLOTS = (54, 72, 90, 108)
RATIOS = ((16, 10), (4, 3), (5, 4), (16, 9))
# by bits 6, 5 and 0 of a timing's last byte
STEREO = {(0, 0, 0): 0, (0, 0, 1): 0, (0, 1, 0): 1, (1, 0, 0): 2, (0, 1, 1): 3, (1, 0, 1): 4, (1, 1, 0): 5, (1, 1, 1): 6}
TEXTS = {0xFC: "name", 0xFE: "text", 0xFF: "serial"}
# by their codes: the depths of a digital input, and what is added to the minimum and the maximum of a range
DEPTHS = "undefined 6 8 10 12 14 16 reserved".split()
OFFSETS = ((0, 0), (0, 0), (0, 255), (255, 255))


class Refused(Exception):
    """A number and a position."""


def bits(byte, high, low):
    return byte >> low & (1 << high - low + 1) - 1


def bit(byte, k):
    return bits(byte, k, k)


def flags(byte, *ks):
    return [bit(byte, k) for k in ks]


def little(part):
    return int.from_bytes(part, "little")


def line(*words):
    return " ".join(str(word) for word in words)


def product(block):
    code = int.from_bytes(block[8:10], "big")
    letters = [code >> shift & 31 for shift in (10, 5, 0)]
    letters = [chr(ord("A") + k - 1) if 1 <= k <= 26 else 0 for k in letters]
    week = "model" if block[16] == 0xFF and block[19] >= 4 else block[16]
    return line("product", *letters, little(block[10:12]), little(block[12:16]), week, block[17] + 1990)


def video(byte, revision):
    if not bit(byte, 7):
        return line("analog", bits(byte, 6, 5), *flags(byte, 4, 3, 2, 1, 0))
    if revision < 4:
        return line("digital", bit(byte, 0))
    return line("digital", DEPTHS[bits(byte, 6, 4)], bits(byte, 3, 0))


def size(across, down, revision):
    """From revision 4 on one byte alone is a ratio."""
    if across and down:
        return line("size", across * 10, down * 10)
    if revision >= 4 and across:
        return line("size", "ratio", across + 99, 100)
    if revision >= 4 and down:
        return line("size", "ratio", 100, down + 99)
    return line("size", "none")


def dpms(byte, encodings):
    """Bits 4..3 are the display's type, or its encodings."""
    return line("dpms", *flags(byte, 7, 6, 5), "e" * encodings + str(bits(byte, 4, 3)), *flags(byte, 2, 1, 0))


def gamma(byte):
    return "none" if byte == 0xFF else byte + 100


def chroma(block):
    lows = [bits(block[25 + k // 4], 7 - 2 * (k % 4), 6 - 2 * (k % 4)) for k in range(8)]
    return line("chroma", *(high * 4 + low for high, low in zip(block[27:35], lows)))


def established(block):
    value = little(block[35:37])
    numbers = [k for k in range(16) if value >> k & 1] + [16] * bit(block[37], 7)
    return line("established", *numbers)


def ratio(code, revision):
    """16:10 came with revision 3."""
    return (1, 1) if code == 0 and revision < 3 else RATIOS[code]


def pairs(part, revision):
    for low, high in zip(part[0::2], part[1::2]):
        if (low, high) != (1, 1):
            yield line("standard", (low + 31) * 8, *ratio(high >> 6, revision), high % 64 + 60)


def axis(active, blanking, front, sync, at):
    if sync + front > blanking:
        raise Refused(6, at)
    return active, front, sync, blanking - sync - front


def sync(byte):
    kind = bits(byte, 4, 3)
    if kind == 3:
        return kind, bit(byte, 1), bit(byte, 2)
    return kind, bit(byte, 2), bit(byte, 1)


def detailed(slot, at):
    b = slot
    across = axis(b[2] + 256 * bits(b[4], 7, 4), b[3] + 256 * bits(b[4], 3, 0),
                  b[8] + 256 * bits(b[11], 7, 6), b[9] + 256 * bits(b[11], 5, 4), at)
    down = axis(b[5] + 256 * bits(b[7], 7, 4), b[6] + 256 * bits(b[7], 3, 0),
                bits(b[10], 7, 4) + 16 * bits(b[11], 3, 2), bits(b[10], 3, 0) + 16 * bits(b[11], 1, 0), at)
    porches = [number for both in zip(across, down) for number in both]
    size = (b[12] + 256 * bits(b[14], 7, 4), b[13] + 256 * bits(b[14], 3, 0))
    stereo = STEREO[tuple(flags(b[17], 6, 5, 0))]
    return line("detailed", little(b[0:2]) * 10000, *porches, *size, b[15], b[16], bit(b[17], 7), stereo, *sync(b[17]))


def must(part, byte, number, at):
    if any(other != byte for other in part):
        raise Refused(number, at)


def white(part):
    index, low, x, y, power = part
    if index:
        yield line("white", index, x * 4 + bits(low, 3, 2), y * 4 + bits(low, 1, 0), gamma(power))


def secondary(slot, at):
    kind = slot[10]
    if kind == 0:
        must(slot[11:12], 0x0A, 4, at)
        must(slot[12:18], 0x20, 5, at)
        return ["none"]
    if kind == 2:
        must(slot[11:12], 0x00, 4, at)
        return ["gtf", slot[12] * 2000, slot[13], little(slot[14:16]), slot[16], slot[17]]
    return ["other", kind, slot[11:18].hex()]


def limits(slot, revision):
    """The fifth byte is read from revision 4 on."""
    offsets = slot[4] if revision >= 4 else 0
    vertical, horizontal = OFFSETS[bits(offsets, 1, 0)], OFFSETS[bits(offsets, 3, 2)]
    vmin, vmax, hmin, hmax = (rate + more for rate, more in zip(slot[5:9], vertical + horizontal))
    return vmin, vmax, hmin * 1000, hmax * 1000, slot[9] * 10000000


def text(name, part, at):
    length = part.find(0x0A)
    if length < 0:
        length = 13
    if part[length + 1:].translate(None, b" \0"):
        raise Refused(5, at)
    return line(name, at + 5, length)


def descriptor(slot, at, revision):
    """The list that a slot without a clock feeds, and its entries."""
    tag, data = slot[3], slot[5:18]
    if tag == 0xFA:
        must(slot[17:18], 0x0A, 4, at)
        return "standard", [*pairs(data[:12], revision)]
    if tag == 0xFB:
        must(slot[15:16], 0x0A, 4, at)
        must(slot[16:18], 0x20, 5, at)
        return "white", [*white(data[:5]), *white(data[5:10])]
    if tag in TEXTS:
        return "descriptor", [text(TEXTS[tag], data, at)]
    if tag == 0xFD:
        return "descriptor", [line("range", *limits(slot, revision), *secondary(slot, at))]
    if tag == 0x10:
        return "descriptor", []
    return "descriptor", [line("maker" if tag < 0x10 else "undefined", tag, data.hex())]


def reading(block):
    for passed, number, at in ((len(block) == 128, 7, 0), (block[:8] == HEADER, 2, 0),
                               (sum(block) % 256 == 0, 8, 127), (block[18:19] == b"\1", 9, 18)):
        if not passed:
            raise Refused(number, at)
    revision = block[19]
    lists = {"white": [], "standard": [line(pair, 0) for pair in pairs(block[38:54], revision)], "detailed": [], "descriptor": []}
    for number, at in enumerate(SLOTS, 1):
        slot = block[at:at + 18]
        if little(slot[0:2]):
            kind, entries = "detailed", [detailed(slot, at)]
        elif at == SLOTS[0]:
            raise Refused(3, at)
        else:
            kind, entries = descriptor(slot, at, revision)
        lists[kind] += [line(entry, number) for entry in entries]
    return [
        "accept",
        product(block),
        line("version", block[18], revision),
        video(block[20], revision),
        size(block[21], block[22], revision),
        line("gamma", gamma(block[23])),
        dpms(block[24], revision >= 4 and bit(block[20], 7)),
        chroma(block),
        *lists["white"],
        established(block),
        *lists["standard"],
        *lists["detailed"],
        *lists["descriptor"],
        line("extensions", block[126]),
    ]


def frames(stream):
    """The blocks of a stream of frames."""
    while len(head := stream.read(2)) == 2:
        yield stream.read(little(head))


def answer(reading, block):
    """The listing of a block."""
    try:
        lines = reading(block)
    except Refused as refusal:
        lines = [line("refuse", *refusal.args)]
    return "".join(f"{words}\n" for words in lines)


def main(reading):
    for block in frames(sys.stdin.buffer):
        print(answer(reading, block), "--\n", sep="", end="")


if __name__ == "__main__":
    main(reading)
