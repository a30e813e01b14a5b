"""What the kept lists of frames are made of: the parts of a block, the specimen with parts put in, and the two files of a list."""
import itertools
import os
import random
import struct
import subprocess
import sys

ROOT = os.path.dirname(os.path.dirname(os.path.abspath(__file__)))
with open(os.path.join(ROOT, "docs/specimen.bin"), "rb") as f:
    SPECIMEN = f.read()
FIRST, *LATER = (54, 72, 90, 108)
TELLING = (0x00, 0x01, 0x02, 0x0A, 0x0F, 0x10, 0x20, 0x7F, 0x80, 0xFA, 0xFB, 0xFC, 0xFD, 0xFE, 0xFF)
PAIRS = ((0x00, 0x00), (0x01, 0x00), (0x00, 0x01), (0x01, 0x01), (0x81, 0x80), (0xD1, 0xC0), (0x61, 0x7F), (0xFF, 0xFF))
TEXTS = (0xFC, 0xFE, 0xFF)
REVISIONS = (*range(6), 0xFE, 0xFF)
# of what is read otherwise from revision 4 on: weeks, sizes and rates with their ends, and words for what a block has of it
WEEKS = (0, 1, 54, 254, 255)
SIZES = ((0, 0), (0, 1), (0, 79), (0, 255), (1, 0), (79, 0), (255, 0), (1, 1), (32, 18), (1, 255), (255, 255))
RATES = (0, 1, 254, 255)
FORMS = ("digital", "model year", "landscape", "portrait", "offsets")
dice = random.Random(1)


# ---- parts of a block

def below(n):
    return int(dice.random() * n)


def noise(n):
    return bytes(below(256) for _ in range(n))


def summed(block):
    return block[:127] + bytes([-sum(block[:127]) % 256])


def block(parts):
    """The specimen with parts put in, each at its place, and its checksum put right."""
    b = bytearray(SPECIMEN)
    for at, part in parts.items():
        b[at:at + len(part)] = part
    return summed(bytes(b))


def timing(clock=4000, active=(800, 600), blanking=(256, 28), front=(40, 1), sync=(128, 4), size=(320, 180), border=(0, 0), last=0x1E):
    def highs(left, right):
        return left >> 8 << 4 | right >> 8

    return struct.pack("<H", clock) + bytes([
        active[0] & 255, blanking[0] & 255, highs(active[0], blanking[0]),
        active[1] & 255, blanking[1] & 255, highs(active[1], blanking[1]),
        front[0] & 255, sync[0] & 255, (front[1] & 15) << 4 | sync[1] & 15,
        front[0] >> 8 << 6 | sync[0] >> 8 << 4 | front[1] >> 4 << 2 | sync[1] >> 4,
        size[0] & 255, size[1] & 255, highs(size[0], size[1]), *border, last])


def any_timing():
    blanking = below(4096), below(4096)
    front = below(min(blanking[0], 1023) + 1), below(min(blanking[1], 63) + 1)
    sync = below(min(blanking[0] - front[0], 1023) + 1), below(min(blanking[1] - front[1], 63) + 1)
    return timing(1 + below(65535), (below(4096), below(4096)), blanking, front, sync, (below(4096), below(4096)), noise(2), below(256))


def descriptor(tag, data, fifth=0):
    return bytes([0, 0, 0, tag, fifth]) + data


def text(length, tag=0xFC, fill=b" "):
    """A text with its 0x0a at that place, or without one, filled up."""
    return descriptor(tag, (b"ABCDEFGHIJKLM"[:length] + b"\n" + fill * 12)[:13])


def pairs(*six):
    return descriptor(0xFA, bytes(itertools.chain(*six)) + b"\n")


def whites(one, two):
    return descriptor(0xFB, bytes(one) + bytes(two) + b"\n  ")


def limits(kind, rest, rates=(56, 75, 30, 81), clock=14, offsets=0):
    return descriptor(0xFD, bytes([*rates, clock, kind]) + bytes(rest), offsets)


def any_limits():
    kind, rest = ((0, b"\n      "), (2, b"\0" + noise(6)), (1, noise(7)), (3 + below(253), noise(7)))[below(4)]
    return limits(kind, rest, noise(4) if below(2) else [RATES[below(4)] for _ in range(4)], *noise(2))


def tagged(tag):
    """A descriptor that passes, by its tag."""
    if tag == 0xFA:
        return pairs(*(PAIRS[below(8)] for _ in range(6)))
    if tag == 0xFB:
        return whites(noise(5), noise(5))
    if tag == 0xFD:
        return limits(2, b"\0" + noise(6)) if below(2) else limits(0, b"\n      ")
    return text(below(14), tag) if tag in TEXTS else descriptor(tag, noise(13))


def revisions():
    """At revisions 0 to 5 and the last two, each ratio code in each of the 26 places of a pair, at 60 and at 61 Hz, where some are 01 01."""
    for revision, turn in itertools.product(REVISIONS, range(8)):
        every = [(1 + k % 3, (k + turn) % 4 << 6 | turn // 4) for k in range(26)]
        slots = {at: pairs(*every[8 + 6 * i:14 + 6 * i]) for i, at in enumerate(LATER)}
        yield block({19: bytes([revision]), 38: bytes(itertools.chain(*every[:8])), **slots})


def changed(part, at, value):
    return part[:at] + bytes([value]) + part[at + 1:]


# ---- what is read otherwise from revision 4 on

def with_offsets(value):
    """Range limits whose byte of offsets has that value: its upper half, which says nothing, chooses the rates; a third of them are of each kind."""
    one, two = value >> 4 & 3, value >> 6
    kind, rest = ((0, b"\n      "), (2, b"\0" + noise(6)), (4, noise(7)))[value % 3]
    return limits(kind, rest, [RATES[k] for k in (one, two, two, (one + 1) % 4)], value, value)


def structure(revision, value):
    """A block of that revision with the value in byte 20, and by it week, year, size, features and in each later slot range limits with offsets."""
    head = {16: bytes([WEEKS[value % 5], value]), 19: bytes([revision, value, *SIZES[value % 11]]), 24: bytes([value << 3 & 255 | value >> 5])}
    return block({**head, **{at: with_offsets((value + 85 * k) % 256) for k, at in enumerate(LATER)}})


def structures():
    """Every value at revisions 3 and 4, and some at the others: each byte of offsets comes to each later slot."""
    yield from (structure(revision, value) for revision in (3, 4) for value in range(256))
    yield from (structure(revision, value) for revision in REVISIONS if revision not in (3, 4) for value in range(0, 256, 19))


def restructured(block):
    """A block: every other one gets a revision of 0 to 5, one in four week ff, one in four just one size byte of zero."""
    b = bytearray(block)
    if below(2):
        b[19] = below(6)
    if below(4) == 0:
        b[16] = 0xFF
    if below(4) == 0:
        zero = 21 + below(2)
        b[zero], b[43 - zero] = 0, 1 + below(255) if below(2) else (1, 79, 255)[below(3)]
    return bytes(b)


def forms(block):
    """Which of FORMS a block has, from revision 4 on."""
    across, down = block[21:23]
    has = (block[20] > 127, block[16] == 0xFF, across and not down, down and not across, any(value & 0x0A for value in offsets(block)))
    return [form for form, so in zip(FORMS, has) if so and block[19] >= 4]


def offsets(block):
    """The fifth byte of each slot of range limits."""
    return [block[at + 4] for at in LATER if block[at:at + 2] == b"\0\0" and block[at + 3] == 0xFD]


# ---- a list and its files

def framed(blocks):
    """Each block behind its length in two bytes, the low one first."""
    return b"".join(struct.pack("<H", len(block)) + block for block in blocks)


def all_of(kinds):
    """The blocks of each kind, one kind after the other; on standard error how many each has."""
    blocks = []
    for kind in kinds:
        made = list(kind())
        print(f"{kind.__name__:14} {len(made):6,}", file=sys.stderr)
        blocks += made
    return blocks


def answers(judge, frames):
    """What a judge, a program of this folder, answers for the frames."""
    words = [sys.executable, os.path.join(ROOT, "tools", judge)]
    return subprocess.run(words, input=frames, stdout=subprocess.PIPE, check=True).stdout


def keep(files):
    """Writes each file of crates/; with --check it only says whether they are these. The exit status."""
    status = 0
    for name, new in files.items():
        path = os.path.join(ROOT, "crates", name)
        if sys.argv[1:] == ["--check"]:
            with open(path, "rb") as f:
                if f.read() != new:
                    print(f"{path} is not what this makes", file=sys.stderr)
                    status = 1
        else:
            with open(path, "wb") as f:
                f.write(new)
    return status
