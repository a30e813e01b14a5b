"""What lists of CTA-861 extensions are made of: data blocks, and the block around them."""
from blocks import any_timing, below, changed, noise, summed, timing

OVER = timing(blanking=(10, 28))  # a timing whose porches exceed the blanking


def data_block(tag, part):
    return bytes([tag << 5 | len(part)]) + part


def extension(data, rest=b"", offset=None, revision=3, support=0x71):
    """The data blocks, the offset at their end unless another is given, and what follows, up to byte 127."""
    head = bytes([2, revision, 4 + len(data) if offset is None else offset, support])
    return summed((head + data + rest + bytes(128))[:128])


def filled(size, longest=31):
    """Data blocks of any tag that take as many bytes in all."""
    data = b""
    while len(data) < size:
        tag, length = (2, 1, 3, 4, 7, 2, below(8), 2)[below(8)], below(min(longest + 1, size - len(data)))
        data += data_block(tag, noise(length))
    return data


def videos(count):
    """As many descriptor bytes, in as few data blocks as can be."""
    return b"".join(data_block(2, noise(min(31, count - k))) for k in range(0, count, 31))


def any_extension():
    """Data blocks and timings up to any byte; one in eight is spoiled."""
    kind = below(16)
    if kind == 0:
        data = videos(below(120) if below(4) else 119)
    elif kind == 1:
        tags = below(8), below(8)
        data = b"".join(data_block(tags[below(2)], b"") for _ in range(below(124) if below(4) else 123))
    else:
        data = filled((below(124), below(24), 0)[below(3)], (31, 31, 3, 0)[below(4)])
    rest = b"".join(any_timing() for _ in range(below(7)))
    if below(2):
        rest += bytes([0, 0]) * below(10) + noise(below(40))
    block = extension(data, rest, None if data or below(4) else 0, *noise(2))
    return block if below(8) else spoiled(block)


def spoiled(block):
    """With a byte other than it was, its sum put right or not; another offset, first byte or length; another last byte of the data blocks; or a timing
    with too long a porch."""
    kind = below(9)
    if kind == 0:
        return changed(block, below(128), below(256))
    if kind == 1:
        return summed(changed(block, 0, below(256)))
    if kind == 2:
        return (block + block)[:below(257)]
    if kind == 3:
        return summed(changed(block, 2, below(256)))
    if kind == 4 and 4 <= block[2] <= 109:
        at = block[2] + 18 * below(1 + (109 - block[2]) // 18)
        return summed(block[:at] + OVER + block[at + 18:])
    if kind == 5 and 5 <= block[2] <= 127:
        return summed(changed(block, block[2] - 1, below(256)))
    return summed(changed(block, 4 + below(123), below(256)))
