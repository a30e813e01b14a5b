"""What the frames of names are made of: blocks with fc texts in some slots, and blocks that are refused for one thing."""
from blocks import (FIRST, LATER, SPECIMEN, TELLING, any_limits, any_timing, below, block, changed, descriptor, limits, noise, pairs, restructured, summed,
                    tagged, text, timing, whites)

FC = 0xFC
DUMMY = descriptor(0x10, bytes(13))
# slots that the standard reading refuses wherever they stand, by the number: back porches below zero, by low digits and by high ones, also with fc where a
# tag would stand; what is not closed by 0x0a, or by 0x00 in GTF; what is not filled up with 0x20
OVER = [timing(blanking=(10, 28)), timing(blanking=(256, 4)), timing(blanking=(255, 28), front=(256, 1), sync=(0, 0)),
        timing(blanking=(256, 15), front=(0, 16), sync=(0, 0)), timing(blanking=(255, 28), front=(0, 1), sync=(256, 4)),
        timing(blanking=(256, 15), front=(0, 0), sync=(0, 16)), changed(timing(blanking=(10, 4)), 3, FC)]
SLOTS = {
    6: OVER,
    4: [changed(pairs(*[(1, 1)] * 6), 17, 0), changed(whites(bytes(5), bytes(5)), 15, 0x20), limits(0, b"       "), limits(2, b"\1" + bytes(6))],
    5: [changed(whites(bytes(5), bytes(5)), 16, 0), changed(whites(bytes(5), bytes(5)), 17, 0x0A), limits(0, b"\n\0     "), limits(0, b"\n     \0"),
        *(changed(text(5, tag), 12, 0x21) for tag in (FC, 0xFE, 0xFF)), changed(text(0), 17, 0x0A)],
}
FAULTS = [(number, slot) for number, slots in SLOTS.items() for slot in slots]


def one_of(several):
    return several[below(len(several))]


def any_name():
    """An fc slot: the third and fifth byte any, its text any, its 0x0a at any place or none, filled up with 0x20 and 0x00."""
    length = below(14)
    data = bytes(value + (value == 10) for value in noise(length))
    return changed(descriptor(FC, (data + b"\n" + bytes(one_of(b"\x20\0") for _ in range(12)))[:13], below(256)), 2, below(256))


def other_slot():
    """A later slot without a name: a timing, also with fc where a tag would stand, or a descriptor."""
    if below(4) == 0:
        return changed(any_timing(), 3, FC) if below(2) else any_timing()
    return any_limits() if below(8) == 0 else tagged(one_of([tag for tag in (*TELLING, below(256)) if tag != FC]))


def any_block():
    """Any head, and a name in each later slot with a chance of its own; accepted, but for a timing whose blanking fc made too short."""
    slots = [any_timing(), *(any_name() if below(3) == 0 else other_slot() for _ in LATER)]
    return summed(restructured(SPECIMEN[:19] + noise(35) + b"".join(slots) + noise(2)))


def spoiled(whole):
    """With a slot that is refused, three times of four; else another length, header, sum or version, or a byte changed, which may leave it accepted."""
    if below(4):
        return put(whole, one_of(LATER), one_of(FAULTS)[1]) if below(8) else put(whole, FIRST, any_name())
    value = below(256)
    return one_of((whole[:below(128)], whole + noise(1 + below(130)), summed(changed(whole, below(8), value)), changed(whole, 127, value),
                   summed(changed(whole, 18, value)), summed(changed(whole, below(127), value)), ends_in_zeros(whole)))


def put(whole, at, slot):
    return summed(whole[:at] + slot + whole[at + 18:])


def ends_in_zeros(whole):
    """Cut, though zeros for what is missing would make it right."""
    last = below(126)
    whole = changed(whole, 126, 0)
    return changed(whole, last, (whole[last] - sum(whole[:126])) % 256)[:126 + below(2)]


def any_frame():
    """Two blocks; one in four is spoiled."""
    return tuple(whole if below(4) else spoiled(whole) for whole in (any_block(), any_block()))


def named(*lengths):
    """The specimen with a name of that length in each later slot, or with a dummy slot for None."""
    return block({at: DUMMY if length is None else text(length) for at, length in zip(LATER, lengths)})
