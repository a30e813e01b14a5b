#!/usr/bin/env python3
"""The text of a panel both ways, written from the rules of that text alone: lines are cut into words, and words are held to forms.

    tools/panel.py text < block    the text of a block, or the line of its refusal
    tools/panel.py block < text    the 128 bytes that a text says; or on standard error `refuse 19 LINE`, where it is not understood, or
                                   `refuse 11 LINE`, where no block says this: by the entry in that line, or with 0 by no entry alone

Reading and writing a block is left to tools/standard_reader.py and tools/standard_writer.py: a text is a block's if the block that is written for
it is read again as the same lines.
"""
import collections
import itertools
import re
import struct
import sys

from standard_reader import Refused, descriptor, detailed, line, pairs
from standard_writer import LISTED, TAGS, pair, shown, slot, written

LONGEST = 65_536
NOT_UNDERSTOOD, NO_BLOCK = 19, 11
# words of a form: numbers by the most that they can be, then what a pattern says; all others stand for themselves
MOSTS = {"b": 255, "h": 65_535, "w": 4_294_967_295, "f": 1, "t": 3, "s": 6}
NUMBER = re.compile("0|[1-9][0-9]{0,9}")
PATTERNS = {kind: re.compile(pattern) for kind, pattern in (
    ("L", "[A-Z0]"), ("e", "e[0-3]"), ("q", r'"(?:[ !#-\[\]-~]|\\x[0-9a-f]{2}){0,13}"'), ("x", "(?:[0-9a-f]{2}){1,13}"))}
# the lines in their order: how many at least, how many at most, and the forms
ORDER = [(least, most, [form.split() for form in forms]) for least, most, *forms in (
    (1, 1, "product L L L h w b h", "product L L L h w model h"),
    (1, 1, "version b b"),
    (1, 1, "analog b f f f f f", "digital f", "digital undefined b", "digital b b", "digital reserved b"),
    (1, 1, "size none", "size h h", "size ratio h h"),
    (1, 1, "gamma none", "gamma h"),
    (1, 1, "dpms f f f t f f f", "dpms f f f e f f f"),
    (1, 1, "chroma h h h h h h h h"),
    (0, 6, "white b h h h h", "white b h h none h"),
    (1, 1, *("established" + " b" * count for count in range(18))),
    (0, 26, "standard h h h h h"),
    (0, 4, "detailed w h h h h h h h h h h h h f s t f f h"),
    (0, 3, "serial q h", "text q h", "name q h", "undefined b x h", "maker b x h",
     "range h h w w w none h", "range h h w w w gtf w b h b b h", "range h h w w w other b x h"),
    (1, 1, "extensions b"),
)]
HIDE, SHOW = str.maketrans(" \t", "\u0120\u0109"), str.maketrans("\u0120\u0109", " \t")  # no byte's characters
# what the writer raises for a value that has no code; the last for rates that no offsets fit
NO_CODE = (ValueError, OverflowError, struct.error, TypeError)


# ---- block to text

def quoted(part):
    return '"' + "".join(chr(byte) if 0x20 <= byte <= 0x7E and byte not in b'"\\' else f"\\x{byte:02x}" for byte in part) + '"'


def text(block):
    """The text of a block, or its refusal."""
    try:
        lines = shown(block)[1:]
    except Refused as refusal:
        lines = [["refuse", *refusal.args]]
    for words in lines:
        if words[0] in TAGS:
            words[1] = quoted(bytes.fromhex(words[1]))
    return "".join(line(*words) + "\n" for words in lines).encode()


# ---- text to words

def words_of(line):
    """What stands between runs of spaces and tabs, but for those between quotes; at the ends of the line a word may be empty."""
    hidden = re.sub('"[^"]*"?', lambda part: part[0].translate(HIDE), line)
    return [word.translate(SHOW) for word in re.split("[ \t]+", hidden)]


def fits(word, kind):
    if kind in MOSTS:
        return NUMBER.fullmatch(word) is not None and int(word) <= MOSTS[kind]
    return PATTERNS[kind].fullmatch(word) is not None if kind in PATTERNS else word == kind


def form_of(words, forms):
    """The first of the forms that the words have, or None."""
    return next((form for form in forms if len(form) == len(words) and all(map(fits, words, form))), None)


def plain(words):
    """The words as tools/standard_writer.py has them: a text by its bytes in hex."""
    if words[0] not in TAGS:
        return words
    name, within, number = words
    return [name, re.sub(r"\\x(..)", lambda pair: chr(int(pair[1], 16)), within[1:-1]).encode("latin-1").hex(), number]


def understood(text):
    """The number and the words of each line that counts."""
    if len(text) > LONGEST:
        raise Refused(NOT_UNDERSTOOD, 1 + text[:LONGEST].count(b"\n"))
    lines = text.decode("latin-1").split("\n")
    if lines[-1] == "":
        lines.pop()
    left = [(number, words_of(line)) for number, line in enumerate(lines, 1) if line.strip(" \t") and line[0] != "#"]
    taken = []
    for least, most, forms in ORDER:
        count = len([*itertools.takewhile(lambda line: form_of(line[1], forms), left[:most])])
        if count < least:
            break
        taken, left = taken + left[:count], left[count:]
    else:
        if not left:
            return [(number, plain(words)) for number, words in taken]
    raise Refused(NOT_UNDERSTOOD, left[0][0] if left else len(lines) + 1)


# ---- words to block

def room(number, name):
    """How many entries of a kind a slot has room for; slot 0 are the eight pairs that stand before the slots."""
    if number == 0:
        return 8 if name == "standard" else 0
    return {"standard": 6, "white": 2}.get(name, 1) if number <= 4 else 0


def placed(lines):
    """Whether each slot gets entries of one kind, and has room for them."""
    slots = collections.defaultdict(list)
    for words in lines:
        if words[0] in LISTED:
            slots[int(words[-1])].append(words[0])
    return all(len({*names}) == 1 and len(names) <= room(number, names[0]) for number, names in slots.items())


def built(lines):
    """The block that shows these lines, or None."""
    if not placed(lines):
        return None
    try:
        new = written(lines)
    except NO_CODE:
        return None
    try:
        return new if shown(new)[1:] == lines else None
    except Refused:
        return None


def entries(part, revision):
    """The words of what a slot shows, without its number, a text by its bytes in hex."""
    lists = [words.split() for words in ([detailed(part, 0)] if any(part[:2]) else descriptor(part, 0, revision)[1])]
    return [[words[0], part[5:5 + int(words[2])].hex()] if words[0] in TAGS else words for words in lists]


def held(words, revision):
    """Whether a slot of 18 bytes, or a pair, can show this entry and nothing else."""
    try:
        part = pair(*words[1:]) if words[0] == "standard" else slot([words])
    except NO_CODE:
        return False
    if words[0] == "standard":
        return [*pairs(part, revision)] == [line(*words)]
    try:
        return len(part) == 18 and entries(part, revision) == [words]
    except Refused:
        return False


def blamed(lines):
    """The number of the first line whose entry alone no block of this revision can hold, or 0."""
    revision = next(int(words[2]) for _, words in lines if words[0] == "version")
    return next((number for number, words in lines if words[0] in LISTED and not held(words[:-1], revision)), 0)


def block(text):
    """The 128 bytes that a text says; or 19 or 11, and a line."""
    try:
        lines = understood(text)
    except Refused as refusal:
        return refusal.args
    return built([words for _, words in lines]) or (NO_BLOCK, blamed(lines))


def main():
    stdin = sys.stdin.buffer.read() if sys.argv[1:] in (["text"], ["block"]) else sys.exit(__doc__)
    answer = text(stdin) if sys.argv[1] == "text" else block(stdin)
    if isinstance(answer, tuple):
        sys.exit(line("refuse", *answer))
    sys.stdout.buffer.write(answer)


if __name__ == "__main__":
    main()
