"""Texts of panels, mangled: from right texts and a seed. Each comes with the names of what was done to it, keys of KINDS, for who counts them."""
import itertools
import random
import re

from panel import LONGEST, MOSTS, NO_BLOCK, ORDER, form_of, room, words_of
from standard_writer import LISTED, TAGS

ANSWERS = ("block", "19", "11 with a line", "11 with 0")
RANKS = {form[0]: rank for rank, (_, _, forms) in enumerate(ORDER) for form in forms}
PRINTED = "".join(map(chr, range(0x20, 0x7F))).replace('"', "").replace("\\", "")
BYTES = '"\\# \t\n\r\0x019afAFeE-+,\x1f\x7f\x80\xff'
WORDS = 'none model ratio gtf other undefined reserved e0 e3 e4 0 1 2 255 "" "A" \\x41 00 ff # = A 0a202020202020'.split()
# numbers where a code begins or ends
TELLING = sorted({number + more for number in (
    1, 3, 6, 8, 10, 16, 32, 60, 64, 100, 123, 248, 255, 256, 355, 510, 1000, 1023, 1024, 1990, 2000, 2246, 2288, 2550, 4095, 4096, 9999, 10_000,
    65_534, 255_000, 256_000, 510_000, 512_000, 655_350_000, 655_360_000, 2_550_000_000, 2_560_000_000, 4_294_967_294) for more in (-1, 0, 1)})
NEAR = (-1000, -100, -10, -8, -4, -1, 1, 4, 8, 10, 100, 1000)
RATES = (0, 1, 254, 255, 256, 300, 509, 510, 511)
TAGS_TO_TRY = (0, 1, 14, 15, 16, 17, 128, 249, 250, 251, 252, 253, 254, 255)
# of some words of a line: the first and the last value that has a code, and the step from one to the next
CODES = {
    "product": {7: (1990, 2245, 1)},
    "gamma": {1: (100, 354, 1)},
    "chroma": {k: (0, 1023, 1) for k in range(1, 9)},
    "white": {1: (1, 255, 1), 2: (0, 1023, 1), 3: (0, 1023, 1), 4: (100, 354, 1)},
    "standard": {1: (248, 2288, 8), 4: (60, 123, 1)},
    "detailed": {1: (10_000, 655_350_000, 10_000), **{k: (0, most, 1) for k, most in enumerate(
        (4095, 4095, 1023, 63, 1023, 63, 4095, 4095, 4095, 4095, 255, 255), 2)}},
    "range": {1: (0, 510, 1), 2: (0, 510, 1), 3: (0, 510_000, 1000), 4: (0, 510_000, 1000), 5: (0, 2_550_000_000, 10_000_000)},
}
SMALL = ("analog", "digital", "dpms", "detailed")  # lines with numbers below 7
SLOTS = (0, 1, 2, 3, 4, 5, 255, 256, 65_535, 65_536)
SIZES = ("none", "0 0", "0 10", "10 0", "10 10", "2550 2550", "2560 10", "10 2560", "15 10", "10 15", "ratio 0 0", "ratio 101 101", "ratio 100 100",
         *(f"ratio {number} 100" for number in (99, 101, 354, 355)), *(f"ratio 100 {number}" for number in (99, 101, 354, 355)))
INPUTS = ("analog 3 1 1 1 1 1", "analog 4 0 0 0 0 0", *(f"digital {words}" for words in (
    "0", "1", "undefined 15", "undefined 16", "6 0", "7 0", "16 15", "18 0", "8 16", "reserved 0", "0 0", "1 1")))
PAIRS = ("256 16 10 61", "256 1 1 61", "256 16 10 60", "264 1 1 61", "256 4 3 61", "256 1 1 62")  # the first two have the code of no pair
RATIOS = ("16 10", "1 1", "4 3", "5 4", "16 9", "10 16", "3 4", "8 5", "0 0")
COMMENTS = ("#", "# a comment", '#"', '# name "A', "#\t\x80\0\xff\r", "#version 1 3")


class Unfit(Exception):
    """The text has nothing of which this could be done."""


class Mangler:
    """Endless mangled texts, from some texts and a seed."""

    def __init__(self, texts, seed):
        self.dice = random.Random(seed)
        self.texts = [text.decode("latin-1") for text in texts]
        every = sorted({line for text in self.texts for line in text.split("\n")[:-1]})
        self.pool = {name: [*some] for name, some in itertools.groupby(every, name_of)}
        self.names = [*KINDS]
        self.weights = [*itertools.accumulate(1 if name in SELDOM else 25 for name in self.names)]

    def __iter__(self):
        return self

    def __next__(self):
        """The names of what was done, one to four, and the text."""
        lines, done = self.one_of(self.texts).split("\n"), []
        while not done or len(done) < 4 and self.below(5) == 0:
            name, = self.dice.choices(self.names, cum_weights=self.weights)
            try:
                KINDS[name](self, lines)
            except Unfit:
                continue
            lines = lines or [""]
            done.append(name)
        return done, "\n".join(lines).encode("latin-1")

    def below(self, number):
        return int(self.dice.random() * number)

    def one_of(self, some):
        if not some:
            raise Unfit
        return some[self.below(len(some))]

    def blanks(self):
        return "".join(self.one_of(" \t") for _ in range(1 + self.below(4)))

    def place(self, lines):
        """Where a line stands, not the end behind the last newline."""
        return self.one_of(range(end(lines)))

    def right(self, lines, names=RANKS):
        """The place of a line that has a form of one of these names, its words and its form; each name has the same chance."""
        places = {}
        for at, line in enumerate(lines):
            if name_of(line) in names:
                places.setdefault(name_of(line), []).append(at)
        at = self.one_of(places[self.one_of([*places])])
        words = words_of(lines[at])
        form = form_of(words, ORDER[RANKS[words[0]]][2])
        return at, words, form or self.one_of(())

    def group(self, name):
        """All names of lines of the same rank, and known lines of these names."""
        names = [other for other in RANKS if RANKS[other] == RANKS[name]]
        return names, [line for other in names for line in self.pool.get(other, [])]

    def behind(self, lines, name):
        """Where the first line stands that has to come behind lines of this name."""
        return self.one_of([at for at, line in enumerate(lines) if RANKS.get(name_of(line), -1) > RANKS[name]][:1])


def name_of(line):
    return line.split(" ")[0]


def end(lines):
    """Where a line can be added at the end, behind a newline."""
    return len(lines) - (lines[-1] == "")


# ---- what is done: each changes a list of lines in place, or is unfit before it has changed anything

def of_bytes(cut, new):
    """At some place so many bytes cut out, and something put in."""
    def done(m, lines):
        text, byte = "\n".join(lines), new(m)
        at = m.one_of(range(len(text) + 1 - cut))
        lines[:] = (text[:at] + byte + text[at + cut:]).split("\n")
    return done


def any_byte(m):
    return m.one_of(BYTES) if m.below(2) else chr(m.below(256))


def of_line(change):
    """One line changed, whatever it is."""
    def done(m, lines):
        at = m.place(lines)
        lines[at] = change(m, lines[at])
    return done


def of_words(change, names=RANKS):
    """One line changed that has a form: its words in place, or others that are given back."""
    def done(m, lines):
        at, words, _ = m.right(lines, names)
        lines[at] = " ".join(change(m, words) or words)
    return done


def of_kind(kinds, change, names=RANKS):
    """One word of a form changed, by what it is and by its kind."""
    def done(m, lines):
        at, words, form = m.right(lines, names)
        k = m.one_of([k for k, kind in enumerate(form) if kind in kinds])
        words[k] = str(change(m, words[k], form[k]))
        lines[at] = " ".join(words)
    return done


def of_numbers(change, names=RANKS):
    """One number changed, by what it is and by the most that it can be."""
    return of_kind(MOSTS, lambda m, word, kind: change(m, int(word), MOSTS[kind]), names)


def near(m, number, most):
    return min(most, max(0, number + m.one_of(NEAR)))


def telling(m, number, most):
    return m.one_of([other for other in TELLING if other <= most])


def of_texts(change):
    """One text changed: by what its quotes hold, with quotes again."""
    return of_kind("q", lambda m, word, kind: change(m, word[1:-1]), TAGS)


def with_part(*parts):
    """One of these put in somewhere between the bytes of a text, of which so many stay that it is not too long."""
    def done(m, within):
        bytes_of = re.findall(r"\\x..|.", within, re.DOTALL)[:12]
        bytes_of.insert(m.below(len(bytes_of) + 1), m.one_of(parts))
        return f'"{"".join(bytes_of)}"'
    return of_texts(done)


def so_many(m, count):
    """The bytes of a text, none of them 0x0a."""
    return '"' + "".join(m.one_of(PRINTED) if m.below(3) else f"\\x{m.one_of((*range(10), *range(11, 256))):02x}" for _ in range(count)) + '"'


def of_runs(change):
    return of_kind("x", lambda m, word, kind: change(m, word), ("maker", "undefined", "range"))


def added(where, line):
    """A line put in."""
    def done(m, lines):
        lines.insert(where(m, lines), line(m))
    return done


def first(m, lines):
    return 0


def between(m, lines):
    return m.place(lines)


def last(m, lines):
    return end(lines)


def comment(m):
    return m.one_of(COMMENTS)


def blank(m):
    return m.blanks() if m.below(2) else ""


def quote_within(m, words):
    k = m.below(len(words))
    cut = m.below(len(words[k]) + 1)
    words[k] = words[k][:cut] + m.one_of(('"', '""', '" "')) + words[k][cut:]


def exchanged(m, words):
    one, two = m.below(len(words)), m.below(len(words))
    words[one], words[two] = words[two], words[one]


def capitals(m, words):
    k = m.below(len(words))
    words[k] = words[k].swapcase() if m.below(2) else words[k].title()


def all_blanks(m, line):
    """In no quotes: the line stays what it was."""
    return re.sub('"[^"]*"?| ', lambda part: m.blanks() if part[0] == " " else part[0], line)


def line_dropped(m, lines):
    del lines[m.place(lines)]


def line_doubled(m, lines):
    at = m.place(lines)
    lines.insert(at, lines[at])


def lines_exchanged(m, lines):
    one, two = m.place(lines), m.place(lines)
    lines[one], lines[two] = lines[two], lines[one]


def neighbours_exchanged(m, lines):
    at = m.one_of(range(1, end(lines)))
    lines[at - 1:at + 1] = reversed(lines[at - 1:at + 1])


def line_added(m, lines):
    name = m.one_of([*RANKS])
    line, at = m.one_of(m.group(name)[1]), m.behind(lines, name)
    lines.insert(at, line)


def cut_short(m, lines):
    lines[m.place(lines):] = m.one_of(([""], [], ["", ""], [" "], ["\t", ""], ["#"], ["#", ""]))


def returns(m, lines):
    lines[:end(lines)] = [line + "\r" for line in lines[:end(lines)]]


def newline_missing(m, lines):
    m.one_of(range(lines[-1] == "" and len(lines) > 1))
    lines.pop()


def blanks_at_the_end(m, lines):
    m.one_of(range(lines[-1] == ""))
    lines[-1] = m.blanks()


def empty(m, lines):
    lines[:] = [""]


def nearly_empty(m, lines):
    lines[:] = m.one_of((["", ""], [" "], [" ", "\t", ""], ["#"], ["x"], ["\0"]))


def only_comments(m, lines):
    lines[:] = [*(comment(m) for _ in range(1 + m.below(4))), *m.one_of(([], [""], ["", ""], [" "]))]


def slot_of_another(m, lines):
    at, words, _ = m.right(lines, LISTED)
    other = m.right(lines, LISTED)[1][-1]
    lines[at] = " ".join([*words[:-1], other])


def slots_exchanged(m, lines):
    (one, words, _), (two, others, _) = m.right(lines, LISTED), m.right(lines, LISTED)
    lines[one], lines[two] = " ".join([*words[:-1], others[-1]]), " ".join([*others[:-1], words[-1]])


def slot_overfull(m, lines):
    """One pair or white point more than it has room for, or as many as that."""
    at, words, _ = m.right(lines, ("standard", "white"))
    have = sum(name_of(line) == words[0] and line.split(" ")[-1] == words[-1] for line in lines)
    lines[at:at] = [lines[at]] * (room(int(words[-1]), words[0]) + m.below(2) - have)


def filled(name, more):
    """As many lines of a name as there can be and so many more, the new ones behind the others."""
    def done(m, lines):
        names, known = m.group(name)
        at, have = m.behind(lines, name), sum(name_of(line) in names for line in lines)
        lines[at:at] = [m.one_of(known) for _ in range(ORDER[RANKS[name]][1] + more - have)]
    return done


def flags_changed(m, words):
    """In another order, one of them twice, or one of them missing."""
    numbers = words[1:]
    m.dice.shuffle(numbers)
    return ["established", *m.one_of((numbers, numbers[:1] * 2, sorted(numbers[1:], key=int)))]


def rates_changed(m, words):
    k, unit = m.one_of(((1, 1), (3, 1000)))
    words[k:k + 2] = [str(m.one_of(RATES) * unit + m.one_of((0, 0, 0, unit // 2))) for _ in range(2)]


def tag_changed(m, words):
    """And whether it is a maker's."""
    return [m.one_of(("maker", "undefined")), str(m.one_of(TAGS_TO_TRY)), *words[2:]]


def code_at_its_end(m, words):
    k, (first, last, step) = m.one_of([*CODES[words[0]].items()])
    words[k] = str(max(0, m.one_of((first - step, first, first + 1, last, last + 1, last + step))))


def blanking_at_its_end(m, words):
    """Porches and sync of a timing, of which the sum is the last that has a code, or above it."""
    k, ends = m.one_of(((4, 1023), (5, 63)))
    front, sync = m.below(ends + 1), m.below(ends + 1)
    words[k:k + 5:2] = map(str, (front, sync, m.one_of((4094, 4095, 4096)) - front - sync))


def padded(size):
    """Comments put in at one place, long ones or short ones, so that there are that many bytes."""
    def done(m, lines):
        at, lack = m.below(len(lines)), size(m) - len("\n".join(lines))
        length = m.one_of((1, 2, 80, 5000, lack) if lack > 0 else ())
        count, rest = divmod(lack, length + 1)
        lines[at:at] = ["#" * length] * count + ["#" * (rest - 1)] * (rest > 0)
    return done


def newlines_too_many(m, lines):
    """Behind 65,536 bytes or one less."""
    padded(lambda m: LONGEST - m.below(2))(m, lines)
    lines += [""] * (1 + m.below(3))


SELDOM = {
    "empty": empty,
    "nearly empty": nearly_empty,
    "only comments": only_comments,
    "65,535 bytes": padded(lambda m: LONGEST - 1),
    "65,536 bytes": padded(lambda m: LONGEST),
    "65,537 bytes": padded(lambda m: LONGEST + 1),
    "more bytes": padded(lambda m: LONGEST + 2 + m.below(20_000)),
    "newlines too many": newlines_too_many,
}
KINDS = {
    "byte changed": of_bytes(1, any_byte),
    "byte inserted": of_bytes(0, any_byte),
    "byte removed": of_bytes(1, lambda m: ""),
    "line dropped": line_dropped,
    "line doubled": line_doubled,
    "lines exchanged": lines_exchanged,
    "neighbours exchanged": neighbours_exchanged,
    "line of another": of_words(lambda m, words: [m.one_of(m.group(words[0])[1])]),
    "line of another added": line_added,
    "line behind the last": added(last, lambda m: m.one_of(("extensions 0", 'name "A" 2', "end", ".", '"', "\x1a"))),
    "cut short": cut_short,
    # numbers and words
    "number zero": of_numbers(lambda m, number, most: 0),
    "number most": of_numbers(lambda m, number, most: most),
    "number above most": of_numbers(lambda m, number, most: most + 1),
    "number of 33 bits": of_numbers(lambda m, number, most: 2 ** 32 + number * m.below(2)),
    "number of 65 bits": of_numbers(lambda m, number, most: 2 ** 64 + number * m.below(2)),
    "number without end": of_numbers(lambda m, number, most: m.one_of("123") + str(number) * m.one_of((3, 20, 5000))),
    "number with zeros": of_numbers(lambda m, number, most: m.one_of(("0", "00", "000000000000")) + str(number)),
    "number with sign": of_numbers(lambda m, number, most: m.one_of("+-") + str(number)),
    "number empty": of_numbers(lambda m, number, most: ""),
    "number near": of_numbers(near),
    "number telling": of_numbers(telling),
    "number any": of_numbers(lambda m, number, most: m.below(most + 1)),
    "number near, of an entry": of_numbers(near, LISTED),
    "number telling, of an entry": of_numbers(telling, LISTED),
    "number most, of an entry": of_numbers(lambda m, number, most: most, LISTED),
    "number small, any": of_kind("fts", lambda m, word, kind: m.below(MOSTS[kind] + 1), SMALL),
    "number small, above most": of_kind("fts", lambda m, word, kind: MOSTS[kind] + 1, SMALL),
    "encodings": of_kind("te", lambda m, word, kind: m.one_of(("e0", "e1", "e2", "e3", "e4", "e", "e00", "ee1", "E1", "1e", "0", "3")), ["dpms"]),
    "letter any": of_kind("L", lambda m, word, kind: m.one_of("ABMYZ0@[a1\xc0\xde") * m.one_of((1, 1, 1, 2)), ["product"]),
    "word too many": of_words(lambda m, words: words.insert(1 + m.below(len(words)), m.one_of((*WORDS, *words)))),
    "word too few": of_words(lambda m, words: [word for k, word in enumerate(words, -m.below(len(words))) if k]),
    "word another": of_words(lambda m, words: words.__setitem__(m.below(len(words)), m.one_of(WORDS))),
    "word in capitals": of_words(capitals),
    "words exchanged": of_words(exchanged),
    # quotes
    "escape short": with_part("\\x4", "\\x", "\\"),
    "escape of a letter": with_part("\\x41", "\\x20", "\\x7e", "\\x22", "\\x5c"),
    "escape in capitals": with_part("\\x4A", "\\xA4", "\\X41", "\\xFF"),
    "escape of other kind": with_part("\\n", "\\\\", "\\u0041", "\\101", "\\x4g", "\\x 1", '\\"'),
    "escape any": with_part(*(f"\\x{byte:02x}" for byte in range(256))),
    "escape of a newline": with_part("\\x0a"),
    "escape of a newline, the last of 13": of_texts(lambda m, within: '"ABCDEFGHIJKL\\x0a"'),
    "quotes within quotes": with_part('"', '""', '" "', '"A"'),
    "raw byte": with_part("\x80", "\x7f", "\x1f", "\0", "\xff", "\r", "\xa0"),
    "raw tab": with_part("\t"),
    "spaces in quotes": of_texts(lambda m, within: '"' + "".join(m.one_of("   AB") for _ in range(m.below(14))) + '"'),
    "text of 13 bytes": of_texts(lambda m, within: so_many(m, 13)),
    "text of 14 bytes": of_texts(lambda m, within: so_many(m, 14)),
    "text of no bytes": of_texts(lambda m, within: '""'),
    "quote not closed": of_texts(lambda m, within: '"' + within),
    "quote not opened": of_texts(lambda m, within: within + '"'),
    "quotes missing": of_texts(lambda m, within: within),
    "quote and more behind": of_texts(lambda m, within: f'"{within}"' + m.one_of('"A0\\')),
    "quote and more before": of_texts(lambda m, within: m.one_of("A0=") + f'"{within}"'),
    "quote within a word": of_words(quote_within),
    # runs
    "run odd": of_runs(lambda m, run: run[:-1] if m.below(2) else run + "0"),
    "run in capitals": of_runs(lambda m, run: run[:-2] + m.one_of(("0A", "F0", "AB"))),
    "run of 14 bytes": of_runs(lambda m, run: (run * 28)[:28]),
    "run of other length": of_runs(lambda m, run: (run * 13)[:2 + 2 * m.below(13)]),
    "run of other bytes": of_runs(lambda m, run: "".join(m.one_of("0123456789abcdef") for _ in run)),
    "run of other kind": of_runs(lambda m, run: m.one_of(("", run[:-1] + "g", "0x" + run, run[:2] + " " + run[2:], f'"{run}"', run + "\xb2\xb3"))),
    # spaces, comments, blank lines and ends
    "blanks between": of_line(lambda m, line: re.sub(" ", lambda _: m.blanks(), line)),
    "blanks between words": of_line(all_blanks),
    "blanks between all words": lambda m, lines: lines.__setitem__(slice(None), [all_blanks(m, line) for line in lines]),
    "blank before": of_line(lambda m, line: m.blanks() + line),
    "blank behind": of_line(lambda m, line: line + m.blanks()),
    "tab alone": of_line(lambda m, line: line.replace(" ", "\t")),
    "blank of another kind": of_line(lambda m, line: line.replace(" ", m.one_of("\r\v\f\0\xa0\x85,"), 1 + m.below(2))),
    "return": of_line(lambda m, line: line + "\r"),
    "return everywhere": returns,
    "return alone": added(between, lambda m: "\r"),
    "comment first": added(first, comment),
    "comment between": added(between, comment),
    "comment last": added(last, comment),
    "comment behind a space": added(between, lambda m: m.blanks() + comment(m)),
    "comment behind words": of_line(lambda m, line: line + m.one_of(("", " ", "\t")) + comment(m)),
    "line made comment": of_line(lambda m, line: "#" + line),
    "blank line first": added(first, blank),
    "blank line between": added(between, blank),
    "blank line last": added(last, blank),
    "blanks at the end": blanks_at_the_end,
    "newline missing": newline_missing,
    # slots, and how many lines there are
    "slot changed": of_words(lambda m, words: [*words[:-1], str(m.one_of(SLOTS))], LISTED),
    "slot of another": slot_of_another,
    "slots exchanged": slots_exchanged,
    "slot overfull": slot_overfull,
    **{f"{name}, one too many": filled(name, 1) for name in ("white", "standard", "detailed", "name")},
    **{f"{name}, as many as can be": filled(name, 0) for name in ("white", "standard", "detailed", "name")},
    # what a number alone does not reach
    "established, all 17": of_words(lambda m, words: ["established", *map(str, range(17))], ["established"]),
    "established, any 17": of_words(lambda m, words: ["established", *(str(m.below(20)) for _ in range(17))], ["established"]),
    "established, 18": of_words(lambda m, words: ["established", *map(str, range(18))], ["established"]),
    "established, others": of_words(flags_changed, ["established"]),
    "revision": of_words(lambda m, words: [*words[:2], str(m.one_of((0, 2, 3, 4, 5, 255)))], ["version"]),
    "size": of_words(lambda m, words: ["size", m.one_of(SIZES)], ["size"]),
    "input": of_words(lambda m, words: [m.one_of(INPUTS)], ("analog", "digital")),
    "pair": of_words(lambda m, words: ["standard", m.one_of(PAIRS), words[-1]], ["standard"]),
    "pair's ratio": of_words(lambda m, words: [*words[:2], m.one_of(RATIOS), *words[4:]], ["standard"]),
    "rates": of_words(rates_changed, ["range"]),
    "tag": of_words(tag_changed, ("maker", "undefined")),
    "kind of limits": of_kind("b", lambda m, word, kind: m.one_of((0, 1, 2, 3, 255)), ["range"]),
    "code": of_words(code_at_its_end, CODES),
    "blanking": of_words(blanking_at_its_end, ["detailed"]),
    **SELDOM,
}


# ---- what is counted

def answered(answer):
    """Which of ANSWERS one of tools/panel.py is."""
    if isinstance(answer, bytes):
        return "block"
    number, at = answer
    return str(number) if number != NO_BLOCK else "11 with a line" if at else "11 with 0"


def missing(done, answers):
    """What has to occur and did not, of the counts of names and of answers."""
    return [name for name in KINDS if not done[name]] + [answer for answer in ANSWERS if not answers[answer]]
