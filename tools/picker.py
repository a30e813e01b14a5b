"""Which timing of a block to show, from the listing of tools/standard_reader.py: those that can be shown are sorted. A timing is the numbers of its line
`detailed`; limits are a clock, pixels across and lines down."""
from standard_reader import Refused, line, reading

LIMITS = ("clock", "across", "down")
NO_TIMING = 14


def hindrances(timing, limits):
    """What keeps a timing from being shown, and by how much."""
    by = {word: number - limit for word, number, limit in zip(LIMITS, timing, limits)}
    by |= {"interlaced": timing[13], "no width": timing[1] == 0, "no height": timing[2] == 0}
    return {word: much for word, much in by.items() if much > 0}


class Pick:
    """What is to be answered for a block: a number, 0 where a timing is picked. `order` has the indexes of those that can be shown, the best first."""

    def __init__(self, block, limits):
        self.timings, self.place = [], []
        try:
            self.timings = [[*map(int, words.split()[1:])] for words in reading(block) if words.startswith("detailed ")]
        except Refused as refusal:
            self.number, *self.place = refusal.args
        self.hindered = [hindrances(timing, limits) for timing in self.timings]
        self.order = self.sorted([index for index, why in enumerate(self.hindered) if not why])
        if not self.place:
            self.number = 0 if self.order else NO_TIMING

    def area(self, index):
        return self.timings[index][1] * self.timings[index][2]

    def sorted(self, indexes):
        return sorted(indexes, key=lambda index: (-self.area(index), index))

    def numbers(self):
        """What C gets: neither size nor border nor slot."""
        return [number for index in self.order[:1] for number in self.timings[index][:9] + self.timings[index][13:18]]

    def accepts(self, indexes):
        """What the program `pick_check` prints."""
        if self.place:
            return self.lines()
        return line("accepts", *(int(self.order[:1] == [index]) for index in range(indexes))) + "\n"

    def lines(self):
        """What the program `pick` prints."""
        if self.number:
            return line("refuse", self.number, *self.place) + "\n"
        return line("pick", self.order[0]) + "\n" + line("detailed", *self.timings[self.order[0]]) + "\n"
