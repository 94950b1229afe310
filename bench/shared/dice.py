"""Numbers by which benches draw."""

import random

SEED = 7


class Dice:
    """Numbers that are the same each time and for every version of Python."""

    def __init__(self):
        self.random = random.Random(SEED).random

    def below(self, end):
        return int(self.random() * end)

    def pick(self, things):
        return things[self.below(len(things))]
