"""Chances that are the same each time: only `random()` of a seeded generator is used, of which Python promises
the same numbers in later versions."""

import random


class Draw:
    def __init__(self, seed):
        self.source = random.Random(seed)

    def below(self, count):
        return int(self.source.random() * count)

    def between(self, low, high):
        return low + self.below(high - low + 1)

    def choice(self, items):
        return items[self.below(len(items))]

    def sample(self, items, count):
        """So many different items, in any order."""
        items = list(items)
        for i in range(count):
            j = self.between(i, len(items) - 1)
            items[i], items[j] = items[j], items[i]
        return items[:count]

    def shuffled(self, items):
        return self.sample(items, len(items))
