"""Choices that come out the same with every version of Python: of the library's generator only random() is used."""
import random


class Draw:
    def __init__(self, *seed):
        self.source = random.Random("/".join(map(str, seed)))

    def below(self, n):
        return int(self.source.random() * n)

    def chance(self, share):
        return self.source.random() < share

    def of(self, items):
        return items[self.below(len(items))]

    def pop(self, items):
        """Takes one out; the last one takes its place."""
        at = self.below(len(items))
        items[at], items[-1] = items[-1], items[at]
        return items.pop()
