"""Choices that a seed settles."""
import random

from operations import FORMATS, Instruction


class Chance:
    def __init__(self, seed):
        self.source = random.Random(seed)

    def below(self, n):
        """0 to n - 1. Of Python's choices only `random` is promised to be the same in every version."""
        return int(self.source.random() * n)

    def pick(self, items):
        return items[self.below(len(items))]

    def word(self):
        return self.below(2 ** 16) << 16 | self.below(2 ** 16)

    def instruction(self, operation):
        """Any legal instruction of this operation."""
        form = FORMATS[operation]
        registers = {field: self.below(32) for field in form.registers}
        return Instruction(operation, constant=self.pick(form.constants), **registers)
