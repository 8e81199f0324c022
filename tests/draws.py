"""Draws, for what a check changes at random."""


class Draws:
    """Numbers that look random, and are always the same of one seed."""

    def __init__(self, seed):
        self.state = seed

    def below(self, most):
        self.state = (self.state * 6364136223846793005 + 1442695040888963407) % 2**64
        return (self.state >> 33) % most

    def one(self, things):
        return things[self.below(len(things))]
