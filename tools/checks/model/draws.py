"""Numbers that follow from a seed."""


class Draws:
    """Numbers that follow from a seed, each below 32,768."""

    def __init__(self, seed):
        self.state = seed

    def draw(self):
        """The next number."""
        self.state = (self.state * 1103515245 + 12345) % 2 ** 31
        return self.state // 2 ** 16
