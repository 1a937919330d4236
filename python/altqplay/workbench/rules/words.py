"""The words of a seed: those of the generator PCG XSH RR 64/32 (O'Neill 2014) on stream 54 (docs/reference/FORMATS.md, "The capture that
`make` writes"; docs/reference/MANUAL.md says that RED and RIO draw the first of the seed)."""

MULTIPLIER, STREAM = 6364136223846793005, 54
HALF, WHOLE = 2**32 - 1, 2**64 - 1


class Words:
    """The words of a seed, below 2^32 each, drawn in order. `drawn` is how many were."""

    def __init__(self, seed: int) -> None:
        self.drawn = 0
        self.state = (self.after(0) + seed) & WHOLE
        self.state = self.after(self.state)

    @staticmethod
    def after(state: int) -> int:
        """The state behind a state."""
        return (state * MULTIPLIER + (STREAM << 1 | 1)) & WHOLE

    def draw(self) -> int:
        """The next word."""
        state, self.state = self.state, self.after(self.state)
        self.drawn += 1
        mixed, turn = ((state >> 18 ^ state) >> 27) & HALF, state >> 59
        return (mixed >> turn | mixed << (-turn & 31)) & HALF
