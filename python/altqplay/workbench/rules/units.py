"""Units and what is reckoned with them. A slope of m bits per second gives m units in a nanosecond."""

BYTE = 8 * 10**9  # units


def ceil_div(number: int, divisor: int) -> int:
    """A quotient, rounded up."""
    return -(-number // divisor)


def time_of(length: int, rate: int) -> int:
    """The nanoseconds that some bytes take at a rate in bits per second, rounded up."""
    return ceil_div(BYTE * length, rate)
