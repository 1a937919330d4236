"""The traffic and the configurations of the figures: docs/teaching/FIGURES.md says what each figure shows.

Stamps are whole nanoseconds, and nothing is drawn at random, so a figure is the same on every machine. Rates and curves are words of
a configuration, as `8M` and `6.6M 10 2M`; times that are given are milliseconds. It needs no library.
"""

from __future__ import annotations

from collections.abc import Sequence
from fractions import Fraction
from inspect import signature
from typing import Any, Callable, NamedTuple

from .faults import Refused

MILLISECOND = 10**6
SECOND = 1000 * MILLISECOND
PORTS = range(5001, 5009)  # of the classes, in their order; the last class also takes what no filter matches
IN, OUT = 0x28, 0x38  # types of service of AF11 and AF13: in profile and out of it
LINK = 8_000_000  # bits per second, at which 1,000 bytes take a millisecond
UNITS = {"K": 10**3, "M": 10**6, "G": 10**9}
AGENCIES = {"a": "4.8M", "b": "3.2M"}
LEAVES = {"a1": "3.2M", "a2": "1.6M", "b1": "2M", "b2": "1.2M"}
SILENT = {"a1": (1, 2), "a2": (2,)}  # the halves of a second, from 0, in which a leaf is silent

# A frame: its stamp, length, port and type of service. A class: its name, its parent and its options.
Frame = tuple[int, int, int, int]
Named = tuple[str, str, str]


class Play(NamedTuple):
    """A play of a figure: the name of its files, its configuration, and its frames."""

    name: str
    configuration: str
    frames: list[Frame]


def rate_of(word: str) -> int:
    """A rate in bits per second, as `6.6M`; `Refused` where it is none.

    >>> rate_of("6.6M"), rate_of("900")
    (6600000, 900)
    """
    try:
        rate = Fraction(word[:-1]) * UNITS[word[-1].upper()] if word[-1:].upper() in UNITS else Fraction(word)
    except (ValueError, ZeroDivisionError):
        raise Refused(f"{word}: no rate, as 6.6M") from None
    return int(rate)


def long_run(curve: str) -> str:
    """The rate of a curve in the long run, as a curve of one slope.

    >>> long_run("6.6M 10 2M")
    '2M 0 2M'
    """
    words = curve.split()
    if len(words) != 3:
        raise Refused(f"{curve}: a curve is m1 d m2, as 6.6M 10 2M, d in milliseconds")
    return f"{words[2]} 0 {words[2]}"


def stream(first: int, end: int, apart: int, port: int, length: int = 1000, tos: int = 0) -> list[Frame]:
    """Frames from one moment to another, the later one left out, in nanoseconds."""
    return [(moment, length, port, tos) for moment in range(first, end, apart)]


def merged(*streams: list[Frame]) -> list[Frame]:
    """Frames in the order of their stamps; of equal stamps those of the earlier stream come first."""
    return sorted((frame for part in streams for frame in part), key=lambda frame: frame[0])


def configuration(kind: str, rate: int, classes: Sequence[Named]) -> str:
    """The text for some classes, with a filter for each class that has no children."""
    text = [f"interface if0 bandwidth {rate} {kind}", f"class {kind} if0 root NULL p{'share' if kind == 'hfsc' else 'bandwidth'} 100"]
    parents = {parent for _name, parent, _options in classes}
    leaves = [name for name, _parent, _options in classes if name not in parents]
    text += [f"class {kind} if0 {name} {parent} {options}{' default' if name == leaves[-1] else ''}" for name, parent, options in classes]
    text += [f"filter if0 {name} 0 {port} 0 0 udp" for name, port in zip(leaves, PORTS)]
    return "\n".join(text) + "\n"


def hfsc_delay(video: str = "6.6M 10 2M", ftp: str = "0 6 8M", length: int = 1250) -> list[Play]:
    """Video frames beside a transfer of packets of a length: curves with one slope, and curves that give video its frames early."""
    pictures = merged(*[stream(i * 33 * MILLISECOND, i * 33 * MILLISECOND + 1, 1, PORTS[0]) * 8 for i in range(30)])
    frames = merged(pictures, stream(0, SECOND, MILLISECOND, PORTS[1], length))
    curves = {"one-slope": (long_run(video), long_run(ftp)), "two-slopes": (video, ftp)}
    return [Play(name, configuration("hfsc", 10_000_000, [("video", "root", f"sc {first}"), ("ftp", "root", f"sc {second}")]), frames)
            for name, (first, second) in curves.items()]


def hfsc_return(a: str = "4M", b: str = "4M") -> list[Play]:
    """Two classes with rates, of which the second comes after the first had all of the link for 100 ms."""
    first = stream(0, 1, 1, PORTS[0]) * 20 + stream(MILLISECOND, 300 * MILLISECOND, MILLISECOND, PORTS[0])
    second = stream(100 * MILLISECOND, 300 * MILLISECOND, MILLISECOND, PORTS[1])
    classes = [(name, "root", f"sc {rate} 0 {rate} qlimit 1000") for name, rate in (("a", a), ("b", b))]
    return [Play("returning", configuration("hfsc", LINK, classes), merged(first, second))]


def windows(first: int, least: int, most: int) -> list[Frame]:
    """Frames of a sender that spreads a window of them over each 50 ms, from a millisecond on.

    The window doubles from 1 up to `most`, and then goes on as a saw: from `least`, one more each time, up to `most`.
    """
    frames: list[Frame] = []
    window, is_saw = 1, False
    for start in range(first * MILLISECOND, 4 * SECOND, 50 * MILLISECOND):
        frames += stream(start, start + 50 * MILLISECOND, -(-50 * MILLISECOND // window), PORTS[0])
        is_saw = is_saw or window == most
        window = (least if window == most else window + 1) if is_saw else min(2 * window, most)
    return frames


def red_average(least: int = 9, most: int = 19, starts: Sequence[int] = (0, 203, 411, 617), qlimit: int = 100) -> list[Play]:
    """Senders that start at some milliseconds, into one queue with RED. Their windows go as a saw from `least` to `most`."""
    if not 0 < least <= most:
        raise Refused(f"windows from {least} to {most}: the least is above 0 and at most the greatest")
    senders = [windows(first, least, most) for first in starts]
    return [Play("red", configuration("hfsc", LINK, [("a", "root", f"ls 8M 0 8M qlimit {qlimit} red")]), merged(*senders))]


def rio_drops(loads: Sequence[int] = range(80, 210, 10), inside: int = 6, qlimit: int = 200) -> list[Play]:
    """Loads in percent of the link, so many tenths of each in profile, into RIO and into RED, for 4 s."""
    if not 0 < inside < 10 or not all(load > 0 for load in loads):
        raise Refused(f"{inside} tenths in profile, loads of {', '.join(map(str, loads))} percent: 1 to 9 tenths and loads above 0 are wanted")
    plays = []
    for load in loads:
        good = stream(0, 4 * SECOND, SECOND // (inside * load), PORTS[0], tos=IN)
        bad = stream(MILLISECOND // 3, 4 * SECOND, SECOND // ((10 - inside) * load), PORTS[0], tos=OUT)
        plays += [Play(f"{rule}-{load}", configuration("hfsc", LINK, [("a", "root", f"ls 8M 0 8M qlimit {qlimit} {rule}")]), merged(good, bad))
                  for rule in ("red", "rio")]
    return plays


def cbq_borrowing(a: str = AGENCIES["a"], b: str = AGENCIES["b"], **rates: str) -> list[Play]:
    """Two agencies of two classes each: none may borrow, each may from its agency, and agencies may from the link too. `a1`, `a2`,
    `b1` and `b2` are the rates of the classes, where they are not those of LEAVES."""
    unknown = [name for name in rates if name not in LEAVES]
    if unknown:
        raise Refused(f"no class {unknown[0]}: {', '.join(LEAVES)}")
    half, size = SECOND // 2, "maxburst 2 packetsize 1000"
    streams = [stream(n * half + i * 100_000, (n + 1) * half, 4 * MILLISECOND // 3, PORTS[i])
               for i, name in enumerate(LEAVES) for n in range(4) if n not in SILENT.get(name, ())]
    plays = []
    for name, leaf, agency in (("none", "", ""), ("agency", " borrow", ""), ("link", " borrow", " borrow")):
        classes = [(own, "root", f"exactbandwidth {rate} {size}{agency}") for own, rate in (("a", a), ("b", b))]
        classes += [(own, own[0], f"exactbandwidth {rate} {size} qlimit 10{leaf}") for own, rate in {**LEAVES, **rates}.items()]
        plays.append(Play(f"borrow-{name}", configuration("cbq", LINK, classes), merged(*streams)))
    return plays


FIGURES: dict[str, Callable[..., list[Play]]] = {"hfsc-delay": hfsc_delay, "hfsc-return": hfsc_return, "red-average": red_average,
           "rio-drops": rio_drops, "cbq-borrowing": cbq_borrowing}


def value_of(word: str, usual: object) -> object:
    """A parameter as it is written, by its usual value: text, a whole number, or several with commas between."""
    try:
        return word if isinstance(usual, str) else int(word) if isinstance(usual, int) else [int(one) for one in word.split(",")]
    except ValueError:
        raise Refused(f"{word}: whole numbers are wanted") from None


def plays_of(figure: str, words: Sequence[str]) -> list[Play]:
    """The plays of a figure with parameters that are written as NAME=VALUE. `Refused` names one that it has not.

    >>> [play.name for play in plays_of("rio-drops", ["loads=90,120"])]
    ['red-90', 'rio-90', 'red-120', 'rio-120']
    """
    make = FIGURES[figure]
    given: dict[str, Any] = {}
    known = {name: one.default for name, one in signature(make).parameters.items() if one.kind is one.POSITIONAL_OR_KEYWORD}
    known = {**known, **LEAVES} if make is cbq_borrowing else known
    for word in words:
        name, sign, value = word.partition("=")
        if not sign or name not in known:
            raise Refused(f"{word}: no parameter of {figure}: NAME=VALUE, of {', '.join(known)}")
        given[name] = value_of(value, known[name])
    return make(**given)
