#!/usr/bin/env python3
"""Makes a figure of docs/teaching/FIGURES.md: its captures, its plays, its numbers and its picture.

    draw.py FIGURE [PARAMETER=VALUE ..]

FIGURE is one of hfsc-delay, hfsc-return, red-average, rio-drops and cbq-borrowing. python/altqplay/workbench/figure_plays.py has their
traffic, configurations and parameters, as `video='4M 20 2M'`. It works from any directory. What it makes lies in example/out/figures:
it prints the numbers, and draws FIGURE.png there with gnuplot; where that is not installed it says so and draws nothing. The exit
status is 0 where all that could be done was done, 1 where a play failed, and 2 for other arguments.
"""

import os
import subprocess
import sys

sys.dont_write_bytecode = True
sys.path.insert(0, os.path.dirname(os.path.dirname(os.path.abspath(__file__))))

from generate import write_capture  # noqa: E402
from gnuplot import COLOURS, DASHES, SHAPES, NoPicture, backlog, block, milliseconds, read_fates, written  # noqa: E402

from altqplay.workbench.faults import Refused  # noqa: E402
from altqplay.workbench.figure_numbers import (PACKET, agrees, bytes_until, earliest_deadline, frames, packets_until,  # noqa: E402
                                               percent_dropped, rates, red_averages, sent)
from altqplay.workbench.figure_plays import FIGURES, IN, LEAVES, MILLISECOND, SECOND, plays_of, rate_of  # noqa: E402

HERE = os.path.dirname(os.path.abspath(__file__))
OUT = os.path.join(os.path.dirname(HERE), "out", "figures")
PROGRAM = os.path.join(HERE, "..", "..", "bin", "altqplay")
HEAD = """\
set multiplot
set border 3
set tics nomirror out
set grid ytics linecolor '#e0e0e0' linetype 1
set key top left reverse Left samplen 3
"""
PANEL = """\
set lmargin at screen {left}
set rmargin at screen {right}
set bmargin at screen {bottom}
set tmargin at screen {top}
set title "{title}"
set xlabel "{below}"
set ylabel "{beside}"
set xrange [{across}]
set yrange [{up}]
{more}
plot {plots}
"""


class Failed(Exception):
    """A play did not end with status 0."""


def make(figure, words):
    """Writes the files of a figure, NAME.conf and NAME.pcap for each play of it, and returns the plays in order."""
    os.makedirs(OUT, exist_ok=True)
    plays = plays_of(figure, words)
    for play in plays:
        with open(os.path.join(OUT, play.name + ".conf"), "w", encoding="ascii") as file:
            file.write(play.configuration)
        write_capture(os.path.join(OUT, play.name + ".pcap"), play.frames)
    return plays


def deadlines(rows, plays):
    """The ends of both classes of hfsc-return, if the least deadline went first; their rates stand in the configuration."""
    lines = [line.split() for line in plays[0].configuration.splitlines()]
    return earliest_deadline(rows, {words[3]: rate_of(words[6]) for words in lines if words[0] == "class" and "sc" in words})


def played(name):
    """The fates of a play, which the program writes."""
    endings = {"config": ".conf", "arrivals": ".pcap", "departures": "-out.pcap", "fates": ".csv", "stats": "-stats.csv"}
    words = [f"--{option}={os.path.join(OUT, name + ending)}" for option, ending in endings.items()]
    done = subprocess.run([PROGRAM, "play", "--interface=if0", "--seed=42", *words], check=False)
    if done.returncode != 0:
        raise Failed(f"the play {name} ended with status {done.returncode}")
    return read_fates(os.path.join(OUT, name + ".csv"))


def panel(count, column, plots, **words):
    """One of some panels that stand side by side."""
    wide = 1 / count
    sides = {"left": column * wide + 0.075, "right": (column + 1) * wide - 0.02, "bottom": 0.16, "top": 0.9}
    return PANEL.format(**{**sides, "more": "", "beside": "", "below": "time, ms", "plots": ", ".join(plots), **words})


def drawn(data, panels, width=1000):
    """The commands for a picture of some panels, and its size."""
    return "".join([*data, HEAD, *panels, "unset multiplot\n"]), (width, 420)


def line(name, n, title):
    return f"${name} with lines linewidth 1.8 dashtype {DASHES[n]} linecolor '{COLOURS[n]}' title \"{title}\""


def points(name, n, title, every=1):
    return f"${name} every {every} with points pointtype {SHAPES[n]} pointsize 0.7 linecolor '{COLOURS[n]}' title \"{title}\""


def both(name, n, title):
    look = f"linewidth 1.5 dashtype {DASHES[n]} pointtype {SHAPES[n]} pointsize 0.7 linecolor '{COLOURS[n]}'"
    return f"${name} with linespoints {look} title \"{title}\""


def hfsc_delay(plays):
    """Numbers and picture: what a curve's first slope does to the delay, and not to the bandwidth."""
    text = [f"{'':<12}{'a frame takes, ns: least':>25}{'greatest':>10}{'bytes in 1 s: video':>21}{'ftp':>9}"]
    data, delays, totals = [], [], []
    for n, name in enumerate(play.name for play in plays):
        rows = played(name)
        took = frames(rows, "video")
        ends = [f"{min(t for _at, t in took):>25}{max(t for _at, t in took):>10}"]
        text.append("".join([f"{name:<12}", *ends, f"{bytes_until(rows, 'video', SECOND):>21}{bytes_until(rows, 'ftp', SECOND):>9}"]))
        data.append(block(f"took{n}", [f"{milliseconds(at)} {milliseconds(t)}" for at, t in took]))
        delays.append(points(f"took{n}", n, name.replace("-", " ")))
        for leaf in ("ftp", "video"):
            data.append(block(f"{leaf}{n}", [f"{ms} {bytes_until(rows, leaf, ms * MILLISECOND) / 1000}" for ms in range(0, 1001, 20)]))
    for k, leaf in enumerate(("ftp", "video")):
        totals += [line(f"{leaf}0", 3 * k, f"{leaf}, one slope"), points(f"{leaf}1", 1 + 2 * k, f"{leaf}, two slopes", 5)]
    beside = "ms to the end of its last packet"
    return text, drawn(data, [panel(2, 0, delays, title="Delay of each video frame", beside=beside, across="0:1000", up="0:45"),
                              panel(2, 1, totals, title="What each class was sent", beside="kB", across="0:1000", up="0:1400")])


def hfsc_return(plays):
    """Numbers and picture: a class that used what the other left is not held back when the other comes."""
    rows = played(plays[0].name)
    sides = {"played, HFSC": {name: [fate.end for fate in sent(rows, name)] for name in ("a", "b")},
             "reckoned, least deadline first": deadlines(rows, plays)}
    spans = [(0, 100), (100, 150), (150, 200)]
    text = [f"{'packets sent, ms':<32}" + "".join(f"{f'{begin}-{end}: a':>12}{'b':>5}" for begin, end in spans)]
    data, panels = [], []
    for n, (title, ends) in enumerate(sides.items()):
        until = {k: [packets_until(ends[k], ms * MILLISECOND) for ms in range(301)] for k in "ab"}
        counts = [[until[k][end] - until[k][begin] for k in "ab"] for begin, end in spans]
        text.append(f"{title:<32}" + "".join(f"{a:>12}{b:>5}" for a, b in counts))
        data += [block(f"{k}{n}", [f"{ms} {count}" for ms, count in enumerate(until[k])]) for k in "ab"]
        plots = [line(f"a{n}", 0, "class a, from 0 on"), line(f"b{n}", 1, "class b, from 100 ms on")]
        panels.append(panel(2, n, plots, title=title[0].upper() + title[1:], beside="packets sent", across="0:300", up="0:220"))
    return text, drawn(data, panels)


def red_numbers(found, drops):
    """What is said of RED's average and its drops."""
    top = max(found, key=lambda one: one[2])
    first = next(one for one in found if one[2] >= 5 * PACKET)
    return [f"packets {len(found)}, " + ", ".join(f"{kind} {len(own)}" for kind, own in drops.items()),
            f"most that wait: {max(one[1] for one in found)}",
            f"greatest average: {100 * top[2] // PACKET} hundredths of a packet, at {top[0]} ns",
            f"average first at 5 packets: {first[0]} ns; first early drop: {drops['early'][0][0]} ns",
            f"fates that the average does not allow: {sum(not agrees(one[2], one[3]) for one in found)}"]


def red_average(plays):
    """Numbers and picture: RED's average, the queue and the drops over time."""
    rows = played(plays[0].name)
    found = red_averages(rows)
    drops = {kind: [one for one in found if one[3] == kind] for kind in ("early", "forced", "full")}
    data = [block("queue", [f"{milliseconds(at)} {count}" for at, count in backlog(sent(rows))]),
            block("average", [f"{milliseconds(at)} {average / PACKET:.3f}" for at, _waiting, average, _fate in found])]
    plots = ["$queue with lines linewidth 1 linecolor '#999999' title 'packets that wait'",
             "$average with lines linewidth 2.5 linecolor '#000000' title \"RED's average\"",
             "5 with lines dashtype (6,4) linecolor '#0072b2' title 'thresholds'",
             "15 with lines dashtype (6,4) linecolor '#0072b2' notitle"]
    lanes = {kind: 36 + 4 * n for n, kind in enumerate(kind for kind, own in drops.items() if own)}
    for kind, lane in lanes.items():
        data.append(block(kind, [f"{milliseconds(one[0])} {lane}" for one in drops[kind]]))
        plots.append(f"${kind} using 1:($2-1):(0):(2) with vectors nohead linecolor '{COLOURS[1]}' notitle")
    names = ", ".join(f"'{kind} drops' {lane}" for kind, lane in lanes.items())
    more = f"set key top right horizontal reverse Left\nset ytics 0,5,30\nset ytics add ({names})"
    return red_numbers(found, drops), drawn(data, [panel(1, 0, plots, title="One queue with RED, four senders", beside="packets",
                                                         across="0:4000", up="0:48", left=0.15, more=more)])


def rio_drops(plays):
    """Numbers and picture: how many of a hundred packets are dropped, in profile and out of it, by RED and by RIO."""
    found = {}
    for play in plays:
        rule, load = play.name.split("-")
        inside = {n for n, frame in enumerate(play.frames, 1) if frame[3] == IN}
        found[rule, int(load)] = percent_dropped(played(play.name), inside)
    loads = sorted({load for _rule, load in found})
    text, data, panels = [f"{'load':<8}{'RED: in':>9}{'out':>7}{'RIO: in':>10}{'out':>7}"], [], []
    for load in loads:
        tenths = [found[rule, load][k] for rule in ("red", "rio") for k in (0, 1)]
        text.append(f"{load:<8}" + "".join(f"{tenth / 10:>{wide}.1f}" for tenth, wide in zip(tenths, (9, 7, 10, 7))))
    for n, rule in enumerate(("red", "rio")):
        data += [block(f"{rule}{k}", [f"{load} {found[rule, load][k] / 10}" for load in loads]) for k in (0, 1)]
        panels.append(panel(2, n, [both(f"{rule}0", 0, "in profile"), both(f"{rule}1", 1, "out of profile")], title=rule.upper(),
                            below="load, percent of the link", beside="dropped, percent", across="75:205", up="0:105",
                            more="set xtics 80,20,200"))
    return text, drawn(data, panels)


def cbq_borrowing(plays):
    """Numbers and picture: the rate of each class while others are silent, without borrowing and with it."""
    titles = ["No class may borrow", "Classes borrow from their agency", "Agencies borrow from the link too"]
    text = [f"{'kbit/s':<18}" + "".join(f"{f'{n * 500 + 100}-{n * 500 + 500} ms':>16}" for n in range(4))]
    data, panels = [], []
    for n, play in enumerate(plays):
        rows = played(play.name)
        for name in LEAVES:
            spans = [rates(rows, name, (500 * k + 100) * MILLISECOND, (500 * k + 500) * MILLISECOND) for k in range(4)]
            text.append(f"{play.name + ' ' + name:<18}" + "".join(f"{rate:>16}" for rate in spans))
            parts = {ms: rates(rows, name, ms * MILLISECOND, (ms + 100) * MILLISECOND) for ms in range(0, 2000, 100)}
            data.append(block(f"{name}_{n}", [f"{ms + 50} {rate / 1000}" for ms, rate in parts.items()]))
        panels.append(panel(3, n, [both(f"{name}_{n}", k, name) for k, name in enumerate(LEAVES)], title=titles[n],
                            beside="Mbit/s" if n == 0 else "", across="0:2000", up="0:7",
                            more="set xtics 0,500,2000\nset key top left horizontal reverse Left samplen 2"))
    return text, drawn(data, panels, 1100)


DRAWINGS = {"hfsc-delay": hfsc_delay, "hfsc-return": hfsc_return, "red-average": red_average,
            "rio-drops": rio_drops, "cbq-borrowing": cbq_borrowing}


def main(words):
    if not words or words[0] not in DRAWINGS:
        print(f"usage: draw.py FIGURE [PARAMETER=VALUE ..], FIGURE one of {', '.join(FIGURES)}", file=sys.stderr)
        return 2
    picture = os.path.relpath(os.path.join(OUT, words[0] + ".png"))
    try:
        text, (commands, size) = DRAWINGS[words[0]](make(words[0], words[1:]))
    except Refused as fault:
        print(f"draw.py: {fault}", file=sys.stderr)
        return 2
    except (Failed, NoPicture, OSError) as fault:
        print(f"draw.py: {fault}", file=sys.stderr)
        return 1
    print("\n".join(text), flush=True)
    try:
        written(picture, commands, size)
        print(f"drawn in {picture}")
    except NoPicture as fault:
        print(f"draw.py: {fault}")
    return 0


if __name__ == "__main__":
    sys.exit(main(sys.argv[1:]))
