#!/usr/bin/env python3
"""Draws a picture of docs/teaching/COURSE.md from the rule itself, and prints the numbers that it draws.

Takes PICTURE, one of curves, virtual and average, and works from any directory. It reckons in whole numbers and
plays nothing, so the program is not needed. PICTURE.png comes to example/out/course by gnuplot; where that is not
installed the numbers are printed, and a line says that nothing was drawn. To vary a picture change the numbers at the
head of its function. The exit status is 0, and 2 for other arguments.
"""

import os
import shutil
import subprocess
import sys

HERE = os.path.dirname(os.path.abspath(__file__))
OUT = os.path.join(os.path.dirname(HERE), "out", "course")
MS, BYTE = 10**6, 8 * 10**9
STYLES = ["dashtype 1 linewidth 3 linecolor '#000000'", "dashtype 2 linewidth 2 linecolor '#c04000'",
          "dashtype 4 linewidth 2 linecolor '#0060b0'", "dashtype 3 linewidth 2 linecolor '#408000'"]
HEAD = """set terminal pngcairo size {width},420 font 'sans,10'
set output '{file}'
set border 3
set tics nomirror out
set grid linecolor '#e0e0e0' linetype 1
set key below reverse Left samplen 4
set multiplot layout 1,{panels}
"""


def block(name, rows):
    """Some rows as data of gnuplot."""
    return f"${name} << end\n" + "".join(" ".join(str(value) for value in row) + "\n" for row in rows) + "end\n"


def panel(title, across, beside, lines):
    """One panel: lines are (name, title, with)."""
    plots = ", ".join(f"${name} using 1:2 with {how} title '{text}'" for name, text, how in lines)
    return f"set title '{title}'\nset xlabel '{across}'\nset ylabel '{beside}'\nplot {plots}\n"


def draw(name, data, panels, width):
    """Runs gnuplot."""
    if shutil.which("gnuplot") is None:
        print("gnuplot was not found on this machine, so nothing was drawn")
        return
    os.makedirs(OUT, exist_ok=True)
    file = os.path.join(OUT, name + ".png")
    text = HEAD.format(file=file, panels=len(panels), width=width) + "".join(block(*one) for one in data) + "".join(panels)
    subprocess.run(["gnuplot"], input=text + "unset multiplot\n", text=True, check=True)
    print(f"drawn in example/out/course/{name}.png")


def amount(curve, time):
    """What a curve (m1, d, m2) gives in a time."""
    m1, d, m2 = curve
    return m1 * min(max(time, 0), d) + m2 * max(time - d, 0)


def first(curve, wanted):
    """The least time in which a curve gives an amount."""
    m1, d, m2 = curve
    return -(-wanted // m1) if wanted <= m1 * d else d + -(-(wanted - m1 * d) // m2)


def curves():
    """A falling and a rising curve, each with two openings: the deadline curve, and the eligible curve of the rising one."""
    cases = [("falling", (8_000_000, 4 * MS, 2_000_000), [(0, 0), (7 * MS, 3500 * BYTE)]),
             ("rising", (0, 4 * MS, 4_000_000), [(0, 0), (7 * MS, 1000 * BYTE)])]
    data, panels = [], []
    for name, curve, openings in cases:
        end, lines = 16 * MS, []
        for at, count in openings:
            deadline = max(a + first(curve, count + 1000 * BYTE - c) for a, c in openings if a <= at)
            print(f"{name}: opening at {at} with {count // BYTE} bytes: a head of 1000 bytes has the deadline {deadline}")
        moments = sorted({*range(0, end + 1, MS // 4), *(at - 1 for at, _ in openings if at)})
        for number, (at, count) in enumerate(openings):
            data.append((f"{name}{number}", [(t / MS, (count + amount(curve, t - at)) / BYTE) for t in moments if t >= at]))
            lines.append((f"{name}{number}", f"over opening {number + 1}", f"lines {STYLES[number + 1]}"))
        least = [(t / MS, min(c + amount(curve, t - a) for a, c in openings if a <= t) / BYTE) for t in moments]
        data.append((f"{name}D", least))
        lines.append((f"{name}D", "deadline curve" + (", eligible curve" if name == "falling" else ""), f"lines {STYLES[0]}"))
        if name == "rising":
            line = [(t / MS, min(c + curve[2] * (t - a) for a, c in openings if a <= t) / BYTE) for t in moments]
            data.append(("risingE", line))
            lines.append(("risingE", "eligible curve", f"lines {STYLES[3]}"))
        panels.append(panel(f"{name} curve, opened at 0 and 7 ms", "ms", "bytes by real time", lines))
    draw("curves", data, panels, 1000)


def virtual():
    """Virtual times of two leaves that share a link of 8 Mbit/s by lines, of which one comes late, empties and returns.

    A packet of 1,000 bytes takes 1 ms. `comes` has for each leaf when how many packets come.
    """
    slopes, comes = {"a": 2_000_000, "b": 6_000_000}, {"a": [(0, 8), (14, 3)], "b": [(2, 4), (10, 6)]}
    waits, total, begun, time = dict.fromkeys(slopes, 0), dict.fromkeys(slopes, 0), {}, dict.fromkeys(slopes, 0)
    rows, high = {name: [] for name in slopes}, 0
    for now in range(24):
        for name, bursts in comes.items():
            count = sum(packets for at, packets in bursts if at == now)
            if count and not waits[name]:
                active = [time[other] for other in slopes if waits[other]]
                begun[name] = (max(time[name], (min(active) + max(active)) // 2 if active else high), total[name])
                time[name] = begun[name][0]
            waits[name] += count
        for name in slopes:
            rows[name].append((now, time[name] / MS if waits[name] else "NaN"))
        high = max(high, *time.values())
        ready = [name for name in slopes if waits[name]]
        if ready:
            name = min(ready, key=lambda one: time[one])
            print(f"at {now} ms: {name} is sent; virtual times", *(f"{one} {time[one] if waits[one] else '-'}" for one in slopes))
            waits[name], total[name] = waits[name] - 1, total[name] + 1000 * BYTE
            time[name] = begun[name][0] + -(-(total[name] - begun[name][1]) // slopes[name])
            high = max(high, time[name])
    lines = [(name, f"{name}, {slope // 10**6} Mbit/s", f"steps {STYLES[number * 2]}") for number, (name, slope) in enumerate(slopes.items())]
    draw("virtual", list(rows.items()), [panel("virtual times while a leaf is active", "ms", "virtual time, ms", lines)], 700)


def average():
    """A CBQ class of 1 Mbit/s on 8 Mbit/s, maxburst 1, five packets of 1,500 bytes at 0: without and with a lender."""
    own, wire, cap = 12 * MS, 3 * MS // 2, 12 * MS
    data, lines = [], []
    for number, case in enumerate(("held back", "borrows")):
        value, end, rows = cap, wire, [(0, cap / MS), (wire / MS, cap / MS)]
        print(f"{case}: packet 1 ends at {end}, average {value}")
        for packet in range(2, 6):
            needed = 0 if value > 0 else -(-31 * abs(value) // 32)
            is_late = value <= 0 and wire < own + needed
            end += max(wire, own + needed) if is_late and case == "held back" else wire
            idle = (max(wire, own + needed) if is_late and case == "held back" else wire) - own
            value = min(cap, value - (abs(value) // 32 if value >= 0 else -(abs(value) // 32)) + idle)
            print(f"{case}: packet {packet} ends at {end}, average {value}")
            rows.append((end / MS, value / MS))
        data.append((f"case{number}", rows))
        lines.append((f"case{number}", case, f"linespoints pointtype {5 + 2 * number} {STYLES[number * 2]}"))
    draw("average", data, [panel("average of a CBQ class after each packet", "end of the packet, ms", "average, ms", lines)], 700)


PICTURES = {"curves": curves, "virtual": virtual, "average": average}


if __name__ == "__main__":
    if len(sys.argv) != 2 or sys.argv[1] not in PICTURES:
        print(f"usage: draw.py {'|'.join(PICTURES)}", file=sys.stderr)
        sys.exit(2)
    PICTURES[sys.argv[1]]()
