#!/usr/bin/env python3
"""Writes the example capture: 393 frames of Ethernet, IPv4 and UDP, the same bytes on every machine.

Takes one argument, the name of the capture to write. Without it the capture is example/out/arrivals.pcap,
beside this script.

The capture is of the classic form: little-endian, stamps in nanoseconds, link type 1 (Ethernet). Of each
frame the first 60 bytes are captured, as a recorder with a snap length of 60 does it, and the record tells
the whole length. All numbers are integers; there is no floating point and nothing is drawn at random.

The traffic, in milliseconds after the first frame (which is stamped with one second exactly):

    what       frames   length   from     apart
    voice         80      214       0     20 ms         a call: small frames at an even pace, to port 5004
    burst        150    1,000     200      1 ms         8 Mbit/s for 150 ms
    crowd         60      100     910      0            all at one moment
    late           3      100     910      see below    three that come while the crowd waits
    second       100    1,514   1,100      2 ms         6 Mbit/s for 200 ms

The three late frames come 1 ns, 266,667 ns and 266,668 ns after the crowd. On a link of 3 Mbit/s a frame of
100 bytes takes 266,666 and two thirds nanoseconds, so the second of them comes at the very moment at which the
first frame of the crowd has been sent, and the third one nanosecond later.

Other scripts use the functions of this one to make captures of their own.
"""

import os
import sys

sys.path.insert(0, os.path.join(os.path.dirname(os.path.dirname(os.path.abspath(__file__))), "python"))

from altqplay.workbench.bursts import DATA_PORT, NANOSECONDS, capture_head, captured_bytes, record  # noqa: E402

MILLISECOND = 10**6

FIRST = 1 * NANOSECONDS  # the stamp of the first frame
VOICE_PORT = 5004
CROWD = FIRST + 910 * MILLISECOND

# name, frames, length in bytes, first stamp, nanoseconds apart, port, type of service
TRAFFIC = [
    ("voice", 80, 214, FIRST, 20 * MILLISECOND, VOICE_PORT, 0xB8),
    ("burst", 150, 1000, FIRST + 200 * MILLISECOND, 1 * MILLISECOND, DATA_PORT, 0),
    ("crowd", 60, 100, CROWD, 0, DATA_PORT, 0),
    ("late", 1, 100, CROWD + 1, 0, DATA_PORT, 0),
    ("late", 1, 100, CROWD + 266_667, 0, DATA_PORT, 0),
    ("late", 1, 100, CROWD + 266_668, 0, DATA_PORT, 0),
    ("second", 100, 1514, FIRST + 1100 * MILLISECOND, 2 * MILLISECOND, DATA_PORT, 0),
]


def write_capture(name, frames):
    """Writes frames, each (stamp, length, port, type of service), as a capture, and returns their count."""
    count = 0
    with open(name, "wb") as file:
        file.write(capture_head())
        for count, (stamp, length, port, tos) in enumerate(frames, 1):
            file.write(record(stamp, captured_bytes(count, length, port, tos), length))
    return count


def example_frames():
    """The frames of the example in the order of their stamps; of equal stamps the earlier line of TRAFFIC is first."""
    frames = []
    for _name, count, length, first, apart, port, tos in TRAFFIC:
        frames += [(first + i * apart, length, port, tos) for i in range(count)]
    return sorted(frames, key=lambda frame: frame[0])


def main(words):
    here = os.path.dirname(os.path.abspath(__file__))
    if len(words) > 1 or (words and words[0].startswith("-")):
        print("usage: generate.py [CAPTURE]", file=sys.stderr)
        return 2
    name = words[0] if words else os.path.join(here, "out", "arrivals.pcap")
    os.makedirs(os.path.dirname(os.path.abspath(name)), exist_ok=True)
    count = write_capture(name, example_frames())
    print(f"{count} frames, {os.path.getsize(name)} bytes")
    return 0


if __name__ == "__main__":
    sys.exit(main(sys.argv[1:]))
