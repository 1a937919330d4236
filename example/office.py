#!/usr/bin/env python3
"""Writes the capture of the office link: 620 frames of calls, a backup and web pages, the same bytes on every machine.

Takes one argument, the name of the capture to write. Without it the capture is example/out/office.pcap, beside this
script. Frames are those of generate.py; all numbers are integers and nothing is drawn at random.

The traffic, in milliseconds after the first frame (which is stamped with one second exactly):

    what      frames   length   from      apart    port
    call         100      214       0     20 ms    5004
    call         100      214       7     20 ms    5004
    backup       120    1,514     300      1 ms    8730    12 Mbit/s for 120 ms
    backup       120    1,514   1,200      1 ms    8730    the same again
    pages        180    1,000      50      see below, 9000

A page is 20 frames, 500,000 ns apart; there is one every 200 ms.
"""

import os
import sys

sys.dont_write_bytecode = True

from generate import DATA_PORT, FIRST, MILLISECOND, VOICE_PORT, write_capture  # noqa: E402

BACKUP_PORT = 8730
CALL_TOS = 0xB8

# frames, length in bytes, first stamp in milliseconds, nanoseconds apart, port, type of service
TRAFFIC = [
    (100, 214, 0, 20 * MILLISECOND, VOICE_PORT, CALL_TOS),
    (100, 214, 7, 20 * MILLISECOND, VOICE_PORT, CALL_TOS),
    (120, 1514, 300, 1 * MILLISECOND, BACKUP_PORT, 0),
    (120, 1514, 1200, 1 * MILLISECOND, BACKUP_PORT, 0),
] + [(20, 1000, 50 + 200 * page, MILLISECOND // 2, DATA_PORT, 0) for page in range(9)]


def office_frames():
    """The frames in the order of their stamps; of equal stamps the earlier line of TRAFFIC is first."""
    frames = []
    for count, length, first, apart, port, tos in TRAFFIC:
        frames += [(FIRST + first * MILLISECOND + i * apart, length, port, tos) for i in range(count)]
    return sorted(frames, key=lambda frame: frame[0])


def main(words):
    here = os.path.dirname(os.path.abspath(__file__))
    if len(words) > 1 or (words and words[0].startswith("-")):
        print("usage: office.py [CAPTURE]", file=sys.stderr)
        return 2
    name = words[0] if words else os.path.join(here, "out", "office.pcap")
    os.makedirs(os.path.dirname(os.path.abspath(name)), exist_ok=True)
    count = write_capture(name, office_frames())
    print(f"{count} frames, {os.path.getsize(name)} bytes")
    return 0


if __name__ == "__main__":
    sys.exit(main(sys.argv[1:]))
