#!/usr/bin/env python3
"""Writes a capture of a few bursts. Takes the name of the capture, and then the bursts in the order of the records, each as
COUNTxLENGTH@TIME[:WHAT[:TOS]]; python/altqplay/workbench/bursts.py says what that means. `altqwork try` plays them, too.
"""

import os
import sys

sys.dont_write_bytecode = True
sys.path.insert(0, os.path.join(os.path.dirname(os.path.dirname(os.path.abspath(__file__))), "python"))

from altqplay.workbench.bursts import capture  # noqa: E402
from altqplay.workbench.faults import Refused  # noqa: E402


def main(words):
    if len(words) < 2:
        print("usage: capture.py CAPTURE COUNTxLENGTH@TIME[:PORT|:tcp|:icmp|:arp[:TOS]] ..", file=sys.stderr)
        return 2
    try:
        text = capture(words[1:])
    except Refused as fault:
        print(f"capture.py: {fault}", file=sys.stderr)
        return 2
    with open(words[0], "wb") as file:
        file.write(text)
    return 0


if __name__ == "__main__":
    sys.exit(main(sys.argv[1:]))
