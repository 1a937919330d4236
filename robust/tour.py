#!/usr/bin/env python3
"""Uses each function of the package altqplay once, as it is installed, and holds what each gives to numbers computed by hand.

robust/packages.py runs it with the wheel in a new venv. It takes no words, and needs numpy and pandas alone. The exit status is 0 where all went well.
"""

import os
import sys
import tempfile

import altqplay
import pandas
from altqplay import exercises, figures, senders

CONF = """interface if0 bandwidth 8M hfsc
class hfsc if0 root NULL pshare 100
class hfsc if0 a root [sc 4M 5 1M]
class hfsc if0 b root [sc 0 5 4M] qlimit 2 default
filter if0 a 0 5004 0 0 udp
interface if1 bandwidth 4M hfsc
"""
LINES = CONF.replace("[sc 4M 5 1M]", "ls 1M 0 1M").replace("[sc 0 5 4M] qlimit 2", "ls 1M 0 1M")
PACKETS = pandas.DataFrame({"time_ns": [0, 0, 0, 0, 10**7], "length": [1000] * 4 + [200], "port": [80] * 4 + [5004]})


def of_a_play():
    """What a play gives: two packets are sent, two find two waiting, and the last goes by real time."""
    played = altqplay.play(CONF, PACKETS, interface="if0")
    assert played.fates["end"].dropna().tolist() == [1_000_000, 2_000_000, 10_200_000] and str(played.fates["end"].dtype) == "Int64"
    assert played.stats["sent"].tolist()[-1] == 3 and len(played.departures) == 3
    assert played.delays().set_index("class").loc["b", "greatest"] == 2_000_000
    assert played.late().set_index("number").loc[5, "missed"] == -200_000
    assert "real time" in played.why(5) and len(played.decisions()) >= 5
    assert altqplay.compare(played, played) and altqplay.compare(played, played.fates)
    assert altqplay.verify(CONF, PACKETS, played.fates, interface="if0")
    wrong = played.fates.assign(end=played.fates["end"] + 1)
    assert altqplay.verify(CONF, PACKETS, wrong, interface="if0").failures[0].test == "ends"
    with tempfile.TemporaryDirectory() as folder:
        played.save(folder)
        assert altqplay.fates(os.path.join(folder, "fates.csv"))["number"].tolist() == played.fates["number"].tolist()
        assert len(altqplay.capture(os.path.join(folder, "departures.pcap"))) == 3


def of_commands():
    """The other commands of the program."""
    assert altqplay.check(CONF, "if0").fits
    assert len(altqplay.make(3, CONF, interface="if0").fates) == 3
    assert len(altqplay.shares(LINES, PACKETS, interface="if0")) == 1
    assert altqplay.chain(CONF, PACKETS, "if1", interface="if0").path["end"].tolist()[0] == 3_000_000
    assert altqplay.condition(CONF + "conditioner if0 b srtcm 8M 1000 0 1\n", PACKETS, interface="if0")["tos"].tolist()[:2] == [10 << 2, 14 << 2]
    assert altqplay.bound(CONF, PACKETS, interface="if0").set_index("class").loc["a", "bound"] == 1_400_000
    assert altqplay.least_curve(CONF, PACKETS, "a", 1_400_000, interface="if0").m2 == 1000
    try:
        altqplay.play(CONF.replace("8M", "9"), PACKETS, interface="if0")
        raise AssertionError("a rate of 9 bits per second was taken")
    except altqplay.Refused as fault:
        assert (fault.status, fault.line, fault.word) == (3, 1, 4)


def of_many_plays():
    """Sweeps and searches, figures, exercises and senders."""
    table = altqplay.sweep(CONF, PACKETS, {"b.qlimit": [1, 2, 50]}, interface="if0", metrics=["full"])
    assert table[table["class"] == "b"]["full"].tolist() == [3, 2, 0]
    assert altqplay.find(CONF, PACKETS, "b.qlimit=?", ["b drop=0"], interface="if0").least == "4"
    assert figures.hfsc_return().table.values.tolist()[0][1:3] == [100, 0]
    own = exercises.draw("run", "s1")
    assert own.mark(**own.solution())
    assert senders.run("interface if0 bandwidth 8M hfsc\n", [senders.Reno(), senders.Constant("1M")], 0.3).differs is None


def main():
    of_a_play()
    of_commands()
    of_many_plays()
    print(f"altqplay {altqplay.__version__} under Python {sys.version.split()[0]}, pandas {pandas.__version__}: all was used, {altqplay.program()}")
    return 0


if __name__ == "__main__":
    sys.exit(main())
