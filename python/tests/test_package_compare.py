"""`altqplay.compare` and `altqplay.find`: what changes between two plays, and the value that keeps what is asked for."""

import pandas
import pytest

import altqplay

CONF = """interface if0 bandwidth 8M hfsc
class hfsc if0 root NULL pshare 100
class hfsc if0 a root pshare 50
class hfsc if0 b root pshare 50 qlimit 2 default
filter if0 a 0 5004 0 0 udp
"""
PACKETS = pandas.DataFrame({"time_ns": [0] * 5 + [500_000], "length": [1000] * 6, "port": [80] * 5 + [5004]})

pytestmark = pytest.mark.usefixtures("program")


def test_what_changes(tmp_path):
    first, second = altqplay.play(CONF, PACKETS), altqplay.play(CONF.replace("qlimit 2", "qlimit 4"), PACKETS)
    found = altqplay.compare(first, second)
    # two packets wait at 0 and three are dropped; then four may wait, of which the last two are new, and the one of a keeps its place
    changed = found.packets.set_index("number")
    assert not found and set(changed.index) == {3, 4} and changed["fate"].tolist() == ["full"] * 2 and changed["fate_second"].tolist() == ["share"] * 2
    assert found.first == 3 and found.classes.set_index("class").loc["b", ["packets", "dropped", "sent"]].tolist() == [5, 0, 2]
    assert altqplay.compare(first, first) and altqplay.compare(first, first.fates_file) and altqplay.compare(first, first.fates.sample(frac=1, random_state=1))
    with pytest.raises(altqplay.Refused, match="packet 6 stands in one play alone"):
        altqplay.compare(first, first.fates[first.fates["number"] < 6])
    with pytest.raises(altqplay.Refused, match="packet 6 has another arrival"):
        altqplay.compare(first, altqplay.play(CONF, PACKETS.replace(500_000, 400_000)))


def test_find():
    found = altqplay.find(CONF, PACKETS, "b.qlimit=?", ["b drop=0"])
    # five packets come at 0: none of them is on the link then, since arrivals come before the choice of their moment
    assert (found.least, found.greatest, found.fits, found.today) == ("5", "10000", None, False) and found.played["kept"].any()
    with pytest.raises(altqplay.Refused, match="no configuration has a class c"):
        altqplay.find(CONF, PACKETS, "b.qlimit=?", ["c drop=0"])
    none = altqplay.find(CONF, PACKETS, "b.qlimit=?", ["b delay<1ns"])
    assert none.least is None and none.greatest is None
