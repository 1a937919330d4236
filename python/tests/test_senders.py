"""Senders that react: what the model decides is what the program decides, windows by hand, and what senders must do to a queue."""

import altqplay
import pytest
from altqplay import senders
from altqplay.senders import Constant, Reno

pytestmark = pytest.mark.usefixtures("program")
PLAIN = "interface if0 bandwidth 8M hfsc\n"
TWO = """interface if0 bandwidth 8M {kind}
class {kind} if0 root NULL p{share} 100
class {kind} if0 a root p{share} 50 {more}
class {kind} if0 b root p{share} 50 default qlimit 20
filter if0 a 0 80 0 0 tcp
"""
CONFS = {"hfsc": TWO.format(kind="hfsc", share="share", more="qlimit 30"), "red": TWO.format(kind="hfsc", share="share", more="red"),
         "rio": TWO.format(kind="hfsc", share="share", more="rio qlimit 100"),
         "real time": TWO.format(kind="hfsc", share="share", more="rt 4M 10 1M ul 6M 0 6M"), "ecn": TWO.format(kind="cbq", share="bandwidth", more="borrow ecn"),
         "cbq": TWO.format(kind="cbq", share="bandwidth", more="maxburst 4")}


@pytest.mark.parametrize("name", CONFS)
def test_the_program_decides_as_the_model(name):
    loop = senders.run(CONFS[name], [Reno(port=80, ecn=name == "ecn"), Reno(port=81, rtt_ms=7, start_ms=100), Constant("1M", length=300, proto="tcp", port=80, tos=0x30)], 0.8, seed=5)
    assert loop.differs is None and len(loop.packets) > 300
    assert loop.fates[["number", "fate"]].values.tolist() == loop.played.fates[["number", "fate"]].values.tolist()
    assert altqplay.verify(CONFS[name], loop.packets, loop.fates.drop(columns="sender"))


def test_a_constant_sender_does_not_react():
    # 1,000 bytes at 16 Mbit/s are one each 500,000 ns, and the link takes 1,000,000: 50 wait and half is dropped
    loop = senders.run(PLAIN, [Constant("16M")], 1)
    assert loop.packets["time_ns"].tolist() == [500_000 * n for n in range(2000)] and loop.windows.empty
    assert int(loop.fates["end"].isna().sum()) == 2000 - (1000 + 50)
    late = senders.run(PLAIN, [Constant(1_000_000, start_ms=3, stop_ms=12)], 1)
    assert late.packets["time_ns"].tolist() == [3_000_000, 11_000_000]


def test_the_first_windows_by_hand():
    # 8 Gbit/s: 1,000 bytes take 1,000 ns. Of two packets at 0 the first is acknowledged 10 ms after its end, and lets two more go, and so on
    loop = senders.run("interface if0 bandwidth 8G hfsc\n", [Reno(rtt_ms=10, length=1000, initial=2, packets=14)], 1)
    times = loop.packets["time_ns"].tolist()
    assert times[:2] == [0, 0] and times[2:6] == [10_001_000, 10_001_000, 10_002_000, 10_002_000]
    assert len(times) == 14 and times[6] == 20_002_000 and loop.windows["window"].tolist() == [3.0 + n for n in range(14)]


def test_a_loss_halves_the_window_and_a_queue_of_the_path_keeps_the_link_busy():
    # the path holds 20 ms of 8 Mbit/s, 13 packets of 1,500 bytes, and so does the queue: a window that is halved fills the path still
    loop = senders.run("interface if0 bandwidth 8M hfsc\nclass hfsc if0 root NULL pshare 100\nclass hfsc if0 a root pshare 100 qlimit 14 default\n", [Reno(rtt_ms=20)], 20)
    halved = loop.windows[loop.windows["what"] == "loss"]
    assert len(halved) >= 3 and (halved["window"] == halved["threshold"] + 3).all()
    # the least window that loses a packet: 13 on the path, 14 that wait and one on the link, and the one that is lost
    assert halved[halved["time_ns"] > 5 * 10**9]["threshold"].isin([14, 14.5, 15]).all()
    rates = loop.rates(1000)["rate"].tolist()
    assert min(rates[5:20]) > 7_400_000


def test_equal_senders_share_and_a_mark_spares_drops():
    conf = "interface if0 bandwidth 8M hfsc\nclass hfsc if0 root NULL pshare 100\nclass hfsc if0 a root pshare 100 qlimit 200 {rule} default\n"
    pair = [Reno(rtt_ms=20, name="one"), Reno(rtt_ms=20, start_ms=7, name="other")]
    rates = senders.run(conf.format(rule="red"), pair, 15).rates(15_000)
    assert 0.6 < rates["rate"].iloc[0] / rates["rate"].iloc[1] < 1.6
    marked = senders.run(conf.format(rule="ecn"), [Reno(rtt_ms=20, ecn=True)], 10)
    assert (marked.windows["what"] == "mark").sum() >= 2 and marked.played.stats["early"].tolist()[-1] == 0


def test_a_lost_last_packet_runs_into_the_timeout():
    # five packets at once to a queue of two: one goes, two wait, two are lost; two acknowledgements of the same tell nothing yet
    conf = "interface if0 bandwidth 8M hfsc\nclass hfsc if0 root NULL pshare 100\nclass hfsc if0 a root pshare 100 qlimit 2 default\n"
    loop = senders.run(conf, [Reno(rtt_ms=20, initial=5, packets=5)], 3)
    assert "timeout" in loop.windows["what"].tolist()
    assert loop.fates.dropna()["number"].nunique() == loop.fates["end"].notna().sum() == 5


def test_a_run_is_the_same_again_and_what_is_refused():
    words = (CONFS["red"], [Reno(), Constant("1M", proto="tcp", port=81)], 0.3)
    assert senders.run(*words).fates.equals(senders.run(*words).fates)
    for conf, who, seconds, why in [(PLAIN, [], 1, "a sender"), (PLAIN, [Reno()], 0, "time above 0"), (PLAIN, [Constant("0")], 1, "rate above 0"), (PLAIN, [Reno(initial=0)], 1, "first window"),
                                    (CONFS["hfsc"] + "conditioner if0 a srtcm 8M 1000 0 1\n", [Reno()], 1, "conditioners")]:
        with pytest.raises(altqplay.Refused, match=why):
            senders.run(conf, who, seconds)
