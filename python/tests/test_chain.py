"""`chain`: two links and a policer by hand, wants over both, and the page."""

import pytest
from conftest import ETHERNET, classic, udp

from altqplay.workbench.chain import Policer, policer_of
from altqplay.workbench.faults import Refused

FIRST = "interface if0 bandwidth 8M hfsc\nclass hfsc if0 root NULL pshare 100\nclass hfsc if0 all root pshare 100 qlimit 3 default\n"
SECOND = "interface if1 bandwidth 4M hfsc\nclass hfsc if1 root NULL pshare 100\nclass hfsc if1 any root pshare 100 qlimit 1 default\n"


@pytest.fixture
def chained(altqwork, program, tmp_path):
    """Plays packets of 1,000 bytes at 0; answers status, lines with one space between words, and standard error."""
    def run(second, *words, count=4, first=FIRST):
        (tmp_path / "c.conf").write_text(first)
        (tmp_path / "n.conf").write_text(SECOND)
        (tmp_path / "a.pcap").write_bytes(classic(1, [(0, ETHERNET + b"\x08\x00" + udp(5004, 986), 1000)] * count))
        status, said, fault = altqwork("chain", "--config", tmp_path / "c.conf", "--next", second or tmp_path / "n.conf", *words, tmp_path / "a.pcap")
        return status, [" ".join(line.split()) for line in said.splitlines()], fault
    return run


def test_two_links(chained):
    """test_path.py, test_a_chain: the first holds three, the second one, which is packet 2 when packet 3 comes."""
    assert chained(None)[:2] == (0, ["times in ms packets dropped1 dropped2 sent least median 95 in 100 99 in 100 greatest", "all 4 1 1 2 3.000 3.000 5.000 5.000 5.000"])
    assert chained(None, "--ns")[1][1] == "all 4 1 1 2 3000000 3000000 5000000 5000000 5000000"


def test_wants_over_both(chained):
    """Of four packets the first link drops one, and the second another; what both send takes 3 and 5 ms, and the first takes up to 3."""
    status, lines, _fault = chained(None, "--want", "all drop<=1", "--want", "all delay<=3ms", "--want", "all drop<=2")
    assert status == 1 and lines[2:] == [
        "wants:", "all drop<=1", "first kept: 1 of 4 packets dropped", "both broken: 2 of 4 packets dropped",
        "all delay<=3ms", "first kept: 3 packets, the slowest 3.000 ms", "both broken: 1 of 2 packets, the slowest 5.000 ms",
        "all drop<=2", "first kept: 1 of 4 packets dropped", "both kept: 2 of 4 packets dropped"]
    assert chained(None, "--want", "all drop<=2")[0] == 0


def test_a_policer(chained):
    """Packets leave the first link at 1, 2 .. 5 ms. A bucket of 2,000 bytes that fills at 500 a ms has 2,000, 1,500, 1,000, 500 and 1,000 bytes
    then, and drops the fourth. A link of that rate takes 2 ms for each, and a queue of 2 is full when the fifth comes."""
    status, lines, _fault = chained("police 4M burst 2k", count=5, first=FIRST.replace("qlimit 3", "qlimit 5"))
    assert status == 0 and lines[-2:] == ["times in ms packets dropped1 dropped2 bucket sent least median 95 in 100 99 in 100 greatest",
                                          "all 5 0 1 1 4 1.000 2.000 4.000 4.000 4.000"]
    assert lines[0] == "the policer is played as a link of 4000000 bit/s with a queue of 2 packets, which holds 2000 bytes in packets of 1000"
    assert lines[1].endswith("It drops 1 packets (the column bucket), of which the queue drops 0; the queue drops 1 others")
    assert Policer(4_000_000, 2000).passes([10**6 * at for at in (1, 2, 3, 4, 5)], [1000] * 5).tolist() == [True, True, True, False, True]


def test_the_page(chained, tmp_path):
    assert chained(None, "--page", tmp_path / "p.html")[0] == 0
    text = (tmp_path / "p.html").read_text()
    assert "c.conf → n.conf" in text and "slowest 3.0 → 5.0 ms" in text and "1 → 2 dropped" in text and '<i class="first"></i>first<i class="last"></i>both' in text


@pytest.mark.parametrize("text, rate, burst", [("police 18M burst 60k", 18_000_000, 60_000), ("police 1.5Mbit burst 1514b", 1_500_000, 1514), ("police 64000 burst 1m", 64_000, 10**6)])
def test_words_of_a_policer(text, rate, burst):
    assert policer_of(text) == Policer(rate, burst) and policer_of("police.conf") is None


@pytest.mark.parametrize("text", ["police 18M", "police burst 60k", "police 0 burst 1k", "police 1M burst 0", "police 1.5 burst 1k", "police 1M burst 1.5k"])
def test_no_policer(text):
    with pytest.raises(Refused, match="--next"):
        policer_of(text)


def test_what_is_refused(chained):
    assert "name the first link by --config" in chained(None, "--fates", "f.csv")[2]
    assert "ends in .html" in chained(None, "--page", "page")[2]
    assert "2 interfaces (if0, if1)" in chained(None, first=FIRST + SECOND)[2]


def test_both_links_of_one_configuration(chained, tmp_path):
    words = ["--interface", "if0", "--next-interface", "if1"]
    assert chained(tmp_path / "c.conf", *words, first=FIRST + SECOND)[1][1] == "all 4 1 1 2 3.000 3.000 5.000 5.000 5.000"
