"""`why --story`: waits reckoned by hand, of each rule by which another packet goes first."""

import pytest
from worked import CBQ, HFSC, LIMIT, PACED, QUARTER, ROUNDS, TO_A, VOICE

from altqplay.workbench import why

HALVES = [*CBQ, "class cbq if0 a root exactbandwidth 4M priority 1 borrow", "class cbq if0 b root exactbandwidth 4M borrow default", TO_A]


@pytest.fixture
def story(played, monkeypatch):
    """The lines of a packet's story in a play; of many fates and of few they are the same."""
    def run(lines, bursts, number, *words):
        one = played(lines, bursts)
        found = []
        for long in (-1, 10**9):
            monkeypatch.setattr(why, "LONG", long)
            status, said, fault = one.altqwork("why", one.fates, one.config, "--story", "--packet", number, *words)
            assert (status, fault) == (0, "")
            found.append([" ".join(line.split()) for line in said.splitlines()[:-1]])
        assert found[0] == found[1]
        return found[0]
    return run


def test_by_share(story):
    """docs/HFSC.md, a quarter and three quarters: 1 of a, 4, 5 and 6 of b, then 2 of a."""
    assert story(QUARTER, "3x1000@0:5004 6x1000@0", 2) == [
        "packet 2 of a, 1000 bytes; moments are ms after the first arrival", "0.000 it comes: the link is free; 1 of a wait",
        "0.000 packet 1 of a, 1000 bytes, which came before it",
        "1.000 3 packets, 4 to 6, of b, 3000 bytes, by share: no head is eligible, and the virtual time of b is 0.000, of a 4.000",
        "4.000 it goes by share", "5.000 its last bit has left", "it took 5.000 ms, of which it waited 4.000 ms: 75 % b, 25 % its own class"]


def test_by_real_time(story):
    """docs/WHY.md, voice beside data: the packet on the link has 0.5 ms to go, and the call's deadline is first."""
    assert story(VOICE, "50x1000@0 1x200@9500000:5004", 51)[1:] == [
        "9.500 it comes: the link carries a packet of data until 10.000; 40 of data wait", "10.000 it goes by real time", "10.200 its last bit has left",
        "it took 0.700 ms, of which it waited 0.500 ms: 100 % data"]
    told = story(VOICE, "12x1000@0 1x200@10000000:5004", 12)
    assert "10.000 packet 13 of voice, 200 bytes, by real time: its head is due at 10.400, that of data is due at 17.000" in told
    assert told[-1] == "it took 12.200 ms, of which it waited 11.200 ms: 98 % its own class, 2 % voice"


def test_moments_are_those_of_the_capture(story):
    """The same, 3 s later, in nanoseconds."""
    assert story(QUARTER, "3x1000@3000000000:5004 6x1000@3000000000", 2, "--ns")[-3:] == [
        "4000000 it goes by share", "5000000 its last bit has left", "it took 5000000 ns, of which it waited 4000000 ns: 75 % b, 25 % its own class"]


def test_limits(story):
    """docs/HFSC.md: the limit of 2 Mbit/s opens at 4 ms. Where b may send, it goes first meanwhile."""
    assert story(LIMIT, "3x1000@0", 2)[-1] == "it took 5.000 ms, of which it waited 4.000 ms: 75 % a link that may not send, 25 % its own class"
    both = [*HFSC, "class hfsc if0 a root ls 6M 0 6M ul 2M 0 2M", "class hfsc if0 b root ls 2M 0 2M default", TO_A]
    assert "1.000 3 packets, 3 to 5, of b, 3000 bytes, by share: a is beyond a limit until 4.000" in story(both, "2x1000@0:5004 9x1000@0", 2)


def test_paced(story):
    """docs/CBQ.md, step by step: the third ends at 4.5 ms, the fourth may not start before 24.116 ms. Its three predecessors took 4.5 ms."""
    assert story(PACED, "5x1500@0", 4)[-1] == "it took 25.616 ms, of which it waited 24.116 ms: 81 % a link that may not send, 19 % its own class"


def test_rounds_and_priorities(story):
    told = story(ROUNDS, "3x1500@0 3x1500@0:5004", 3)
    assert any("rounds" in line for line in told)
    told = story(HALVES, "2x1000@0 2x1000@0:5004", 1)
    assert "0.000 2 packets, 3 to 4, of a, 2000 bytes, by its own rate: its priority is 1, that of b 0" in told
    assert told[-1] == "it took 3.000 ms, of which it waited 2.000 ms: 100 % a"


def test_a_drop(story):
    """The 51st of one moment finds 50 waiting."""
    assert story(QUARTER, "52x1000@0", 51)[1:] == ["0.000 it comes: the link is free; 50 of b wait", "0.000 it is dropped full: as many packets wait as the limit says, 50"]


def test_many_turns_are_cut(story):
    """a and b in turn, 60 turns before the last of b: 40 are told."""
    both = [*HFSC, "class hfsc if0 a root pshare 50 qlimit 99", "class hfsc if0 b root pshare 50 qlimit 99 default", TO_A]
    told = story(both, "40x1000@0 40x1000@0:5004", 40)
    assert len([line for line in told if "packet" in line]) == 41 and any(line.startswith("and ") and line.endswith(" turns more") for line in told)
    assert told[-1] == "it took 80.000 ms, of which it waited 79.000 ms: 51 % a, 49 % its own class"


def test_words(altqwork, played):
    one = played(QUARTER, "1x1000@0")
    for words in (["--story"], ["--story", "--packet", 1, "--at", 0]):
        assert altqwork("why", one.fates, one.config, *words)[2] == "altqwork: --story tells of packets: name one by --packet, without --at\n"
