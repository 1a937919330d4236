"""`path`: tables reckoned by hand, each refusal, and a chain of the program."""

import re
import subprocess

import pytest
from conftest import ETHERNET, classic, udp

HEAD = "times in ns packets dropped1 dropped2 sent least median 95 in 100 99 in 100 greatest"
FATES = "number,arrival,length,class,fate,start,end\n2,100,60,b,full,,\n1,100,60,a,share,100,110\n4,110,60,a,share,110,120\n5,110,60,c,realtime,120,130\n3,105,60,c,share,130,140\n"
PATH = "number,arrival,outcome,end\n1,100,sent,150\n2,100,dropped1,\n3,105,dropped2,\n4,110,sent,145\n5,110,dropped2,\n"


@pytest.fixture
def table(altqwork, tmp_path):
    """What `path` makes of the texts of a path and of fates: status, the words of standard output with one space between, and standard error."""
    def run(path, fates=FATES, *words):
        (tmp_path / "path.csv").write_text(path)
        (tmp_path / "fates.csv").write_text(fates)
        status, said, fault = altqwork("path", "--ns", *words, tmp_path / "path.csv", tmp_path / "fates.csv")
        return status, re.sub(" +", " ", said), fault.replace(f"{tmp_path}/", "")
    return run


def test_a_row_a_class(table):
    # the delays of class a are 50 and 35; b and c have none
    status, said, _fault = table(PATH)
    assert status == 0 and said.splitlines() == [HEAD, "a 2 0 0 2 35 35 50 50 50", "b 1 1 0 0 - - - - -", "c 2 0 2 0 - - - - -"]


def test_columns_stand_below_each_other(altqwork, tmp_path):
    (tmp_path / "path.csv").write_text(PATH)
    (tmp_path / "fates.csv").write_text(FATES)
    assert altqwork("path", tmp_path / "path.csv", tmp_path / "fates.csv")[1].splitlines()[:2] == [
        "times in ms  packets  dropped1  dropped2  sent  least  median  95 in 100  99 in 100  greatest",
        "a                  2         0         0     2  0.000   0.000      0.000      0.000     0.000"]


def test_rows_in_the_order_of_the_configuration(table, program, tmp_path):
    (tmp_path / "c.conf").write_text("interface if0 bandwidth 8M hfsc\nclass hfsc if0 root NULL pshare 100\nclass hfsc if0 c root pshare 50\nclass hfsc if0 b root pshare 50 default\n")
    assert [line[0] for line in table(PATH, FATES, "--config", tmp_path / "c.conf")[1].splitlines()[1:]] == ["c", "b", "a"]


@pytest.mark.parametrize("count, times", [
    (1, "10 10 10 10 10"),
    (3, "10 20 30 30 30"),
    (20, "10 100 190 200 200"),
    (21, "10 110 200 210 210"),
    (200, "10 1000 1900 1980 2000")])
def test_delays_are_ranked(table, count, times):
    # delays 10, 20 and so on, the greatest first: of n the ones at n/2, 95n/100 and 99n/100, rounded up
    numbers = range(1, count + 1)
    path = "number,arrival,outcome,end\n" + "".join(f"{n},5,sent,{5 + 10 * (count + 1 - n)}\n" for n in numbers)
    fates = "number,arrival,length,class,fate,start,end\n" + "".join(f"{n},5,60,a,own,5,6\n" for n in numbers)
    assert table(path, fates)[1].splitlines()[1] == f"a {count} 0 0 {count} {times}"


def test_greatest_numbers_stay_whole_and_apart(table):
    path = "number,arrival,outcome,end\n1,3,sent,4294967295999999999\n"
    fates = f"number,arrival,length,class,fate,start,end\n1,3,60,{'n' * 64},borrow,3,4294967295999999999\n"
    head, row = table(path, fates)[1].splitlines()
    assert head == HEAD and row == f"{'n' * 64} 1 0 0 1" + " 4294967295999999996" * 5


def test_no_packets(table):
    assert table(PATH[:27], FATES[:43]) == (0, HEAD + "\n", "")


@pytest.mark.parametrize("old, new, why", [
    ("outcome", "fate", "its first row is not number,arrival,outcome,end"),
    ("1,100,sent,150", "1,100,sent", "line 2 (row 1): 3 words, and not 4"),
    ("1,100,sent,150", "1,1e2,sent,150", "line 2 (row 1): arrival is a float, as pandas makes of a column with empty fields: '1e2'"),
    ("1,100,sent,150", "1,100,share,150", "line 2 (row 1): no outcome: 'share'"),
    ("3,105,dropped2,", "3,105,dropped2,150", "line 4 (row 3): a packet that was dropped has an end"),
    ("4,110,sent,145", "4,110,sent,", "line 5 (row 4): end is no whole number below 2^63: ''"),
    ("5,110,dropped2,\n", "5,110,dropped2,", "line 6 (row 5) is cut: no line feed ends it"),
    ("3,105,dropped2,", "2,100,dropped1,", "line 4 (row 3): packet 2 comes after packet 2: the numbers do not rise"),
    ("5,110,dropped2,", "3,105,dropped2,", "line 6 (row 5): packet 3 comes after packet 4: the numbers do not rise"),
    ("5,110,dropped2,", "6,110,dropped2,", "line 6 (row 5): packet 6 has no fate"),
    ("3,105,dropped2,", "3,106,dropped2,", "line 4 (row 3): packet 3 arrives at 106, and by its fate at 105"),
    ("3,105,dropped2,", "3,105,dropped1,", "line 4 (row 3): packet 3 is dropped1, and its fate is share"),
    ("2,100,dropped1,", "2,100,dropped2,", "line 3 (row 2): packet 2 is dropped2, and its fate is full"),
    ("2,100,dropped1,", "2,100,sent,150", "line 3 (row 2): packet 2 is sent, and its fate is full"),
    ("1,100,sent,150", "1,100,sent,109", "line 2 (row 1): packet 1 ends before it left the first link at 110"),
    ("5,110,dropped2,\n", "", "packet 5 has a fate and no row")])
def test_what_is_no_path_of_the_fates(table, old, new, why):
    assert table(PATH.replace(old, new)) == (2, "", f"altqwork: path.csv: {why}\n")


def test_a_chain(table, program, tmp_path):
    # Four packets of 1,000 bytes at 0. The first link takes 1,000,000 for each and holds three; the second takes 2,000,000 and
    # holds one, which is packet 2 from 2,000,000 to 3,000,000, when packet 3 comes.
    (tmp_path / "c.conf").write_text("interface if0 bandwidth 8M hfsc\nclass hfsc if0 root NULL pshare 100\nclass hfsc if0 all root pshare 100 qlimit 3 default\n"
                                     "interface if1 bandwidth 4M hfsc\nclass hfsc if1 root NULL pshare 100\nclass hfsc if1 any root pshare 100 qlimit 1 default\n")
    (tmp_path / "a.pcap").write_bytes(classic(1, [(0, ETHERNET + b"\x08\x00" + udp(5004, 986), 1000)] * 4))
    names = {"config": "c.conf", "arrivals": "a.pcap", "departures": "d.pcap", "fates": "f.csv", "stats": "s.csv", "departures2": "d2.pcap",
             "fates2": "f2.csv", "stats2": "s2.csv", "path": "p.csv"}
    words = [word for option, name in names.items() for word in (f"--{option}", name)]
    subprocess.run([program, "chain", "--interface", "if0", "--next", "if1", "--seed", "42", *words], cwd=tmp_path, check=True)
    said = table((tmp_path / "p.csv").read_text(), (tmp_path / "f.csv").read_text())
    assert said == (0, HEAD + "\nall 4 1 1 2 3000000 3000000 5000000 5000000 5000000\n", "")
