"""`why`: each worked row of docs/reference/HFSC.md, CBQ.md and QUEUE-RULES.md is printed."""

from worked import BURST, HALVES, LIMIT, LOANS, PACED, QUARTER, ROUNDS, SURPLUS, VOICE, picked, with_words


def test_voice_beside_data(played):
    one = played(VOICE, "50x1000@0 1x200@10000000:5004")
    head, by, words = one.sending(0)
    assert "of data" in head and "by realtime" in head and picked(by["data"], "eligible", "deadline") == ["0", "7000000"]
    head, by, words = one.sending(1_000_000)
    assert "by share" in head and picked(by["data"], "count", "line", "eligible") == ["8000000000000", "4000000000000", "2000000"]
    assert "not eligible: data before 2000000" in words and "the children of root: data, virtual time 7000000; no other" in words
    head, by, words = one.sending(2_000_000)
    assert "by realtime" in head and picked(by["data"], "count", "line") == ["8000000000000"] * 2
    head, by, words = one.sending(10_000_000)
    assert head.startswith("10000000: packet 51 of voice") and head.endswith("by realtime, to 10200000")
    assert picked(by["voice"], "eligible", "deadline") == ["10000000", "10400000"]
    assert picked(by["data"], "count", "line", "eligible", "deadline") == ["40000000000000"] * 2 + ["10000000", "17000000"]
    assert "the eligible heads: voice, deadline 10400000; second data, deadline 17000000, by 6600000" in words
    assert "voice opens at 10000000 with a count of 0" in one.told("--packet", 51)


def test_a_quarter_and_three_quarters(played):
    one = played(QUARTER, "3x1000@0:5004 6x1000@0")
    rows = [("a", 4000000, 0), ("b", 4000000, 1333334), ("b", 4000000, 2666667), ("b", 4000000, 4000000), ("a", 8000000, 4000000),
            ("b", 8000000, 5333334), ("b", 8000000, 6666667), ("b", 8000000, 8000000), ("a", 12000000, 8000000)]
    for millisecond, (name, of_a, of_b) in enumerate(rows):
        head, by, words = one.sending(millisecond * 10**6)
        assert f" of {name}, 1000 bytes" in head and "by share" in head and [by["a"]["after"], by["b"]["after"]] == [str(of_a), str(of_b)]
        assert ("equal: a stands earlier in the file" in words) == (millisecond in (0, 4))
    assert "b becomes active at virtual time 0, the middle of 0 and 0" in one.told("--packet", 4)
    assert "a becomes active at virtual time 0, the high mark of root" in one.told("--packet", 1)


def test_limits(played):
    one = played(LIMIT, "3x1000@0")
    for start in (4_000_000, 8_000_000):
        head, by, words = one.sending(start)
        assert by["a"]["limit"] == str(start) and f"waited from {start - 3_000_000} on: {start} is the least moment" in words
    assert one.told("--at", 2_000_000).startswith("2000000: nothing is decided: the link waits until 4000000")
    one = played([line.replace("ls 8M 0 8M", "sc 4M 0 4M") for line in LIMIT], "3x1000@0")
    for start, limit in ((2_000_000, 4_000_000), (4_000_000, 8_000_000)):
        head, by, words = one.sending(start)
        assert "by realtime" in head and picked(by["a"], "limit", "eligible") == [str(limit), str(start)]


def test_exercise_of_hfsc(played):
    one = played(SURPLUS, "8x1000@0:5004 4x1000@4000000")
    rows = [(4, "a", "16 16 6", "0 0 6"), (5, "b", "24 20 8", "0 4 6"), (6, "a", "24 24 8", "8 8 8"), (7, "b", "32 28 10", "8 12 8")]
    for millisecond, name, of_a, of_b in rows:
        head, by, words = one.sending(millisecond * 10**6)
        assert f" of {name}, " in head and "by realtime" in head
        for of, row in (("a", of_a), ("b", of_b)):
            count, line, deadline = map(int, row.split())
            assert picked(by[of], "count", "line", "deadline") == [str(count * 10**12), str(line * 10**12), str(deadline * 10**6)]
        assert ("not eligible: a before" in words) == (name == "b") and ("equal: a stands earlier" in words) == (name == "a")
    one = played(HALVES, "8x1000@0:5004 4x1000@4000000")
    assert "b becomes active at virtual time 8000000, the middle of 8000000 and 8000000" in one.told("--packet", 9)
    assert one.sending(4_000_000)[1]["a"]["after"] == "10000000"


def test_one_play_of_cbq(played):
    one = played(PACED, "5x1500@0")
    rows = [(12000000, 0, 1500000, None, 12000000), (12000000, 1500000, 3000000, -10500000, 1125000),
            (1125000, 3000000, 4500000, -10500000, -9410156), (-9410156, 24116089, 25616089, 9116089, 0), (0, 36116089, 37616089, 0, 0)]
    for before, start, end, idle, after in rows:
        head, by, words = one.sending(start)
        assert head.endswith(f"is sent by own, to {end}") and picked(by["a"], "average", "after") == [str(before), str(after)]
        assert by["a"].get("idle") == (None if idle is None else str(idle))
        assert (f"the average of a, {before}, is above 0" in words) == (before > 0)
    assert "a, -9410156, asks for an idle time of 9116089, and the packet leaves 9116089" in one.sending(24116089)[2]
    assert "nothing is decided: the link waits until 24116089" in one.told("--at", 5_000_000)
    one = played(with_words(PACED, 2, "borrow"), "5x1500@0")
    for start, after in ((4500000, -19616089), (6000000, -29503087)):
        head, by, words = one.sending(start)
        assert "by borrow" in head and by["a"]["after"] == str(after) and "root is the root, which is never held back" in words
    assert "borrow: a itself may not before 24116089; root lends" in one.sending(4500000)[2]


def test_rounds(played):
    one = played(ROUNDS, "3x1500@0 3x1500@0:5004")
    rows = [(0, "a", 2, 4), (1500000, "a", 2, 2), (3000000, "b", 2, 0), (4500000, "a", 2, 4)]
    for start, name, of_a, of_b in rows:
        head, by, words = one.sending(start)
        assert f" of {name}, " in head and picked(by["a"], "quantum", "rounds") == ["750", str(of_a)]
        assert picked(by["b"], "quantum", "rounds") == ["375", str(of_b)]
    assert "second b, rounds 4, by 2" in one.sending(0)[2] and "equal: the ring begins at a, which was sent last" in one.sending(1500000)[2]


def test_exercise_of_cbq(played):
    one = played(LOANS, "4x1000@0")
    head, by, words = one.sending(1_000_000)
    assert picked(by["a"], "average", "idle", "after") == ["32000000", "-31000000", "0"]
    assert picked(by["org"], "average", "idle", "after") == ["1024000", "-1000000", "-8000"]
    assert one.sending(33_000_000)[0].endswith("to 34000000") and one.sending(65_000_000)[1]["a"]["after"] == "0"
    one = played(with_words(LOANS, 3, "borrow"), "4x1000@0")
    head, by, words = one.sending(3_007_750)
    assert "a itself may not before 33000000; org lends" in words and "org, -8000, asks for an idle time of 7750, and the packet leaves 7750" in words
    assert by["org"]["after"] == "0" and by["a"]["after"] == "-29992250" and one.sending(5_007_750)[0].endswith("by borrow, to 6007750")
    one = played(with_words(with_words(LOANS, 3, "borrow"), 2, "borrow"), "4x1000@0")
    assert "root lends" in one.sending(2_000_000)[2] and "by borrow" in one.sending(3_000_000)[0]


def test_control_class_goes_first(played):
    lines = ["interface if0 bandwidth 10M cbq", "class cbq if0 root_class NULL priority 0 admission none pbandwidth 100",
             "class cbq if0 ctl_class root_class priority 6 admission none pbandwidth 4 control",
             "class cbq if0 def_class root_class priority 1 borrow pbandwidth 95 default"]
    head, by, words = played(lines, "1x1500@0:tcp 1x60@0:arp 1x98@0:icmp").sending(0)
    assert "packet 3 of ctl_class" in head and by["ctl_class"]["priority"] == "6" and "of lesser priority: def_class" in words


def test_exercise_for_red(played):
    one = played(BURST, "6x1000@0 2x1000@8000000")
    rows = [(0, 0, 0, 0, "is kept"), (1, 4096, 0, 4096, "is kept"), (2, 8192, 8, 12280, "is kept"), (3, 12288, 23, 24545, "is kept"),
            (4, 16384, 47, 40882, "is dropped full"), (4, 16384, 79, 57187, "is dropped full"), (0, 0, 4 * 111 + 110, 56633, "is kept"), (1, 4096, 110, 60619, "is kept")]
    for number, (waits, added, taken, average, verdict) in enumerate(rows, 1):
        head, by, words = one.offer(number)
        assert verdict in head and f": {waits} of at most 4 wait" in head
        assert picked(by["0"], "waits", "4096*q", "A/512", "average") == [str(waits), str(added), str(taken), str(average)]
    assert one.offer(7)[1]["0"]["steps"] == "5" and "the average 60619 is below the lower threshold 10485760 by 10425141" in one.offer(8)[2]


def test_exercise_for_rio(played):
    one = played([line.replace("red", "rio") for line in BURST], "2x1000@0:9000:0x28 2x1000@0:9000:0x38 1x1000@0:9000:0x28 1x1000@2500000:9000:0x28")
    rows = [(0, 0, 0, 0, 0), (0, 1, 1, 4096, 4096), (2, None, 2, 4096, 12280), (2, None, 3, 4096, 24545), (0, 2, 4, 12280, 40882), (0, 0, 1, 12257, 44899)]
    for number, (precedence, q0, q2, of_0, of_2) in enumerate(rows, 1):
        head, by, words = one.offer(number)
        assert ("is dropped full" in head) == (number == 5) and [by["0"]["average"], by["2"]["average"]] == [str(of_0), str(of_2)]
        assert [by["0"]["waits"], by["2"]["waits"]] == ["-" if q0 is None else str(q0), str(q2)]
    assert one.offer(6)[1]["0"]["steps"] == "1"


def test_words_of_red(played):
    lines = [line.replace("qlimit 4", "qlimit 200") for line in BURST]
    one = played(lines, "132x100@0")
    head, by, words = one.offer(99)
    assert "is dropped early" in head and "of the seed" in words and "less by" in words and "the count becomes 0" in words
    assert "is dropped forced" in one.offer(131)[0] and "is not below the upper threshold 31457280" in one.offer(131)[2]
    status, said, _fault = one.altqwork("why", one.fates, one.config, "--seed", 43)
    assert status == 1 and "\nit was decided by a word of seed 43; --seed names another\n" in said
    one = played(with_words([line.replace("red", "ecn") for line in lines], 2, ""), "99x100@0:9000:2")
    assert "is kept and marked" in one.offer(99)[0] and "its transport is capable" in one.offer(99)[2]
    one = played([line.replace("qlimit 200 red", "qlimit 300 rio") for line in lines], "140x100@0:9000:0x38 140x100@0:9000:0x28")
    assert "is dropped early" in one.offer(99)[0] and "is dropped forced" in one.offer(140)[0] and "is kept" in one.offer(280)[0]


def test_a_count_begins_at_one_below_zero(played):
    """Packets of precedence 0 move the average of 2 between its thresholds before one of 2 comes; with seed 9 a count from 0 on would drop 116."""
    lines = [line.replace("qlimit 4 red", "qlimit 300 rio") for line in BURST]
    one = played(lines, "105x100@0:9000:0x28 15x100@0:9000:0x38", 9)
    assert " - 0 * " in one.offer(106)[2] and "the count becomes 0" in one.offer(106)[2] and "is dropped early" in one.offer(118)[0]
