"""`import` says last what has an effect and is not in the result, with status 3, and misreads nothing silently."""

import re

import pytest

from altqplay.workbench import services
from test_import import PF, TC, made, winner

HEAD = PF + "queue b bandwidth 1Mb\n"
CLASS = "tc class add dev eth0 parent 1: classid 1:1 hfsc sc rate 1mbit\n"
FLOW = (0x0A000001, 0xC0000201, 40000, 5060, 17, 0)


@pytest.mark.parametrize("line", [
    "pass out on em0 proto udp from any to any port 10000:20000 queue b", "pass out on em0 proto tcp all queue (a, b)", "pass out on em0 from (self) to any queue b",
    "pass out on wan proto udp all queue b", "pass out on em0 proto udp to any port > 1023 queue b", "pass out on em0 proto udp to ! 10.0.0.0/8 queue b",
    "pass out on em0 all queue b\npass out quick on em0 proto udp to any port 2000:9000", "pass out on em0 all probability 10% queue b",
    "pass out on em0 inet proto icmp all icmp-type echoreq queue b", "pass out on em0 proto tcp all no state flags S/SA queue b",
    "pass out on em0 tagged CALL queue b", "pass out on ! em0 all queue b", "pass out on em0 all queue elsewhere"])
def test_what_has_an_effect_is_said_last(altqwork, tmp_path, line):
    (tmp_path / "pf.conf").write_text(HEAD + line + "\n")
    number = len((HEAD + line).split("\n"))
    status, said, fault = altqwork("import", tmp_path / "pf.conf")
    assert status == 3 and re.search(rf"(1 word|2 words) of .*pf.conf \(lines? {number}\) ha(s|ve) an effect that the result does not have\n\Z", fault)
    assert f"# line {number} word" in said
    status, said, fault = altqwork("import", tmp_path / "pf.conf", "--to", tmp_path / "altq.conf")
    assert status == 3 and f"line {number} word" in said and fault.endswith("does not have\n") and (tmp_path / "altq.conf").exists()


@pytest.mark.parametrize("text", [HEAD + "pass out on em0 proto udp to any port 5060 queue b\n", HEAD + "pass out quick on em0 proto tcp flags S/SA keep state queue b\n",
                                  TC + CLASS + "tc filter add dev eth0 parent 1: protocol ip prio 1 u32 match ip dport 22 0xffff flowid 1:1\n"])
def test_what_is_all_there_is_status_0(altqwork, tmp_path, text):
    (tmp_path / "given").write_text(text)
    assert altqwork("import", tmp_path / "given")[::2] == (0, "")


@pytest.mark.parametrize("line", ["tc filter add dev eth0 parent 1: protocol ip prio 1 handle 10 fw flowid 1:1\n",
                                  "tc filter add dev eth0 parent 1: protocol ip prio 1 flower ip_proto udp dst_port 10000-20000 classid 1:1\n",
                                  "tc qdisc add dev eth0 parent 1:1 fq_codel\n"])
def test_words_of_tc_with_an_effect(altqwork, tmp_path, line):
    (tmp_path / "given").write_text(TC + CLASS + line)
    status, _said, fault = altqwork("import", tmp_path / "given")
    assert status == 3 and "1 word of " in fault and "(line 3) has an effect" in fault


def test_red_with_another_limit(altqwork, tmp_path):
    """pf.conf(5) names no thresholds; where the limit is pf's default nothing differs by it."""
    for limit, status in (("", 0), (" qlimit 50", 0), (" qlimit 100", 3)):
        (tmp_path / "pf.conf").write_text(PF + f"queue b bandwidth 1Mb{limit} cbq(red)\n")
        found, said, _fault = altqwork("import", tmp_path / "pf.conf")
        assert found == status and "# red, ecn, rio: " in said and ("b with qlimit 100" in said) == (status == 3)


@pytest.mark.parametrize("asked, is_b", [("port rsync", False), ("port sip", True), ("tos ef", False)])
def test_names_of_services_and_code_points(asked, is_b):
    conf, interfaces, _notes = made_with(f"pass out on em0 proto udp all {'to any ' * ('port' in asked)}{asked} queue b\n".replace("all to", "from any to"))
    assert (winner(interfaces[0], FLOW) == "b") == is_b
    assert ("873" in conf) == ("rsync" in asked) and ("tos 184 tosmask 252" in conf) == ("ef" in asked)


def made_with(line):
    from altqplay.workbench import importing
    from test_import import options_of

    return importing.conf_of(HEAD + line, options_of("text"))


def test_egress_is_the_interface_with_queues():
    """The rule itself becomes a filter, not its answers alone; with two interfaces with queues it is not told."""
    _conf, (interface,), notes = made_with("pass out on egress proto udp from any to any port 5060 queue b\n")
    assert winner(interface, FLOW) == "b" and "`on egress` is read as `on em0`" in "\n".join(notes.lines())
    conf, notes = made(HEAD + "altq on em1 cbq bandwidth 8Mb queue { c }\nqueue c cbq(default)\npass out on egress proto udp all queue b\n")
    assert "\nfilter" not in conf and "write the interface's name" in "\n".join(notes.lines())


@pytest.mark.parametrize("name, value", [("ef", 46), ("cs1", 8), ("af41", 34), ("af13", 14), ("va", 44), ("cs0", 0)])
def test_code_points(name, value):
    """RFC 2474, RFC 2597, RFC 3246, RFC 5865."""
    assert services.tos_of(name) == (value << 2, 0xFC)


def test_services_are_those_of_the_machine():
    """Of the names that both have the numbers are the same."""
    try:
        with open("/etc/services", encoding="utf-8") as file:
            lines = [line.split("#")[0].split() for line in file]
    except FileNotFoundError:
        pytest.skip("/etc/services is not here")
    theirs = {}
    for words in lines:
        for name in words[:1] + words[2:]:
            theirs.setdefault(name, set()).add(int(words[1].split("/")[0]))
    assert all(services.SERVICES[name] in theirs[name] for name in services.SERVICES if name in theirs)


def test_a_service_that_no_file_of_this_machine_has(monkeypatch):
    def none(name):
        raise OSError(name)

    monkeypatch.setattr(services.socket, "getservbyname", none)
    assert services.port_number("rsync") == 873 and services.port_number("nosuchservice") is None


@pytest.mark.parametrize("line, word", [
    ("include \"/etc/pf.queues\"", "include"), ("load anchor spam from \"/etc/pf.spam\"", "load"), ("set skip on { lo0, em0 }", "em0"),
    ("scrub on em0 all set-tos lowdelay", "set-tos"), ("anchor \"x\" in on em1 {\npass out on em0 all queue b\n}", "in"),
    ("table <t> persist file \"/etc/t\" { 10.0.0.1 }\npass out on em0 from <t> to any queue b", "<t>"), ("pass in on em1 all dnpipe 1", "dnpipe"),
    ("pass in on em1 all dnqueue (1, 2)", "dnqueue")])
def test_other_statements_that_decide(line, word):
    _conf, _interfaces, notes = made_with(line + "\n")
    assert [note.text for note in notes.all() if note.has_effect] == [word]


@pytest.mark.parametrize("line", ["set skip on lo0", "set limit states 402000", "scrub on em0 all fragment reassemble", "anchor \"openvpn/*\"",
                                  "table <sshguard> persist", "nat on em0 from 10.0.0.0/8 to any -> (em0)", "antispoof for em0", "no nat proto carp"])
def test_other_statements_that_do_not(line):
    _conf, _interfaces, notes = made_with(line + "\n")
    assert not [note for note in notes.all() if note.has_effect]
