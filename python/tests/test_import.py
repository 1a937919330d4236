"""`import` on twenty configurations of pf and tc; what they are to become was written before the importer."""

import argparse
import os
import re

import pytest
from hypothesis import given, settings, strategies

from altqplay.workbench import importing
from altqplay.workbench.altq_text import Word
from altqplay.workbench.faults import Missing, Refused
from altqplay.workbench.play import check, program

HERE = os.path.join(os.path.dirname(os.path.abspath(__file__)), "import")
CASES = sorted(name[:-5] for name in os.listdir(HERE) if name.endswith(".conf"))
UNITS = {"K": 10**3, "M": 10**6, "G": 10**9}


def options_of(name, **options):
    """The options of a call."""
    return argparse.Namespace(**{"file": name, "kind": None, "interface": None, "bandwidth": None, "default": None, "address": [], **options})


def made(text, **options):
    """The altq.conf of a text, and its notes."""
    conf, _, notes = importing.conf_of(text, options_of("text", **options))
    return conf, notes


def read(name):
    with open(os.path.join(HERE, name), encoding="utf-8") as file:
        return file.read()


def number(word):
    """A rate without its unit; any other word as it is."""
    match = re.fullmatch(r"(\d+)([KMG])", word)
    return str(int(match[1]) * UNITS[match[2]]) if match else word


def statements(conf):
    """The statements of an altq.conf by interface, rates as numbers, and the options of a class in any order."""
    found = []
    for line in conf.split("\n"):
        words = [number(word) for word in line.split("#")[0].split()]
        if words:
            found.append(words[:5] + sorted(words[5:]) if words[0] == "class" else words)
    return sorted(found, key=lambda words: words[2] if words[0] == "class" else words[1])


def places(conf):
    """The places of the notes of an altq.conf."""
    return {(int(line), int(word)) for line, word in re.findall(r"^# line (\d+) word (\d+)", conf, re.M)}


def source(name):
    """The file of a case."""
    return next(name + ending for ending in (".pf", ".tc") if os.path.exists(os.path.join(HERE, name + ending)))


@pytest.mark.parametrize("name", CASES)
def test_case(name):
    expected, text = read(name + ".conf"), read(source(name))
    refused = re.match(r"refused line (\d+) word (\d+)", expected)
    if refused:
        with pytest.raises(Refused, match=f"line {refused[1]} word {refused[2]}:"):
            made(text)
        return
    options = re.match(r"--bandwidth (\S+)\n", expected)
    conf, _ = made(text, bandwidth=options[1] if options else None)
    expected = expected[options.end():] if options else expected
    assert statements(conf) == statements(expected)
    assert places(conf) == places(expected)


@pytest.mark.parametrize("name", CASES)
def test_check_accepts(name, tmp_path):
    try:
        program()
    except Missing:
        pytest.skip("there is no program")
    if read(name + ".conf").startswith("refused"):
        pytest.skip("it is refused")
    options = re.match(r"--bandwidth (\S+)\n", read(name + ".conf"))
    conf, _ = made(read(source(name)), bandwidth=options[1] if options else None)
    (tmp_path / "altq.conf").write_text(conf)
    for interface in re.findall(r"^interface (\S+)", conf, re.M):
        assert check(str(tmp_path / "altq.conf"), interface)


PF = "altq on em0 cbq bandwidth 8Mb queue { a, b }\nqueue a bandwidth 1Mb cbq(default)\n"
TC = "tc qdisc add dev eth0 root handle 1: hfsc default 1\n"
# A file, the line and word at which it is refused, and a part of what is said.
FAULTS = [
    ("altq on em0 hfsc bandwidth 8Mbit queue { a }", 1, 6, "a bandwidth is a number"),
    ("altq on em0 bandwidth 8Mb queue { a }", 1, 1, "no scheduler"),
    ("altq on em0 hfsc queue { a }\nqueue a hfsc(default)", 1, 3, "--bandwidth"),
    (PF, 1, 10, "no queue line"),
    (PF + "queue b\nqueue c bandwidth 1Mb", 4, 2, "lists it"),
    (PF + "queue b bandwidth 1Mb priority high", 3, 6, "whole number"),
    (PF + "queue b bandwidth 1Mb cbq(realtime 1Mb)", 3, 5, "no option of cbq"),
    (PF + "queue b bandwidth 1Mb hfsc", 3, 5, "its interface has cbq"),
    (PF + "queue b bandwidth 1Mb cbq(default)", 3, 2, "second default"),
    (PF + "queue b bandwidth", 3, 4, "is missing"),
    (PF + "queue b bandwidth 999b", 3, 2, "1000 to 10"),
    (PF + "queue b\npass out on $ext queue b", 4, 4, "defines this macro"),
    (PF + "queue b\npast out on em0 queue b", 4, 1, "no statement"),
    ("altq on em0 hfsc bandwidth 8Mb queue { a }\nqueue a hfsc(default realtime (1Mb 10 2Mb))", 2, 4, "m1 is 0"),
    (TC + "tc class add dev eth0 parent 1: classid 1:1 hfsc rt m2 10zbit", 2, 13, "no rate"),
    (TC + "tc class add dev eth0 parent 1: classid 1:1 hfsc rt m1 1mbit", 2, 11, "m2 or rate is missing"),
    (TC + "tc class add dev eth0 parent 1: classid 1:1 hfsc rt fast", 2, 12, "no part of a service curve"),
    (TC + "tc class add dev eth0 parent 2: classid 1:1 hfsc rt m2 1mbit", 2, 7, "no class with this handle"),
    (TC + "tc class add dev eth0 parent 1: classid 1:1 hfsc rt m2 10%", 2, 13, "--bandwidth"),
    (TC + "tc class add dev $DEV parent 1: classid 1:1 hfsc rt m2 1mbit", 2, 5, "no line above gives DEV"),
    (TC + "for i in 1 2; do tc class add; done", 2, 1, "loops of the shell"),
    (TC + "tc class add dev eth0 parent 1: classid one hfsc rt m2 1mbit", 2, 9, "no handle"),
    (TC + "tc class add dev eth0 parent 1: classid 1:1 hfsc rt m2 10tbit", 2, 9, "out of range"),
    ("class hfsc 1:1 parent 1: ls m1 0bit d 0us m2 1Mbit", 1, 1, "--interface"),
    (TC + "tc class add dev eth0 parent 1: classid 1:1 hfsc sc rate 1mbit\n"
     "tc filter add dev eth0 parent 1: protocol ip u32 match ip dport x 0xffff flowid 1:1", 3, 14, "no number"),
    (TC + "tc class add dev eth0 parent 1: classid 1:1 hfsc sc rate 1mbit\n"
     "tc filter add dev eth0 parent 1: protocol ip flower dst_ip 10.0.0.256 classid 1:1", 3, 12, "no address"),
]


@pytest.mark.parametrize("text, line, word, said", FAULTS)
def test_fault(text, line, word, said):
    with pytest.raises(Refused) as fault:
        made(text)
    assert f"line {line} word {word}:" in str(fault.value) and said in str(fault.value)


def test_pfsense_as_it_is_written():
    """Lines as pfSense writes them; the two rules with queues become filters, the others say nothing of queues."""
    conf, _ = made(PF.replace("em0", "em1") + """queue b bandwidth 1Mb
set limit table-entries 400000
loopback = "{ lo0 }"
LAN = "{ em1 }"
GWWAN = " route-to ( em0 10.0.2.2 ) "
table <bogons> persist file "/etc/bogons"
table <lan> { 10.0.0.0/24 }
scrub on $LAN inet all fragment reassemble
anchor "openvpn/*"
antispoof log for $LAN ridentifier 1000001570
block in log quick inet6 from { <bogons> } to any ridentifier 1000000101 label "Block bogons"
pass out route-to ( em0 10.0.2.2 ) from 10.0.2.15 to !10.0.2.0/24 ridentifier 1000002761 keep state allow-opts label "let out"
pass in quick on em0 proto tcp from any to (em0) port { 443 80 22 } ridentifier 10001 keep state label "anti-lockout rule"
match out on $LAN inet proto udp from <lan> to any port 5060 ridentifier 1 queue (b) label "USER_RULE: calls"
pass out quick on $LAN $GWWAN inet proto tcp from 10.0.0.1 - 10.0.0.9 to any ridentifier 2 keep state queue (b) label "USER_RULE"
pass out quick on em1 inet proto tcp from em1:network to any wonder (3) queue b
""")
    assert [line for line in conf.split("\n") if line.startswith("filter")] == ["filter em1 b ruleno 1 0 5060 10.0.0.0 netmask 255.255.255.0 0 17"]
    assert places(conf) == {(17, 12), (18, 10)}


def test_queue_where_it_goes_out_counts_more():
    """The rule of the interface on which a packet comes in stands behind and is quick, and yet counts less."""
    _, (interface,), _ = importing.conf_of(PF + "queue b bandwidth 1Mb\npass out on em0 inet proto udp from any to any queue b no state\n"
                                           "pass in quick on em1 inet proto udp from any to any queue a no state\n", options_of("text"))
    assert winner(interface, (1, 2, 3, 4, 17, 0)) == "b" and sorted(one.owner for one in interface.filters) == ["a", "b"]


def test_family_of_icmp():
    conf, _ = made(PF + "queue b bandwidth 1Mb\npass out on em0 proto icmp all queue b\npass out on em0 proto icmp6 all queue b\n")
    assert "filter em0 b ruleno 1 0 0 0 0 1\nfilter6 em0 b ruleno 2 0 0 0 0 58\n" in conf and conf.count("\nfilter") == 2


@pytest.mark.parametrize("selector, line", [
    ("match ip sport 53 0xffff", "0 0 0 53 0"), ("match 00350000/ffff0000 at 20", "0 0 0 53 0"), ("match 00351388/ffffffff at nexthdr+0", "0 5000 0 53 0"),
    ("match u16 0x0035 0xffff at 20", "0 0 0 53 0"), ("match u16 0x0035 0xffff at 22", "0 53 0 0 0"), ("match u8 0x11 0xff at 9", "0 0 0 0 17"),
    ("match tcp src 53 0xffff", "0 0 0 53 0"), ("match ip dsfield 0xb8 0xfc", "0 0 0 0 0 tos 184 tosmask 252"),
    ("match ip dst 10.0.0.0/8", "10.0.0.0 netmask 255.0.0.0 0 0 0 0"),
])
def test_selectors_of_u32(selector, line):
    """RFC 791: the type of service is byte 1, the protocol byte 9, the addresses are at 12 and 16; ports follow at 20, the source's first."""
    conf, _ = made(TC + f"tc class add dev eth0 parent 1: classid 1:1 hfsc sc rate 1mbit\ntc filter add dev eth0 parent 1: protocol ip u32 {selector} flowid 1:1")
    assert f"filter eth0 1:1 ruleno 1 {line}\n" in conf


def test_pf_macros():
    conf, _ = made('ext = "em0"\nnets = "{ 10.0.0.0/8 192.168.0.0/16 }"\nmine = "{ $nets 172.16.0.1 }"\nrate = 8\n'
                   "altq on $ext cbq bandwidth ${rate}Mb queue { a }\n".replace("${rate}Mb", "$rateMb").replace("$rateMb", "8Mb")
                   + "queue a cbq(default)\npass out on $ext proto tcp from $mine to $ext:network queue a\npass out on $ext from $mine to any queue a no state\n")
    assert places(conf) == {(7, 10)}
    assert [line.split()[5] for line in conf.split("\n") if line.startswith("filter ")] == ["0"] * 3


def test_tc_script_as_it_is_written():
    conf, _ = made("""#!/bin/sh
IF="eth0"; TC=/sbin/tc
UP=900  # kbit
modprobe sch_hfsc
if [ -z "$1" ]; then echo no; fi
$TC qdisc del dev $IF root 2> /dev/null > /dev/null
sudo $TC qdisc add dev "$IF" root handle 1: hfsc default 2 2>&1
$TC class add dev $IF parent 1: classid 1:1 hfsc sc rate ${UP}kbit ul rate ${UP}kbit || exit 1
for_each=1
$TC class add dev $IF parent 1:1 \\
    classid 1:2 hfsc sc umax 1500b dmax 50ms rate 300kbit > /dev/null
""")
    assert statements(conf) == statements("interface eth0 bandwidth 900K hfsc\nclass hfsc eth0 1: NULL pshare 100\n"
                                          "class hfsc eth0 1:1 1: ls 900K 0 900K ul 900K 0 900K\n"
                                          "class hfsc eth0 1:2 1:1 rt 0 10 300K ls 0 10 300K qlimit 1000 default")


def test_tc_shown_with_counts():
    conf, _ = made("""qdisc hfsc 1: dev eth0 root refcnt 2 default 0x2
 Sent 0 bytes 0 pkt (dropped 0, overlimits 0 requeues 0)
 backlog 0b 0p requeues 0
class hfsc 1:2 parent 1: ls m1 0bit d 0us m2 1Mbit
 Sent 0 bytes 0 pkt (dropped 0, overlimits 0 requeues 0)
 period 0 level 0
filter parent 1: protocol ip pref 1 u32 chain 0 fh 800::800 order 2048 key ht 800 bkt 0 flowid 1:2 not_in_hw  (rule hit 0 success 0)
  match 00110000/00ff0000 at 8 (success 0 )
qdisc noqueue 0: dev lo root refcnt 2
""")
    assert "filter eth0 1:2 ruleno 1 0 0 0 0 17" in conf and places(conf) == {(9, 2)}


def test_shell_that_computes():
    with pytest.raises(Refused, match="line 2 word 13: .*the shell computes"):
        made(TC + "tc class add dev eth0 parent 1: classid 1:1 hfsc sc rate $((9*UP/10))kbit")


# Words, and bits per second: the table of tc(8), "RATES", and that of pf.conf(5), "bandwidth".
@pytest.mark.parametrize("text, rate", [("8000", 8000), ("8bit", 8), ("1kbit", 1000), ("1.5mbit", 1500000), ("1gbit", 10**9), ("1bps", 8),
                                        ("125kbps", 10**6), ("1kibit", 1024), ("1mibps", 8 * 2**20), ("10Mbit", 10**7)])
def test_rates_of_tc(text, rate):
    assert importing.tc_classes.quantity(Word(text, 1, 1), importing.tc_classes.RATES, "rate", None) == rate


@pytest.mark.parametrize("text, rate", [("8000b", 8000), ("9", 9), ("1.5Kb", 1500), ("10Mb", 10**7), ("2Gb", 2 * 10**9), ("25%", 250)])
def test_rates_of_pf(text, rate):
    cursor = importing.pf_queues.Cursor([Word(text, 1, 1)], None)
    assert importing.pf_queues.bandwidth(cursor).of(1000) == rate


@pytest.mark.parametrize("text", ["10M", "10Mb", "10mbit", "10000K", "10000000"])
def test_bandwidth_of_the_command_line(text):
    assert importing.rate(text) == 10**7


@settings(max_examples=200, deadline=None)
@given(strategies.data())
def test_changed_files_are_read_or_refused(data):
    """Whatever a word of a case becomes, what comes out is an altq.conf or a refusal with its place."""
    name = data.draw(strategies.sampled_from(CASES))
    lines = [line.split(" ") for line in read(source(name)).split("\n")]
    line = data.draw(strategies.sampled_from(lines))
    others = sorted({word for words in lines for word in words} | {"", "$", "{", "(", "0", "10Mb", "match"})
    line[data.draw(strategies.integers(0, len(line) - 1))] = data.draw(strategies.sampled_from(others))
    try:
        made("\n".join(" ".join(words) for words in lines), kind=source(name)[-2:])
    except Refused as fault:
        assert re.match(r"text: (line \d+ word \d+: .|no qdisc)", str(fault)), fault


def matches(one, flow):
    """Whether a filter of IPv4 matches a flow: source and target, their ports, the protocol and the type of service."""
    src, dst, sport, dport, protocol, tos = flow
    return (one.family == 4 and src & one.src.mask == one.src.value & one.src.mask and dst & one.dst.mask == one.dst.value & one.dst.mask
            and one.sport in (0, sport) and one.dport in (0, dport) and one.protocol in (0, protocol)
            and (one.tos is None or tos & one.tos.mask == one.tos.value & one.tos.mask))


def winner(interface, flow):
    """The class of a flow by docs/reference/CONFIGURATION.md, "Which filter wins"."""
    found = [one for one in interface.filters if matches(one, flow)]
    default = next(one.name for one in interface.classes if one.is_default)
    return max(found, key=lambda one: one.rank).owner if found else default


# A rule asks for a protocol, a target's port or 0 for any, and a source 10.0.0.N or 0 for any.
ASKED = strategies.tuples(strategies.sampled_from(["udp", "tcp"]), strategies.sampled_from([0, 53, 80]), strategies.integers(0, 2))
FLOWS = [(0x0A000000 + host, 0x0A000063, 4000, port, protocol, 0) for host in (1, 2, 3) for port in (53, 80, 99) for protocol in (6, 17)]


def agrees(asked, flow):
    """Whether a flow is what a rule asks for."""
    protocol, port, host = asked
    return flow[4] == {"tcp": 6, "udp": 17}[protocol] and port in (0, flow[3]) and host in (0, flow[0] & 0xFF)


@settings(max_examples=60, deadline=None)
@given(strategies.lists(strategies.tuples(ASKED, strategies.booleans(), strategies.sampled_from(["a", "b", "c", ""])), max_size=7))
def test_filters_decide_as_pf(rules):
    """By pf.conf(5) the last rule that matches holds, or the first that is quick; without a queue the default class is taken."""
    text = "altq on em0 cbq bandwidth 8Mb queue { a b c }\nqueue a cbq(default)\nqueue b\nqueue c\n"
    for (protocol, port, host), is_quick, queue in rules:
        text += f"pass out {'quick ' * is_quick}on em0 inet proto {protocol} from {f'10.0.0.{host}' if host else 'any'} to any"
        text += f" port {port}" * bool(port) + " no state" + f" queue {queue}" * bool(queue) + "\n"
    _, (interface,), _ = importing.conf_of(text, options_of("text", kind="pf"))
    for flow in FLOWS:
        held = ""
        for asked, is_quick, queue in rules:
            if agrees(asked, flow):
                held = queue
                if is_quick:
                    break
        assert winner(interface, flow) == (held or "a"), (text, flow)


@settings(max_examples=60, deadline=None)
@given(strategies.lists(strategies.tuples(ASKED, strategies.integers(1, 3), strategies.sampled_from(["1:1", "1:2", "1:3"]), strategies.booleans()),
                        max_size=7))
def test_filters_decide_as_tc(rules):
    """By tc(8) filters are asked in rising order of prio, those of one prio in the order of the file, and the first that matches holds."""
    text = "tc qdisc add dev eth0 root handle 1: hfsc default 1\n"
    text += "".join(f"tc class add dev eth0 parent 1: classid 1:{n} hfsc sc rate 1mbit\n" for n in (1, 2, 3))
    for (protocol, port, host), prio, owner, is_flower in rules:
        number = {"tcp": 6, "udp": 17}[protocol]
        text += f"tc filter add dev eth0 parent 1: protocol ip prio {prio} "
        if is_flower:
            text += f"flower ip_proto {protocol}" + f" dst_port {port}" * bool(port) + f" src_ip 10.0.0.{host}" * bool(host)
        else:
            text += f"u32 match ip protocol {number} 0xff" + f" match ip dport {port} 0xffff" * bool(port)
            text += f" match u32 0x0a00000{host} 0xffffffff at 12" * bool(host)
        text += f" classid {owner}\n"
    _, (interface,), _ = importing.conf_of(text, options_of("text", kind="tc"))
    for flow in FLOWS:
        held = [owner for (asked, prio, owner, _) in sorted(rules, key=lambda rule: rule[1]) if agrees(asked, flow)]
        assert winner(interface, flow) == (held[0] if held else "1:1"), (text, flow)
