"""Captures that others made (Debian's python3-dpkt), by pf.conf's of the manual and of others: classes are held to what tshark finds."""

import glob
import os
import shutil
import subprocess

import pytest

from altqplay.workbench import importing, pf_order
from altqplay.workbench.altq_text import Notes
from altqplay.workbench.captures import Frames
from altqplay.workbench.operator_inputs import prepared
from altqplay.workbench.play import play
from altqplay.workbench.rows import fate_rows
from test_import import HERE, options_of
from test_pf_order import HEAD

CAPTURES = sorted(glob.glob("/usr/share/doc/python3-dpkt/examples/data/*.pcap"))
LONGER = [name for name in CAPTURES if not os.path.basename(name).startswith("truncated")]
# What a rule asks for behind `pass out on em0`, packet by packet, and how tshark says it.
ASKED = [
    ("proto tcp from any to any port > 1023 flags any", "tcp.dstport > 1023"), ("proto tcp from any port 80 to any flags any", "tcp.srcport == 80"),
    ("proto udp from any to any port domain", "udp.dstport == 53"), ("inet proto icmp all icmp-type echoreq", "icmp.type == 8"),
    ("proto tcp from any to any port 1:1023 flags any", "tcp.dstport >= 1 && tcp.dstport <= 1023"), ("inet6 all", "ipv6"), ("inet all", "ip"),
    ("proto tcp all flags S/SA", "tcp.flags.syn == 1 && tcp.flags.ack == 0"), ("proto tcp all flags A/SAFR", "tcp.flags & 0x17 == 0x10"),
    ("inet from ! 192.168.0.0/16 to any", "ip && !(ip.src == 192.168.0.0/16)"), ("proto udp from any to any port != 53", "udp && udp.dstport != 53"),
]
# Packets of IP inside of others, of which tshark shows what is within, and rules see what is without.
TUNNELS = 'frame.protocols matches ":ip(v6)?:(.*:)?ip(v6)?:"'
pytestmark = pytest.mark.skipif(not CAPTURES, reason="python3-dpkt is not installed")


def shown(capture, condition):
    """The numbers of the packets that tshark shows."""
    if shutil.which("tshark") is None:
        pytest.skip("tshark is not installed")
    done = subprocess.run(["tshark", "-n", "-r", capture, "-Y", condition, "-T", "fields", "-e", "frame.number"], stdout=subprocess.PIPE,
                          stderr=subprocess.PIPE, check=False)
    return {int(line) for line in done.stdout.split()}


def whole(capture, tmp_path):
    """A capture with the whole records of one that is cut."""
    from altqplay.workbench import cli

    assert cli.main(["convert", capture, str(tmp_path / "whole.pcap")]) == 0
    return str(tmp_path / "whole.pcap")


@pytest.mark.parametrize("asked, condition", ASKED)
@pytest.mark.parametrize("capture", LONGER, ids=map(os.path.basename, LONGER))
def test_rules_are_those_of_tshark(tmp_path, capture, asked, condition):
    capture = whole(capture, tmp_path)
    rules, (interface,) = importing.pf_parts(f"{HEAD}pass out on em0 {asked} no state queue a\n", options_of("text", addresses={}), Notes("text"))
    placed = pf_order.placed(interface, rules, Frames(capture))
    found = {number for number, of in enumerate(placed.of_class, 1) if placed.classes[of] == "a"}
    assert found - shown(capture, TUNNELS) == shown(capture, condition) - shown(capture, TUNNELS)


@pytest.mark.parametrize("capture", LONGER, ids=map(os.path.basename, LONGER))
def test_bare_acknowledgements_are_those_of_tshark(tmp_path, capture):
    capture = whole(capture, tmp_path)
    rules, (interface,) = importing.pf_parts(HEAD + "pass out on em0 proto tcp all flags any no state queue (a, b)\n", options_of("text", addresses={}),
                                                     Notes("text"))
    placed = pf_order.placed(interface, rules, Frames(capture))
    bare = {number for number, of in enumerate(placed.of_class, 1) if placed.classes[of] == "b"}
    asked = shown(capture, "(tcp.flags.ack == 1 && tcp.len == 0) || (tcp && ip.dsfield == 16)")
    assert bare - shown(capture, TUNNELS) == asked - shown(capture, TUNNELS)


@pytest.mark.parametrize("packed", ["", "pcapng", "xz"])
@pytest.mark.parametrize("capture", CAPTURES, ids=map(os.path.basename, CAPTURES))
def test_the_manuals_pf_conf_over_captures_of_others(program, tmp_path, capture, packed):
    """In one command, from any form of the capture: every whole packet has one fate, and mail and web go where the manual's rules put them."""
    given = str(tmp_path / "given")
    if packed == "pcapng":
        if shutil.which("editcap") is None:
            pytest.skip("editcap is not installed")
        subprocess.run(["editcap", "-F", "pcapng", whole(capture, tmp_path), given], check=True)
    elif packed:
        given += ".xz"
        with open(given, "wb") as file:
            subprocess.run(["xz", "-c", capture], stdout=file, check=True)
    else:
        given = capture
    made = prepared(os.path.join(HERE, "01-manual.pf"), None, [given], str(tmp_path / "folder"))
    (tmp_path / "altq.conf").write_text(made.conf_text)
    fates = list(fate_rows(play(str(tmp_path / "altq.conf"), made.interface, made.arrivals, str(tmp_path / "play")).fates))
    assert sorted(fate.number for fate in fates) == list(range(1, len(Frames(made.shown)) + 1))
    assert made.classes is None or all(made.classes[fate.number - 1] == fate.name for fate in fates)
    if "truncated_dns_2" in capture and packed != "pcapng":
        assert "it ends within record" in "\n".join(made.told)
