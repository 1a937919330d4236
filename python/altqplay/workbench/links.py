"""Turns the packets of other link types into frames of Ethernet. Sources: the LINKTYPE_ pages of tcpdump.org, RFC 1661, IEEE 802.3.

What a packet carries is kept, and 14 bytes of Ethernet stand in place of its old header. A link type that is none of
these, and a packet whose header is cut or tells no type, is refused: no type is guessed.
"""

import struct

from .captures import Record
from .faults import Refused

IPV4, IPV6, MPLS, PPP = 0x0800, 0x86DD, 0x8847, 0x880B
PPPOE, TAGS = b"\x88\x64", (b"\x81\x00", b"\x88\xa8")
PPPOE_HEAD = 8  # RFC 2516 with the protocol of PPP behind it
ETHERNET_HEAD = 14
LEAST_TYPE, LONGEST_802_3 = 0x0600, 1500
LOCAL = bytes.fromhex("020000000001")
FAMILIES = {2: IPV4, 10: IPV6, 24: IPV6, 28: IPV6, 30: IPV6}  # AF_INET; AF_INET6 of Linux, NetBSD and OpenBSD, FreeBSD, Darwin
PPP_TYPES = {0x0021: IPV4, 0x0057: IPV6, 0x0281: MPLS}
# Types of devices under which the protocol of a cooked header is no type of Ethernet: frame relay, GRE, radio with its heads, netlink.
NOT_ETHERNET = {770, 778, 801, 802, 803, 824}


class Unknown(Exception):
    """What a packet does not tell."""


def version_of(data):
    """The type of a packet that begins with the head of an IP datagram."""
    version = data[0] >> 4 if data else None
    if version not in (4, 6):
        raise Unknown("it is neither IPv4 nor IPv6")
    return IPV4 if version == 4 else IPV6


def from_ip(data):
    return 0, version_of(data), LOCAL


def from_ipv4(data):
    if version_of(data) != IPV4:
        raise Unknown("it is not IPv4")
    return 0, IPV4, LOCAL


def from_ipv6(data):
    if version_of(data) != IPV6:
        raise Unknown("it is not IPv6")
    return 0, IPV6, LOCAL


def family(number):
    """The type of an address family."""
    if number not in FAMILIES:
        raise Unknown(f"its address family is {number}")
    return FAMILIES[number]


def from_loopback(data):
    """BSD loopback: the family in the byte order of the machine that captured."""
    (number,) = struct.unpack_from("<I", data)
    return 4, family(number if number < 2**16 else struct.unpack_from(">I", data)[0]), LOCAL


def from_openbsd_loopback(data):
    return 4, family(struct.unpack_from(">I", data)[0]), LOCAL


def cooked_type(device, protocol):
    """The type of what a cooked header stands before; 0 for a frame of IEEE 802.3, whose length stands there."""
    if device in NOT_ETHERNET:
        raise Unknown(f"its device is of type {device}, whose protocols are no types of Ethernet")
    if protocol in (1, 4):
        return 0
    if protocol < LEAST_TYPE:
        raise Unknown(f"its protocol is {protocol}")
    return protocol


def address_of(count, address):
    """The sender's address, where it has six bytes."""
    return address[:6] if count == 6 else LOCAL


def from_cooked(data):
    _to, device, count, address, protocol = struct.unpack_from(">HHH8sH", data)
    return 16, cooked_type(device, protocol), address_of(count, address)


def from_cooked_2(data):
    protocol, _zero, _number, device, _to, count, address = struct.unpack_from(">HHIHBB8s", data)
    return 20, cooked_type(device, protocol), address_of(count, address)


def from_ppp(data):
    """PPP, also with its address and control bytes left out and its protocol shortened to a byte. Other protocols than IP stay PPP."""
    at = 2 if data[:2] == b"\xff\x03" else 0
    size = 1 if data[at] & 1 else 2
    protocol = int.from_bytes(struct.unpack_from(f"{size}s", data, at)[0], "big")
    if not protocol & 1:
        raise Unknown(f"its protocol is {protocol}, which is none of PPP")
    return (at + size, PPP_TYPES[protocol], LOCAL) if protocol in PPP_TYPES else (at, PPP, LOCAL)


# Of each link type its name, and what tells a packet's header: its bytes, the type of Ethernet, the sender's address.
LINKS = {
    0: ("BSD loopback", from_loopback), 9: ("PPP", from_ppp), 12: ("raw IP", from_ip), 14: ("raw IP", from_ip),
    50: ("PPP", from_ppp), 101: ("raw IP", from_ip), 108: ("OpenBSD loopback", from_openbsd_loopback),
    113: ("Linux cooked", from_cooked), 228: ("raw IPv4", from_ipv4), 229: ("raw IPv6", from_ipv6), 276: ("Linux cooked v2", from_cooked_2),
}


def without_pppoe(data):
    """A frame of Ethernet as one of the IP packet that a session of PPPoE carries in it, or None where it carries none."""
    at = 12
    while data[at:at + 2] in TAGS and at < 20:
        at += 4
    kind = PPP_TYPES.get(int.from_bytes(data[at + 8:at + 10], "big"))
    if data[at:at + 2] != PPPOE or data[at + 2:at + 4] != b"\x11\0" or kind not in (IPV4, IPV6):
        return None
    return data[:at] + struct.pack(">H", kind) + data[at + 2 + PPPOE_HEAD:]


def name_of(link):
    """A link type in words."""
    return "Ethernet" if link == 1 else LINKS[link][0] if link in LINKS else f"link type {link}"


def as_ethernet(record):
    """A record as one of Ethernet. `Refused` says what it does not tell."""
    length = max(record.length, len(record.data))
    if record.link == 1:
        return record._replace(length=length)
    if record.link not in LINKS:
        raise Refused(f"is of link type {record.link}, which is none that can be converted")
    name, tell = LINKS[record.link]
    try:
        head, kind, sender = tell(record.data)
    except (struct.error, IndexError):
        raise Refused(f"is cut within its header of {name}") from None
    except Unknown as fault:
        raise Refused(f"of {name} cannot be told: {fault}") from None
    carried = length - head
    if kind == 0 and carried > LONGEST_802_3:
        raise Refused(f"of {name} is a frame of IEEE 802.3 with {carried} bytes, more than {LONGEST_802_3}")
    data = bytes(6) + sender + struct.pack(">H", kind or carried) + record.data[head:]
    return Record(record.at, data, carried + ETHERNET_HEAD, 1)
