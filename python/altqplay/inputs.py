"""What a play is made of: a configuration as text or in a file, and packets in a capture or in a DataFrame."""

from __future__ import annotations

import ipaddress
import os
import re
import struct
from functools import lru_cache
from typing import Any, Iterator, NamedTuple, Union

import numpy
import pandas

from .workbench.bursts import head_checksum
from .workbench.captures import write_ethernet
from .workbench.conf import interface_named
from .workbench.faults import Refused

# A configuration's text or path, and the path of a capture or a table of packets.
Conf = Union[str, "os.PathLike[str]"]
Packets = Union[str, "os.PathLike[str]", pandas.DataFrame]

SNAP = 60  # captured bytes of a frame that is made, at most, without TCP's header of IPv6
MOST_OF_FLOAT = 2**53
FLOW = {"src": "10.0.0.1", "dst": "10.0.0.2", "proto": "udp", "sport": 40000, "port": 9000, "tos": 0}
PROTOCOLS = {"udp": 17, "tcp": 6, "icmp": 1, "icmp6": 58}
KNOWN = {"time_ns", "length", "bytes", "dport", *FLOW}
STATEMENT = re.compile(r"^\s*(interface|class|filter|conditioner)\s", re.MULTILINE)


class Record(NamedTuple):
    """A record of a capture that is written: its stamp in nanoseconds, captured bytes, and original length in bytes."""

    at: int
    data: bytes
    length: int


def is_text(conf: Conf) -> bool:
    """Whether a configuration is given as its text: a path has no line feed, and begins with no statement.

    >>> is_text("interface if0 bandwidth 8M hfsc"), is_text("altq.conf")
    (True, False)
    """
    return isinstance(conf, str) and ("\n" in conf or bool(STATEMENT.match(conf)))


def text_of(conf: Conf) -> str:
    """The text of a configuration."""
    if is_text(conf):
        return str(conf) if str(conf).endswith("\n") else f"{conf}\n"
    with open(conf, encoding="ascii", errors="replace") as file:
        return file.read()


def conf_file(conf: Conf, folder: str) -> str:
    """The file of a configuration; text is written into one in a folder."""
    if not is_text(conf):
        return os.fspath(conf)
    name = os.path.join(folder, "altq.conf")
    with open(name, "w", encoding="utf-8") as file:
        file.write(text_of(conf))
    return name


def interface_name(config: str, interface: str | None) -> str:
    """The interface that is named, or the only one of a configuration file."""
    return interface_named(config, interface)


def capture_file(packets: Packets, folder: str) -> str:
    """The capture of some packets; a table is written into one in a folder."""
    if not isinstance(packets, pandas.DataFrame):
        return os.fspath(packets)
    name = os.path.join(folder, "arrivals.pcap")
    write_ethernet(name, records_of(packets))
    return name


def whole(table: pandas.DataFrame, column: str) -> list[int]:
    """A column of whole numbers, none below 0. `Refused` where a value is missing, or is a float that has lost digits.

    >>> whole(pandas.DataFrame({"length": [60, 1500.0]}), "length")
    [60, 1500]
    """
    values = table[column]
    if pandas.api.types.is_datetime64_any_dtype(values):
        values = values.astype("datetime64[ns]").astype("int64")
    if values.isna().any():
        raise Refused(f"{column}: row {int(numpy.flatnonzero(values.isna())[0])} has no value")
    if pandas.api.types.is_float_dtype(values):
        if (values % 1 != 0).any() or (values.abs() > MOST_OF_FLOAT).any():
            raise Refused(f"{column}: floats with fractions or above 2^53, which have lost digits: give whole numbers, as int64 or Int64")
    elif not pandas.api.types.is_integer_dtype(values):
        raise Refused(f"{column}: {values.dtype}, and not whole numbers")
    found = [int(value) for value in values.tolist()]
    if found and min(found) < 0:
        raise Refused(f"{column}: row {found.index(min(found))} is below 0")
    return found


def records_of(table: pandas.DataFrame) -> Iterator[Record]:
    """The records of a table of packets, a row for each, in the order of the rows.

    `time_ns` is the stamp in nanoseconds, whole numbers; a column of datetime64 is taken as well. With `bytes`, the captured bytes of
    each frame of Ethernet, `length` may be left out. Else a frame of Ethernet and IP is made of `length` bytes, from `src`, `dst`,
    `proto` (udp, tcp, icmp), `sport`, `port` (or `dport`) and `tos`; each of these has a value where it is left out. `Refused` names
    a column that is unknown or missing.

    >>> table = pandas.DataFrame({"time_ns": [0, 5], "length": [100, 1500], "port": [5004, 80]})
    >>> [(one.at, one.length, one.data[36:38].hex()) for one in records_of(table)]
    [(0, 100, '138c'), (5, 1500, '0050')]
    """
    table = table.rename(columns={"dport": "port"}) if "port" not in table else table
    unknown = [str(column) for column in table.columns if column not in KNOWN]
    if unknown:
        raise Refused(f"packets: no column {unknown[0]}; there are {', '.join(sorted(KNOWN))}")
    needed = ["time_ns"] if "bytes" in table else ["time_ns", "length"]
    for column in needed:
        if column not in table:
            raise Refused(f"packets: the column {column} is missing")
    times = whole(table, "time_ns")
    if "bytes" in table:
        data = [bytes(one) for one in table["bytes"]]
        lengths = whole(table, "length") if "length" in table else [len(one) for one in data]
        yield from map(Record, times, data, lengths)
        return
    flows = [column_of(table, column) for column in FLOW]
    for at, length, *flow in zip(times, whole(table, "length"), *flows):
        yield Record(at, frame(length, *flow), length)


def column_of(table: pandas.DataFrame, column: str) -> list[Any]:
    """A column of the flows, or its default value for each row."""
    if column not in table:
        return [FLOW[column]] * len(table)
    if isinstance(FLOW[column], int):
        return whole(table, column)
    return [str(value) for value in table[column]]


@lru_cache(maxsize=65_536)
def frame(length: int, src: str, dst: str, proto: str, sport: int, port: int, tos: int) -> bytes:
    """The captured bytes of a frame of Ethernet of a length in bytes: its headers (RFC 791, RFC 8200, RFC 768, RFC 9293), then zeros.

    >>> frame(1000, "10.0.0.1", "10.0.0.2", "udp", 40000, 5004, 0xB8)[14:20].hex()
    '45b803da0000'
    """
    try:
        source, target, protocol = ipaddress.ip_address(src), ipaddress.ip_address(dst), PROTOCOLS[proto]
    except (ValueError, KeyError) as fault:
        raise Refused(f"packets: {fault}: an address, or one of {', '.join(PROTOCOLS)}, is wanted") from None
    if source.version != target.version or not (0 <= tos < 256 and 0 <= sport < 65536 and 0 <= port < 65536):
        raise Refused(f"packets: {src}, {dst}, {sport}, {port}, {tos}: two addresses of one family, ports below 65536, a tos below 256")
    inside = length - 14
    upper = {17: struct.pack(">HHHH", sport, port, max(inside - 20, 8) & 0xFFFF, 0), 6: struct.pack(">HHIIBBHHH", sport, port, 0, 0, 0x50, 0x10, 65535, 0, 0)}
    ethernet = bytes.fromhex("020000000002" "020000000001")
    if source.version == 6:
        head = b"\x86\xdd" + struct.pack(">IHBB", 6 << 28 | tos << 20, max(inside - 40, 0) & 0xFFFF, protocol, 64) + source.packed + target.packed
    else:
        bare = struct.pack(">BBHHHBBH", 0x45, tos, inside & 0xFFFF, 0, 0x4000, 64, protocol, 0) + source.packed + target.packed
        head = b"\x08\x00" + bare[:10] + struct.pack(">H", head_checksum(bare)) + bare[12:]
    made = ethernet + head + upper.get(protocol, bytes(8))
    if length < len(made):
        raise Refused(f"packets: a frame of {length} bytes does not hold its headers, which have {len(made)}")
    return (made + bytes(SNAP))[:min(length, max(len(made), SNAP))]
