"""What the tests share: the program, the command line in this process, and captures written byte by byte."""

import os
import struct
import sys

import pytest

HERE = os.path.dirname(os.path.abspath(__file__))
ROOT = os.path.dirname(os.path.dirname(HERE))
sys.path.insert(0, os.path.join(ROOT, "python"))
os.environ.setdefault("HYPOTHESIS_STORAGE_DIRECTORY", os.path.join(ROOT, "python", "out", "hypothesis"))

from altqplay.workbench import cli, play  # noqa: E402
from altqplay.workbench.faults import Missing  # noqa: E402

ETHERNET = bytes(6) + bytes.fromhex("020000000001")


@pytest.fixture
def program():
    """The program; the test is passed over where it is not built."""
    try:
        return play.program()
    except Missing as fault:
        pytest.skip(str(fault))


@pytest.fixture
def altqwork(capsys):
    """Runs the words of a command line; answers status, standard output and standard error."""
    def run(*words):
        capsys.readouterr()
        status = cli.main([str(word) for word in words])
        said = capsys.readouterr()
        return status, said.out, said.err
    return run


@pytest.fixture
def played(altqwork, program, tmp_path):
    """Plays bursts of example/capture.py by the lines of a configuration; answers the play, which `why` can be asked of."""
    from worked import Played

    return lambda lines, bursts, seed=42: Played(altqwork, tmp_path, lines, bursts, seed)


def data(name):
    """A stored file."""
    return os.path.join(HERE, "data", name)


def example(name):
    """A file of example/."""
    return os.path.join(ROOT, "example", name)


def classic(link, packets, order="<"):
    """A capture with stamps in nanoseconds of packets (at, captured bytes, original length)."""
    text = struct.pack(order + "IHHIIII", 0xA1B23C4D, 2, 4, 0, 0, 262144, link)
    for at, captured, length in packets:
        text += struct.pack(order + "IIII", at // 10**9, at % 10**9, len(captured), length) + captured
    return text


def udp(port, length=200, source="0a000001", target="0a000002"):
    """The heads of an IPv4 datagram of UDP to a port, of so many bytes with its header of IPv4."""
    return struct.pack(">BBHIBBH", 0x45, 0, length, 0, 64, 17, 0) + bytes.fromhex(source + target) + struct.pack(">HHHH", 40000, port, length - 20, 0)


def frames(name):
    """The frames of a classic capture as (at, captured bytes, original length), read with no part of the workbench."""
    with open(name, "rb") as file:
        text = file.read()
    assert text[:4] == bytes.fromhex("4d3cb2a1") and text[20:24] == bytes.fromhex("01000000")
    found, at = [], 24
    while at < len(text):
        seconds, fraction, captured, length = struct.unpack_from("<IIII", text, at)
        found.append((seconds * 10**9 + fraction, text[at + 16:at + 16 + captured], length))
        at += 16 + captured
    return found
