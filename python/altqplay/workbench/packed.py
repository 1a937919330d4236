"""Opens a capture, also one that gzip, bzip2, xz or zstd packed, and says where what is packed ends early or is damaged.

What a packer wrote and was stopped at (Ctrl-C of `tcpdump -w - | gzip`) is read as far as it goes: `is_cut` is true then.
zstd needs Python's library zstandard or the command zstd.
"""

import bz2
import importlib
import lzma
import shutil
import subprocess
import zlib
from typing import IO

from .faults import Missing, Refused

PIECE = 1 << 13  # what xz packs so well becomes at most some 60 MB at once
FAULTS = (zlib.error, lzma.LZMAError, OSError, EOFError, ValueError)
# The first bytes of what each packer writes, its name, and what unpacks one of its streams.
PACKERS = [(b"\x1f\x8b", "gzip", lambda: zlib.decompressobj(31)), (b"BZh", "bzip2", bz2.BZ2Decompressor),
           (b"\xfd7zXZ\0", "xz", lzma.LZMADecompressor)]
ZSTD = b"\x28\xb5\x2f\xfd"


class Plain:
    """A file as it is."""

    is_packed = is_cut = False

    def __init__(self, name):
        self.name = name
        self.file: IO[bytes] = open(name, "rb")

    def read(self, size=-1):
        """The next bytes, fewer at the end; all of them without a size."""
        return self.file.read(size)

    def close(self):
        self.file.close()

    def __enter__(self):
        return self

    def __exit__(self, *_fault):
        self.close()


class Unpacked(Plain):
    """The bytes that a packed file holds."""

    is_packed = True

    def __init__(self, name, packer, make, faults=FAULTS):
        super().__init__(name)
        self.packer, self.make, self.faults, self.one = packer, make, faults, make()
        self.held, self.rest, self.is_at_end = bytearray(), b"", False

    def more(self):
        """Unpacks one more piece of the file."""
        data = self.rest or self.file.read(PIECE)
        self.rest = b""
        if not data:
            self.is_at_end, self.is_cut = True, not self.one.eof
        elif not self.one.eof:
            self.held += self.one.decompress(data)
            self.rest = self.one.unused_data if self.one.eof else b""
        elif data.strip(b"\0"):  # a stream behind the first; zeros pad what lay on a tape
            self.one, self.rest = self.make(), data.lstrip(b"\0")

    def read(self, size=-1):
        while not self.is_at_end and (size < 0 or len(self.held) < size):
            try:
                self.more()
            except self.faults as fault:
                raise Refused(f"{self.name}: what {self.packer} packed is damaged: {fault}") from None
        found = bytes(self.held if size < 0 else self.held[:size])
        del self.held[:len(found)]
        return found


class Piped(Plain):
    """The bytes that the command zstd unpacks of a file."""

    is_packed = True

    def __init__(self, name, command):
        self.name, self.is_at_end = name, False
        self.process = subprocess.Popen([command, "-dcq", "--", name], stdin=subprocess.DEVNULL, stdout=subprocess.PIPE, stderr=subprocess.PIPE)
        assert self.process.stdout is not None and self.process.stderr is not None
        self.file, self.errors = self.process.stdout, self.process.stderr

    def read(self, size=-1):
        found = self.file.read(size)
        if not self.is_at_end and (size < 0 or len(found) < size):
            self.is_at_end = True
            said = self.errors.read().decode("utf-8", "replace").strip()
            if self.process.wait():
                self.is_cut = "premature end" in said or "truncated" in said
                if not self.is_cut:
                    raise Refused(f"{self.name}: what zstd packed is damaged: {said}")
        return found

    def close(self):
        self.file.close()
        self.errors.close()
        self.process.wait()


def zstd(name):
    """What zstd packed, by the library or by the command."""
    try:
        library = importlib.import_module("zstandard")
    except ImportError:
        command = shutil.which("zstd")
        if command is None:
            raise Missing(f"{name} is packed by zstd, and neither the command zstd nor Python's zstandard is installed") from None
        return Piped(name, command)
    return Unpacked(name, "zstd", lambda: library.ZstdDecompressor().decompressobj(), (*FAULTS, library.ZstdError))


def opened(name):
    """A capture's file, unpacked where it is packed."""
    with open(name, "rb") as file:
        head = file.read(6)
    if head.startswith(ZSTD):
        return zstd(name)
    for magic, packer, make in PACKERS:
        if head.startswith(magic):
            return Unpacked(name, packer, make)
    return Plain(name)
