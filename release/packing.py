"""Archives whose bytes follow from what is in them and one moment: no name of a user, no umask, no order of a folder.

A tree is a mapping from a path to a File. release/make makes the packages of it.
"""

import base64
import gzip
import hashlib
import io
import lzma
import tarfile
import time
import zipfile
from collections import namedtuple

# The bytes of a file, and whether it is run.
File = namedtuple("File", "data is_run", defaults=[False])


def folders(tree):
    """The folders of a tree, each once, before what is in it."""
    found = set()
    for path in tree:
        parts = path.split("/")[:-1]
        found |= {"/".join(parts[:n + 1]) for n in range(len(parts))}
    return sorted(found)


def entry(path, moment, mode, kind=tarfile.REGTYPE, size=0):
    """The head of a member of a tar archive."""
    head = tarfile.TarInfo(path)
    head.mtime, head.mode, head.type, head.size = moment, mode, kind, size
    return head


def tar(tree, moment, top):
    """A tar archive of a tree below a folder."""
    text, paths = io.BytesIO(), {f"{top}/{path}": file for path, file in tree.items()}
    with tarfile.open(fileobj=text, mode="w", format=tarfile.GNU_FORMAT) as archive:
        for folder in folders(paths):
            archive.addfile(entry(folder, moment, 0o755, tarfile.DIRTYPE))
        for path, file in sorted(paths.items()):
            archive.addfile(entry(path, moment, 0o755 if file.is_run else 0o644, size=len(file.data)), io.BytesIO(file.data))
    return text.getvalue()


def compressed(data, moment=0):
    """The bytes by gzip, as tightly as it can."""
    return gzip.compress(data, 9, mtime=moment)


def ar(members, moment):
    """An ar archive, as a package of Debian is one, of (name, bytes) in their order."""
    text = b"!<arch>\n"
    for name, data in members:
        text += b"%-16s%-12d%-6d%-6d%-8s%-10d`\n" % (name.encode(), moment, 0, 0, b"100644", len(data)) + data + b"\n" * (len(data) % 2)
    return text


def deb(control, tree, moment):
    """A package of Debian: the files of its control, and those that it installs."""
    parts = [("control.tar.xz", control), ("data.tar.xz", tree)]
    return ar([("debian-binary", b"2.0\n"), *((name, lzma.compress(tar(part, moment, "."), preset=9)) for name, part in parts)], moment)


def record(tree, place):
    """The list of a wheel's files with their sums, to be stored in a place of it."""
    lines = []
    for path, file in sorted(tree.items()):
        total = base64.urlsafe_b64encode(hashlib.sha256(file.data).digest()).rstrip(b"=").decode()
        lines.append(f"{path},sha256={total},{len(file.data)}\n")
    return "".join([*lines, f"{place},,\n"]).encode()


def wheel(tree, place, moment):
    """A wheel of a tree, its record in a place."""
    text = io.BytesIO()
    with zipfile.ZipFile(text, "w", zipfile.ZIP_DEFLATED, compresslevel=9) as archive:
        for path, file in [*sorted(tree.items()), (place, File(record(tree, place)))]:
            head = zipfile.ZipInfo(path, time.gmtime(moment)[:6])
            head.compress_type, head.create_system = zipfile.ZIP_DEFLATED, 3
            head.external_attr = (0o100755 if file.is_run else 0o100644) << 16
            archive.writestr(head, file.data)
    return text.getvalue()
