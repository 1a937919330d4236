"""Files that are whole, or as they were: each is written under another name beside its own, and renamed when it is done."""

import contextlib
import os


def is_replaced(name):
    """Whether a file of this name can be replaced by one beside it: a device and a pipe are written as they stand, and so is a file
    in a folder where no other can be made."""
    target = os.path.realpath(name)
    return os.access(os.path.dirname(target), os.W_OK) and (os.path.isfile(target) or not os.path.exists(target))


@contextlib.contextmanager
def new_file(name, mode="w", **more):
    """A file to write. Where all goes well it takes the place of the one that had its name, with its permissions; else that one stays."""
    if not is_replaced(name):
        with open(name, mode, **more) as file:
            yield file
        return
    target = os.path.realpath(name)
    beside = os.path.join(os.path.dirname(target), f".{os.path.basename(target)[:200]}.{os.getpid()}")
    try:
        with open(beside, mode, **more) as file:
            if os.path.exists(target):
                os.fchmod(file.fileno(), os.stat(target).st_mode & 0o7777)
            yield file
        os.replace(beside, target)
    except BaseException:
        with contextlib.suppress(FileNotFoundError):
            os.unlink(beside)
        raise
