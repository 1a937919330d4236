"""What the workbench says is printable: what a stranger wrote, in a file, a file's name or a word, moves no cursor and sets no colour."""

import io


def escaped(char):
    """A character that is not printable, in the form of a literal of Python."""
    code = ord(char)
    return f"\\x{code:02x}" if code < 0x100 else f"\\u{code:04x}" if code < 0x10000 else f"\\U{code:08x}"


def printable(text):
    """A text as one line of printable characters: each other one, also a line feed, is written as `\\x1b` is."""
    return text if text.isprintable() else "".join(char if char.isprintable() else escaped(char) for char in text)


def printable_lines(text):
    """A text of lines, each of printable characters; tabs stay."""
    return "\n".join("\t".join(printable(part) for part in line.split("\t")) for line in text.split("\n"))


class Printed(io.TextIOBase):
    """A stream to which printable characters alone are written; one that its encoding lacks is escaped, too."""

    def __init__(self, stream):
        super().__init__()
        self.stream = stream

    def write(self, text):
        said = printable_lines(text)
        encoding = getattr(self.stream, "encoding", None)
        self.stream.write(said.encode(encoding, "backslashreplace").decode(encoding) if encoding else said)
        return len(text)

    def writable(self):
        return True

    def flush(self):
        self.stream.flush()

    def fileno(self):
        return self.stream.fileno()

    def isatty(self):
        return self.stream.isatty()
