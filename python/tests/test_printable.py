"""All that the workbench says is printable: no file, name or word of a stranger sends its bytes to a terminal."""

import os
import subprocess
import sys

import pytest
from conftest import ROOT
from hypothesis import given, strategies

from altqplay.workbench.printable import Printed, printable, printable_lines

ESCAPES = "\x1b[2J\x1b]0;mine\x07"
PF = "altq on em0 cbq bandwidth 8Mb queue { a }\nqueue a cbq(default)\n"


@pytest.mark.parametrize("text, said", [("a b", "a b"), ("ü", "ü"), ("\x1b[0m", "\\x1b[0m"), ("a\nb", "a\\x0ab"), ("\u202e", "\\u202e"),
                                        ("\udcff", "\\udcff"), ("\U000e0001", "\\U000e0001"), ("\x9b1m", "\\x9b1m")])
def test_printable(text, said):
    assert printable(text) == said


@given(strategies.text())
def test_nothing_else_is_said(text):
    assert printable(text).isprintable() and all(part.isprintable() for line in printable_lines(text).split("\n") for part in line.split("\t"))
    assert printable_lines(text).count("\n") == text.count("\n")


@pytest.mark.parametrize("line", [f"pass out on em0 from any to any user {ESCAPES} queue a\n", f"pass out on em0 {ESCAPES} queue a\n",
                                  f"pass out on em0 proto tcp from {ESCAPES} queue a\n",
                                  f"block out on em0 to {ESCAPES} queue a\n", f"{ESCAPES} out on em0\n", f"altq on {ESCAPES} cbq\n"])
def test_import_of_a_strangers_file(altqwork, tmp_path, line):
    (tmp_path / "pf.conf").write_text(PF + line)
    for words in ([], ["--to", tmp_path / "altq.conf"]):
        _status, said, fault = altqwork("import", "--as", "pf", *words, tmp_path / "pf.conf")
        assert "\x1b" not in said + fault and "\x07" not in said + fault


def test_a_file_name_is_no_statement(altqwork, tmp_path):
    """A line feed in a file's name ends no comment of what is made."""
    name = tmp_path / "pf\ninterface evil bandwidth 1M hfsc\n\x1b[31m.conf"
    name.write_text(PF)
    status, said, _fault = altqwork("import", name)
    assert "\x1b" not in said and [line.split()[1] for line in said.split("\n") if line.startswith("interface")] == ["em0"]


@pytest.mark.parametrize("words", [["convert", f"{ESCAPES}none", "made"], ["late", f"--{ESCAPES}", "a"], [f"{ESCAPES}"], ["import", f"{ESCAPES}none"],
                                   ["late", "--seed", ESCAPES, "a"]])
def test_words_of_the_command_line(words):
    command = os.path.join(ROOT, "python", "altqwork")
    done = subprocess.run([command, *words], stdout=subprocess.PIPE, stderr=subprocess.PIPE, check=False)
    assert done.returncode == 2 and b"\x1b" not in done.stdout + done.stderr


def test_an_encoding_that_lacks_a_letter():
    script = "import sys; from altqplay.workbench.printable import Printed; print('a\\u00fc\\u2192', file=Printed(sys.stdout))"
    done = subprocess.run([sys.executable, "-c", script], stdout=subprocess.PIPE, check=True, cwd=os.path.join(ROOT, "python"),
                          env={**os.environ, "PYTHONIOENCODING": "ascii"})
    assert done.stdout == b"a\\xfc\\u2192\n"


def test_the_stream_behind_is_asked(capsys):
    stream = Printed(sys.stdout)
    assert stream.writable() and stream.write("\x1b") == 1
    stream.flush()
    assert capsys.readouterr().out == "\\x1b"
