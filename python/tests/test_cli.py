"""The command line: its words, its statuses, and `delays`."""

import os
import re
import shutil
import subprocess
import sys

import pytest
from altqplay.workbench import cli
from conftest import ROOT, classic, example

COMMAND = os.path.join(ROOT, "python", "altqwork")


def called(words, **more):
    done = subprocess.run([COMMAND, *words], stdout=subprocess.PIPE, stderr=subprocess.PIPE, check=False, env={**os.environ, **more})
    return done.returncode, done.stdout.decode(), done.stderr.decode()


def test_help_names_each_subcommand():
    status, said, _fault = called(["--help"])
    assert status == 0 and all(f"\n    {name} " in said for name in ("convert", "late", "report", "delays"))


def test_help_shows_how_the_program_is_called(tmp_path):
    script = tmp_path / "altqplay"
    script.write_text("#!/bin/sh\necho said; echo 'altqplay 9: check FILE' >&2; exit 2\n")
    script.chmod(0o755)
    status, said, fault = called(["--help"], ALTQPLAY=str(script))
    assert (status, fault) == (0, "") and said.endswith("the program:\naltqplay 9: check FILE\n")
    assert called(["--help"], ALTQPLAY=str(tmp_path / "none"))[::2] == (0, "")


def test_the_man_page_tells_each_subcommand():
    with open(os.path.join(ROOT, "docs", "reference", "altqwork.1"), encoding="ascii") as file:
        page = file.read()
    section = page.partition(".SH SUBCOMMANDS\n")[2].partition(".SH")[0]
    assert re.findall(r"^\.TP\n\\fB(\w+)\\fR$", section, re.M) == sorted(cli.MODULES)


@pytest.mark.skipif(not shutil.which("mandoc"), reason="no mandoc")
def test_the_man_page_has_no_fault():
    page = os.path.join(ROOT, "docs", "reference", "altqwork.1")
    done = subprocess.run(["mandoc", "-T", "lint", "-W", "all", page], stdout=subprocess.PIPE, check=False)
    assert (done.returncode, done.stdout) == (0, b"")


@pytest.mark.parametrize("words", [[], ["what"], ["late", "--seed", "x"], ["convert"], ["report", "--allow"]])
def test_words_that_are_refused(words):
    status, said, fault = called(words)
    assert (status, said) == (2, "") and fault.startswith("usage: ")


def test_a_library_that_is_missing(tmp_path):
    # an interpreter that sees the standard library alone
    script = tmp_path / "python3"
    script.write_text(f'#!/bin/sh\nexec "{sys.executable}" -S "$@"\n')
    script.chmod(0o755)
    words = [str(script), "-B", os.path.join(ROOT, "python", "altqplay", "workbench")]
    done = subprocess.run([*words, "late", "--config", "c", "a"], stdout=subprocess.PIPE, stderr=subprocess.PIPE, check=False)
    assert done.returncode == 77 and b"is not installed: run python/setup" in done.stderr
    assert subprocess.run([*words, "--version"], stdout=subprocess.PIPE, check=False).returncode == 0
    assert subprocess.run([*words, "delays", "--help"], stdout=subprocess.PIPE, check=False).returncode == 0
    (tmp_path / "f").write_text(HEAD)
    done = subprocess.run([*words, "delays", tmp_path / "f", tmp_path / "f"], stdout=subprocess.PIPE, stderr=subprocess.PIPE, check=False)
    assert (done.returncode, done.stderr) == (77, b"altqwork: the Python library numpy is not installed: run python/setup\n")


@pytest.fixture
def installed(tmp_path):
    """The package as a wheel installs it: without the repository around it. Runs its command under an interpreter's options."""
    shutil.copytree(os.path.join(ROOT, "python", "altqplay"), tmp_path / "site" / "altqplay",
                    ignore=shutil.ignore_patterns("__pycache__"))
    call = "import sys; sys.argv[0] = 'altqwork'; from altqplay.workbench.__main__ import main; sys.exit(main())"

    def run(*words, options=(), path=os.environ["PATH"]):
        done = subprocess.run([sys.executable, *options, "-B", "-c", call, *map(str, words)], stdout=subprocess.PIPE, stderr=subprocess.PIPE,
                              check=False, cwd=tmp_path, env={"PATH": path, "PYTHONPATH": str(tmp_path / "site")})
        return done.returncode, done.stdout.decode(), done.stderr.decode()
    return run


def test_the_installed_command(installed):
    assert installed("--version") == (0, called(["--version"])[1], "")


def test_advice_of_a_package_names_no_script(installed, tmp_path):
    (tmp_path / "a.pcap").write_bytes(classic(1, []))
    late = ["late", "--config", example("office.conf"), tmp_path / "a.pcap"]
    assert installed(*late, options=["-S"])[2].endswith("is not installed: install numpy\n")
    assert installed(*late, path=str(tmp_path))[::2] == (77, "altqwork: altqplay is not there: install it, or name it with --program\n")


def test_a_package_runs_the_program_in_it(installed, program, tmp_path):
    inside = tmp_path / "site" / "altqplay" / "bin"
    inside.mkdir()
    shutil.copy(program, inside / "altqplay")
    (tmp_path / "a.pcap").write_bytes(classic(1, []))
    assert installed("late", "--config", example("office.conf"), tmp_path / "a.pcap", path=str(tmp_path))[0] == 0


def test_no_program(altqwork, tmp_path, monkeypatch):
    monkeypatch.setenv("ALTQPLAY", str(tmp_path / "none"))
    (tmp_path / "a.pcap").write_bytes(classic(1, []))
    assert altqwork("late", "--config", example("office.conf"), tmp_path / "a.pcap")[::2] == (77, f"altqwork: no program {tmp_path / 'none'}\n")


HEAD = "number,arrival,length,class,fate,start,end\n"


def test_delays(altqwork, tmp_path):
    # delays 10, 20, 30, 40 of class a: half do not pass 20, 99 in 100 do not pass 40; then 10 is dropped, 20 takes 50, 40 takes 35
    (tmp_path / "first").write_text(HEAD + "".join(f"{n},100,60,a,share,{95 + 10 * n},{100 + 10 * n}\n" for n in (1, 2, 3, 4)))
    (tmp_path / "second").write_text(HEAD + "1,100,60,a,full,,\n3,100,60,a,share,125,130\n4,100,60,a,share,130,135\n2,100,60,a,share,145,150\n")
    status, said, _fault = altqwork("delays", "--ns", tmp_path / "first", tmp_path / "second")
    assert status == 1 and said.splitlines() == [
        "times in ns  packets  dropped  least  median  99 in 100  greatest", "a",
        "  first            4        0     10      20         40        40",
        "  second           4        1     30      35         50        50",
        "  changed: 1 dropped now, 0 sent now, 1 sooner by up to 5 ns, 1 later by up to 30 ns"]
    assert altqwork("delays", tmp_path / "first", tmp_path / "first")[0] == 0


def test_delays_in_milliseconds(altqwork, tmp_path):
    # 1.2345 and 7 ms, then 2 ms and 2^63 - 1 ns, of which no digit is lost
    (tmp_path / "first").write_text(HEAD + "1,0,60,a,share,0,1234500\n2,0,60,a,share,1234500,7000000\n")
    (tmp_path / "second").write_text(HEAD + f"1,0,60,a,share,0,2000000\n2,0,60,a,share,2000000,{2**63 - 1}\n")
    assert altqwork("delays", tmp_path / "first", tmp_path / "second")[1].splitlines() == [
        "times in ms  packets  dropped  least  median          99 in 100           greatest", "a",
        "  first            2        0  1.235   1.235              7.000              7.000",
        "  second           2        0  2.000   2.000  9223372036854.776  9223372036854.776",
        "  changed: 0 dropped now, 0 sent now, 0 sooner, 2 later by up to 9223372036847.776 ms"]
    assert altqwork("delays", "--ns", tmp_path / "first", tmp_path / "second")[1].splitlines()[3].split()[-2:] == [str(2**63 - 1)] * 2


def test_delays_in_the_order_of_the_configuration(altqwork, program, tmp_path):
    # packets of b come first, c is of no configuration; a packet of c is of b in the second play
    (tmp_path / "c.conf").write_text("interface if0 bandwidth 8M hfsc\nclass hfsc if0 root NULL pshare 100\n"
                                     "class hfsc if0 a root pshare 50\nclass hfsc if0 b root pshare 50 default\n")
    (tmp_path / "first").write_text(HEAD + "1,0,60,c,full,,\n2,0,60,b,share,0,60000\n3,0,60,a,share,60000,120000\n")
    (tmp_path / "second").write_text(HEAD + "1,0,60,b,full,,\n2,0,60,b,share,0,60000\n3,0,60,a,share,60000,120000\n")
    for words, order in (([], "c b a"), (["--config", tmp_path / "c.conf"], "a b c")):
        lines = altqwork("delays", *words, tmp_path / "first", tmp_path / "second")[1].splitlines()
        assert " ".join(line for line in lines if line in "abc") == order
        assert lines[lines.index("b") + 3] == "  changed: 0 dropped now, 0 sent now, 1 of another class, 0 sooner, 0 later"


@pytest.mark.parametrize("text, why", [("", "first row"), (HEAD, "packet 1 stands in one file alone"), (HEAD + "1,101,60,a,full,,\n", "packet 1 has another arrival"),
                                       (HEAD + "1,100,60,a,full,,\n" * 2, "packet 1 has two fates")])
def test_delays_of_other_arrivals(altqwork, tmp_path, text, why):
    (tmp_path / "first").write_text(HEAD + "1,100,60,a,full,,\n")
    (tmp_path / "second").write_text(text)
    status, said, fault = altqwork("delays", tmp_path / "first", tmp_path / "second")
    assert (status, said) == (2, "") and why in fault
