"""The program that is kept in release/: which one is found, what may be kept, and what the gate says of it. A small repository with a
kit of its own stands for the real one."""

import os
import shutil
import subprocess
from pathlib import Path

import pytest
from conftest import ROOT

TOOLS = ("bin/rattle", "bin/rattle-link", "toolchain/bin/clang", "toolchain/bin/ld.lld", "toolchain/lib/Scrt1.o", "toolchain/lib/libc.so.6",
         "c/libos_c.a", "c/liblibc_c.a", "rlibs/csv.rlib/format", "rattle/csv/LICENSE-MIT")
CRATES = "# NAME: DEPS\naltqplay: low csv\nlow:\nbeside: low\n"


class Small:
    """A repository of three crates, `altqplay` over `low`, and `beside`, which the program does not stand on."""

    def __init__(self, top):
        self.root, self.kit = top / "repository", top / "kit"
        shutil.copytree(os.path.join(ROOT, "release"), self.root / "release", ignore=shutil.ignore_patterns("altqplay*", "NOTICES", "__pycache__"))
        for name, text in {"crates.txt": CRATES, "HANDLES": "none\n", ".gitignore": "out/\n", "crates/altqplay/src/main.rt": "main\n",
                           "crates/altqplay/stdout": "said\n", "crates/low/src/lib.rt": "low\n", "crates/low/specs/Lib.antt": "law\n",
                           "crates/beside/src/lib.rt": "beside\n"}.items():
            self.write(name, text)
        for name in TOOLS:
            (self.kit / name).parent.mkdir(parents=True, exist_ok=True)
            (self.kit / name).write_text("GNU C Library (X) stable release version 2.34\n" if name.endswith("libc.so.6") else name)
        self.write("../kit/rt", f'''#!/bin/sh
case $1 in version) echo a kit;; doc) echo {self.kit}/START-HERE.md;;
ci) mkdir crates/altqplay/out && eval "echo ${{BUILT:-}}" >crates/altqplay/out/altqplay;; esac
''').chmod(0o755)
        self.git("init", "-q")
        self.commit()

    def write(self, name, text):
        path = self.root / name
        path.parent.mkdir(parents=True, exist_ok=True)
        path.write_text(text)
        return path

    def git(self, *words):
        subprocess.run(["git", "-C", str(self.root), "-c", "user.name=a", "-c", "user.email=a@b", *words], check=True, stdout=subprocess.PIPE)

    def commit(self):
        self.git("add", "-A")
        self.git("commit", "-q", "-m", "a change")

    def build(self, text="#!/bin/sh\n"):
        """What `rt ci` leaves."""
        for name in ("altqplay", "altqplay.by-rattle"):
            self.write(f"crates/altqplay/out/{name}", text).chmod(0o755)
        for name in ("stdout", "stdout.by-rattle"):
            self.write(f"crates/altqplay/out/{name}", "said\n")

    def run(self, script, *words, **more):
        environment = {"PATH": f"{self.kit}:{os.environ['PATH']}", **more}
        done = subprocess.run([str(self.root / "release" / script), *words], stdout=subprocess.PIPE, stderr=subprocess.STDOUT, check=False, env=environment)
        return done.returncode, done.stdout.decode()

    def kept(self):
        self.build()
        assert self.run("keep")[0] == 0
        self.commit()
        return self


@pytest.fixture
def small(tmp_path):
    return Small(tmp_path)


def test_which_program_is_found(small):
    assert small.run("program")[0] == 1
    small.kept()
    assert small.run("program") == (0, f"{small.root}/crates/altqplay/out/altqplay\n")
    late = os.stat(small.root / "crates/altqplay/out/altqplay").st_mtime + 2
    os.utime(small.root / "crates/beside/src/lib.rt", (late, late))
    assert small.run("program")[1].endswith("out/altqplay\n")
    os.utime(small.root / "crates/low/specs/Lib.antt", (late, late))
    assert small.run("program") == (0, f"{small.root}/release/altqplay-x86_64-linux\n")
    assert small.run("program", ALTQPLAY="true")[1].endswith("/true\n")
    assert small.run("program", ALTQPLAY="/none") == (1, "release/program: ALTQPLAY names no program: /none\n")


@pytest.mark.parametrize("name, is_below", [("crates/low/specs/Lib.antt", True), ("crates/altqplay/src/main.rt", True), ("HANDLES", True),
                                            ("crates/beside/src/lib.rt", False), ("crates/altqplay/stdout", False)])
def test_the_sum_is_that_of_what_is_below_the_program(small, name, is_below):
    before = small.run("sources")
    small.write(name, "another text\n")
    assert (small.run("sources") != before) == is_below


def test_the_sum_has_names_and_lines(small):
    before = small.run("sources")
    small.write("crates.txt", "low:\naltqplay: low csv\n# another comment\nbeside:\n")
    assert small.run("sources") == before
    small.write("crates.txt", CRATES.replace("low csv", "low"))
    assert small.run("sources") != before
    small.write("crates.txt", CRATES)
    os.rename(small.root / "crates/low/specs/Lib.antt", small.root / "crates/low/specs/Law.antt")
    assert small.run("sources") != before


def test_what_may_not_be_kept(small):
    assert "run rt ci, or" in small.run("keep")[1]
    small.build()
    small.write("crates/altqplay/out/stdout.by-rattle", "else\n")
    assert "rt ci did not pass" in small.run("keep")[1]
    small.build()
    small.write("crates/low/src/lib.rt", "not committed\n")
    os.utime(small.root / "crates/low/src/lib.rt", (0, 0))
    assert "the sources are not committed: crates/low/src/lib.rt" in small.run("keep")[1]
    late = os.stat(small.root / "crates/altqplay/out/altqplay").st_mtime + 2
    os.utime(small.root / "crates/low/src/lib.rt", (late, late))
    assert "crates/low/src/lib.rt is newer than the program" in small.run("keep")[1]
    assert not (small.root / "release/altqplay-x86_64-linux").exists()


def test_the_same_bytes(small):
    status, said = small.kept().run("check")
    assert status == 0 and said.endswith("has the bytes of the kept program\n")


def test_an_older_text_is_said_and_fails_nothing(small):
    commit = subprocess.run(["git", "-C", str(small.root), "rev-parse", "--short", "HEAD"], stdout=subprocess.PIPE, check=True).stdout.decode().strip()
    small.kept().write("crates/low/src/lib.rt", "another text\n")
    for words in ([], ["--quick"]):
        status, said = small.run("check", *words)
        assert status == 0 and f"of an older text, that of commit {commit}" in said and said.count("\n") == 1


@pytest.mark.parametrize("name", ["release/altqplay-x86_64-linux", "release/altqplay-x86_64-linux.txt"])
def test_a_damaged_program_fails(small, name):
    small.kept().write(name, "program: 12\n")
    assert small.run("check", "--quick")[0] == small.run("check")[0] == 1


def test_another_identity_is_passed_over(small):
    (small.kept().kit / "toolchain/lib/Scrt1.o").write_text("another")
    small.build("other bytes\n")
    status, said = small.run("check")
    assert status == 0 and "under another identity (toolchain/lib/Scrt1.o)" in said
    (small.kit / "rt").unlink()
    if shutil.which("rt") is None:
        assert small.run("check") == (0, "release/: the bytes of the kept program were not compared: the kit is not here\n")


def test_other_bytes_fail(small):
    small.kept().build("other bytes\n")
    status, said = small.run("check")
    assert status == 1 and "other bytes than the kept program" in said


@pytest.mark.parametrize("built, status", [("the same", 0), ("$PWD", 1)])
def test_two_builds_from_nothing(small, built, status):
    done, said = small.run("check", "--anew", BUILT=built)
    assert done == status and (said.endswith("has the same bytes\n") if status == 0 else said.endswith("has different bytes\n"))
