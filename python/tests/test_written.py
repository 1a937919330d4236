"""Files are whole, or as they were."""

import os
import stat
import subprocess
import sys

import pytest
from altqplay.workbench import play
from altqplay.workbench.faults import Refused
from altqplay.workbench.written import new_file
from conftest import ROOT, classic, example


def test_what_fails_leaves_the_file_as_it_was(tmp_path):
    name = tmp_path / "a.csv"
    name.write_text("before")
    with pytest.raises(KeyboardInterrupt):
        with new_file(name) as file:
            file.write("half of i")
            raise KeyboardInterrupt
    assert name.read_text() == "before" and os.listdir(tmp_path) == ["a.csv"]


def test_a_file_that_was_not_there_is_not_there_until_it_is_whole(tmp_path):
    with new_file(tmp_path / "a.csv", "wb") as file:
        file.write(b"all")
        assert not (tmp_path / "a.csv").exists()
    assert (tmp_path / "a.csv").read_bytes() == b"all" and os.listdir(tmp_path) == ["a.csv"]


def test_permissions_and_links_stay(tmp_path):
    (tmp_path / "a.csv").write_text("before")
    (tmp_path / "a.csv").chmod(0o640)
    (tmp_path / "link").symlink_to("a.csv")
    with new_file(tmp_path / "link") as file:
        file.write("after")
    assert (tmp_path / "link").is_symlink() and (tmp_path / "a.csv").read_text() == "after"
    assert stat.S_IMODE((tmp_path / "a.csv").stat().st_mode) == 0o640


def test_a_new_file_has_the_permissions_of_any_other(tmp_path):
    before = os.umask(0o027)
    try:
        with new_file(tmp_path / "a.csv"):
            pass
    finally:
        os.umask(before)
    assert stat.S_IMODE((tmp_path / "a.csv").stat().st_mode) == 0o640


def test_a_pipe_is_written_as_it_stands(tmp_path):
    os.mkfifo(tmp_path / "pipe")
    call = f"import sys; sys.path.insert(0, {os.path.join(ROOT, 'python')!r}); from altqplay.workbench.written import new_file\n" \
           "with new_file(sys.argv[1]) as file: file.write('said')"
    with subprocess.Popen([sys.executable, "-B", "-c", call, tmp_path / "pipe"]) as writer:
        assert (tmp_path / "pipe").read_text() == "said" and writer.wait() == 0
    assert stat.S_ISFIFO((tmp_path / "pipe").stat().st_mode)


def test_a_folder_that_is_not_there_is_said(tmp_path):
    with pytest.raises(FileNotFoundError), new_file(tmp_path / "none" / "a.csv"):
        pass


def test_a_play_that_fails_leaves_the_files_of_the_one_before(program, tmp_path):
    (tmp_path / "a.pcap").write_bytes(classic(1, [(10**9, bytes(60), 60)]))
    files = play.play(example("altq.conf"), "if0", str(tmp_path / "a.pcap"), str(tmp_path / "into"))
    before = {name: (tmp_path / "into" / name).read_bytes() for name in os.listdir(tmp_path / "into")}
    assert sorted(before) == ["departures.pcap", "fates.csv", "stats.csv"] and files.fates == str(tmp_path / "into" / "fates.csv")
    (tmp_path / "a.pcap").write_bytes(classic(1, [(10**9, bytes(60), 60)] * 2)[:-1])
    with pytest.raises(Refused):
        play.play(example("altq.conf"), "if0", str(tmp_path / "a.pcap"), str(tmp_path / "into"))
    assert {name: (tmp_path / "into" / name).read_bytes() for name in os.listdir(tmp_path / "into")} == before
