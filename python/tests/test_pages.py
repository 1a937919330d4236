"""What docs/check_pages.py and docs/write_proved.py find: names of pages that are gone, by names that were."""

import importlib.util
import os
import subprocess
import sys

import pytest
from conftest import ROOT


def script(name):
    """A script of docs/ as a module."""
    spec = importlib.util.spec_from_file_location(name, os.path.join(ROOT, "docs", name + ".py"))
    module = importlib.util.module_from_spec(spec)
    spec.loader.exec_module(module)
    return module


CHECK, PROVED = script("check_pages"), script("write_proved")


@pytest.mark.parametrize("line, why", [
    ("`busy_laws` has it", "no name busy_laws"), ("`classes_are_queues`", "no name classes_are_queues"), ("`Conf::biuld`", "no word biuld"),
    ("`done` of `run`", "no done of run"), ("`packets_are_timely` of `hfsc_policy`", "no packets_are_timely of hfsc_policy")])
def test_names_that_are_gone(line, why):
    assert list(CHECK.wrong_names(line)) == [why]


@pytest.mark.parametrize("line", ["`ends` of `run`", "`packets_are_timely` of `hfsc_laws`", "`never_idles` of `KeepsHfsc`", "`Conf::build`", "`rt 8M 10 0`"])
def test_names_that_are_there(line):
    assert not list(CHECK.wrong_names(line))


@pytest.mark.parametrize("line, why", [
    ("docs/HFSC.md", "no path docs/HFSC.md"), ("play_cli/specs/Refused", "no path play_cli/specs/Refused"), ("robust/none.py", "no path robust/none.py")])
def test_paths(line, why):
    assert list(CHECK.wrong_paths(line)) == [why]
    assert not list(CHECK.wrong_paths("docs/reference/HFSC.md, hfsc_model/specs/Share.antt, example/out/made.csv, python/altqplay/workbench/pf_*"))


@pytest.mark.parametrize("line, why", [
    ("[x](NONE.md)", "no file NONE.md"), ("[x](HFSC.md#by-fair-time)", "no heading for HFSC.md#by-fair-time"),
    ('[x](HFSC.md), "By fair time"', 'docs/reference/HFSC.md has no chapter "By fair time"'),
    ('"By fair time" of [x](HFSC.md)', 'docs/reference/HFSC.md has no chapter "By fair time"')])
def test_links(line, why):
    page = "docs/reference/MANUAL.md"
    assert list(CHECK.wrong_links(page, line)) == [why]
    assert not list(CHECK.wrong_links(page, '[x](HFSC.md#by-real-time), "By real time" and "By share". "Words" of [x](MANUAL.md)'))


@pytest.mark.parametrize("line, why", [
    ("$ altqwork draw x", "no subcommand altqwork draw"), ("`altqwork late --fast`", "no option altqwork late --fast"),
    ("$ altqplay play --rate 3", "no option altqplay play --rate"), ("robust/real_files.py --slow", "no option robust/real_files.py --slow")])
def test_commands(line, why):
    assert list(CHECK.wrong_commands(line)) == [why]
    assert not list(CHECK.wrong_commands("$ altqwork try x --line a && altqplay check --config c --interface i; robust/real_files.py --quick"))


def test_a_clause_is_found_where_it_stands():
    faults = []
    assert PROVED.place("play_cli", "run.ends", faults) == "play_cli/src/program.rt"
    assert PROVED.place("altq_model", "KeepsLaws.ordered", faults) == "altq_model/specs/Laws.antt"
    assert PROVED.place("interface_play", "PlayFails", faults) == "interface_play/specs/Failing.antt"
    assert not faults
    for crate, name in [("play_cli", "run.sings"), ("altq_model", "KeepsLaws.sorted"), ("altq_model", "KeepsLawz"), ("hfsc_laws", "run.plays")]:
        assert PROVED.place(crate, name, faults) == "?"
    assert len(faults) == 4


def test_the_pages_are_right():
    for words in (["check_pages.py"], ["write_proved.py", "--check"]):
        done = subprocess.run([sys.executable, os.path.join(ROOT, "docs", words[0]), *words[1:]], stdout=subprocess.PIPE, check=False)
        assert (done.returncode, done.stdout) == (0, b"")
