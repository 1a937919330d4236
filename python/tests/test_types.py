"""The package is clean by mypy, and by ruff, or pyflakes where ruff is not installed."""

import os
import shutil
import subprocess

import pytest
from conftest import ROOT

PYTHON = os.path.join(ROOT, "python")


def said(*words):
    """How a tool ends in python/, and what it says."""
    done = subprocess.run(words, cwd=PYTHON, stdout=subprocess.PIPE, stderr=subprocess.STDOUT, check=False)
    return done.returncode, done.stdout.decode()


@pytest.mark.skipif(not shutil.which("mypy"), reason="no mypy")
def test_types():
    status, text = said("mypy", "--soft-error-limit=-1", "--cache-dir", os.path.join(PYTHON, "out", "mypy"))
    assert status == 0, text


@pytest.mark.skipif(not (shutil.which("ruff") or shutil.which("pyflakes3")), reason="neither ruff nor pyflakes")
def test_faults_that_are_seen_without_running():
    status, text = said(*(["ruff", "check"] if shutil.which("ruff") else ["pyflakes3"]), "altqplay")
    assert status == 0, text
