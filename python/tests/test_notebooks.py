"""The notebooks of docs/teaching/notebooks run from above to below, and say what their texts say."""

import importlib.util
import json
import os
import subprocess
import sys

import pytest

from conftest import ROOT

FOLDER = os.path.join(ROOT, "docs", "teaching", "notebooks")
SAID = {"first-play": ["verified", "it goes by share"], "figures": ["32200000", "15600000", "least deadline first", "4740"],
        "own-scheduler": ["packet 13, due moments", "expected at most 11400000", "ends", "10200000"]}


def test_each_notebook_is_tried():
    assert {name[:-6] for name in os.listdir(FOLDER) if name.endswith(".ipynb")} == set(SAID)


@pytest.mark.skipif(any(importlib.util.find_spec(name) is None for name in ("nbconvert", "ipykernel")), reason="nbconvert or ipykernel is not installed")
@pytest.mark.parametrize("name", SAID)
def test_notebook(name, program, tmp_path):
    kept = {key: os.environ[key] for key in ("PATH", "ALTQPLAY") if key in os.environ}
    env = {**kept, "PYTHONPATH": os.path.join(ROOT, "python"), "PYTHONDONTWRITEBYTECODE": "1", "HOME": str(tmp_path)}
    words = ["--to", "notebook", "--execute", "--output-dir", str(tmp_path), os.path.join(FOLDER, f"{name}.ipynb")]
    done = subprocess.run([sys.executable, "-m", "nbconvert", *words], env=env, capture_output=True, text=True, timeout=300, check=False)
    assert done.returncode == 0, done.stderr
    with open(tmp_path / f"{name}.ipynb", encoding="utf-8") as file:
        cells = json.load(file)["cells"]
    said = "".join("".join(out.get("text", out.get("data", {}).get("text/plain", ""))) for cell in cells for out in cell.get("outputs", []))
    assert all(text in said for text in SAID[name]), said


@pytest.mark.parametrize("name", SAID)
def test_notebook_is_kept_without_outputs(name):
    with open(os.path.join(FOLDER, f"{name}.ipynb"), encoding="utf-8") as file:
        cells = json.load(file)["cells"]
    assert all(not cell.get("outputs") and cell.get("execution_count") is None for cell in cells)
