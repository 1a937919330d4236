"""`altqplay.sweep`: a grid over any option, and the same table however it was played."""

import importlib.util
import os
import signal
import socket
import subprocess
import sys
import time

import pandas
import pytest

import altqplay
from altqplay import sweeping
from altqplay.inputs import capture_file
from conftest import ROOT

CONF = """interface if0 bandwidth 8M hfsc
class hfsc if0 root NULL pshare 100
class hfsc if0 hi root pshare 50   # calls
class hfsc if0 lo root pshare 50 default
filter if0 hi 0 5004 0 0 udp
"""
PACKETS = pandas.DataFrame({"time_ns": [0] * 9 + [10**6 * at for at in range(1, 60)], "length": [1000] * 68, "port": [80] * 9 + [80, 5004, 80] * 19 + [80, 80]})

pytestmark = pytest.mark.usefixtures("program")
needs_dask = pytest.mark.skipif(importlib.util.find_spec("distributed") is None, reason="dask.distributed is not installed")


@pytest.mark.parametrize("path, value, line", [
    ("hi.rt", "(2M 10 500K)", "class hfsc if0 hi root pshare 50 rt 2M 10 500K"), ("hi.qlimit", 7, "class hfsc if0 hi root pshare 50 qlimit 7"),
    ("lo.red", True, "class hfsc if0 lo root pshare 50 default red"), ("lo.default", False, "class hfsc if0 lo root pshare 50"),
    ("bandwidth", "9M", "interface if0 bandwidth 8M hfsc bandwidth 9M")])
def test_any_option_by_path(path, value, line):
    assert line in sweeping.changed(CONF, "if0", path, value).split("\n")


@pytest.mark.parametrize("path, text", [("no.rt", "no class no"), ("hi.rt", "a curve is a rate")])
def test_faulty_paths(path, text):
    with pytest.raises(altqplay.Refused, match=text):
        altqplay.sweep(CONF, PACKETS, {path: ["1M 2"]})


def test_a_grid_is_a_tidy_table(tmp_path):
    grid = {"lo.qlimit": [2, 50], "hi.rt": ["2M", "9999G"]}
    table = altqplay.sweep(CONF, {"one": PACKETS}, grid, metrics=["packets", "full", "rate", "worst"])
    assert list(table.columns) == ["lo.qlimit", "hi.rt", "capture", "seed", "class", "packets", "full", "rate", "worst", "answer"]
    good, bad = table[table["answer"] == "ok"], table[table["answer"] != "ok"]
    assert len(bad) == 2 and bad["answer"].str.contains("RateRange: altq.conf:3: 9999G: out of range").all() and not bad["answer"].str.contains("\n").any() and set(bad["hi.rt"]) == {"9999G"}
    alone = altqplay.play(CONF.replace("pshare 50 default", "pshare 50 qlimit 2 default").replace("pshare 50   # calls", "pshare 50 rt 2M 0 2M"), PACKETS)
    row = good[(good["lo.qlimit"] == 2) & (good["class"] == "lo")].iloc[0]
    assert row["full"] == alone.stats.set_index("class").loc["lo", "full"] > 0 and row["packets"] == 49
    late = alone.late()
    assert good[(good["lo.qlimit"] == 2) & (good["class"] == "hi")].iloc[0]["worst"] == late[late["class"] == "hi"]["missed"].max()


def test_seeds_are_played_only_where_a_class_draws(monkeypatch, tmp_path):
    made = []
    real = sweeping.played
    monkeypatch.setattr(sweeping, "played", lambda task, paths: made.append(task.seed) or real(task, paths))
    table = altqplay.sweep(CONF, PACKETS, {"lo.red": [False, True]}, seeds=[1, 2, 3], store=str(tmp_path / "store"))
    assert len(made) == 1 + 3 and set(table["seed"]) == {1, 2, 3} and len(table) == 2 * 3 * 2
    again = altqplay.sweep(CONF, PACKETS, {"lo.red": [False, True]}, seeds=[1, 2, 3], store=str(tmp_path / "store"))
    assert again.equals(table) and len(made) == 4


def free_port():
    """A port of this machine that nothing listens on."""
    with socket.socket() as one:
        one.bind(("127.0.0.1", 0))
        return one.getsockname()[1]


@pytest.fixture
def scheduler(tmp_path):
    """A scheduler with two workers, which do not see this package; the address, and the processes."""
    port, env = free_port(), {"PATH": os.environ["PATH"], "HOME": str(tmp_path), "PYTHONDONTWRITEBYTECODE": "1"}
    address = f"tcp://127.0.0.1:{port}"
    words = [["scheduler", "--host", "127.0.0.1", "--port", str(port), "--no-dashboard"], *[["worker", address, "--nthreads", "1", "--no-nanny", "--no-dashboard"]] * 2]
    with open(tmp_path / "cluster.log", "wb") as log:
        started = [subprocess.Popen([sys.executable, "-m", f"distributed.cli.dask_{kind}", *rest], env=env, cwd=tmp_path, stdout=log, stderr=log) for kind, *rest in words]
    yield address, started
    for one in started:
        one.kill()
        one.wait()


@needs_dask
def test_a_cluster_whose_worker_is_killed_makes_the_same_table(scheduler):
    address, started = scheduler
    grid = {"lo.qlimit": list(range(1, 41))}
    from dask import distributed

    with distributed.Client(address, timeout="60s") as client:
        client.wait_for_workers(2, timeout=60)
    plain = altqplay.sweep(CONF, PACKETS, grid)
    killed = []
    real = sweeping.Cluster.answers

    def answers(self, *words):
        for count, one in enumerate(real(self, *words)):
            if count == 3:
                started[1].send_signal(signal.SIGKILL)
                killed.append(started[1].wait())
            yield one

    sweeping.Cluster.answers = answers
    try:
        table = altqplay.sweep(CONF, PACKETS, grid, scheduler=address)
    finally:
        sweeping.Cluster.answers = real
    assert killed and table.equals(plain)


def begun(tmp_path, *more):
    """A sweep of many plays by the command line, after a few of them are done."""
    (tmp_path / "altq.conf").write_text(CONF)
    capture_file(PACKETS, str(tmp_path))
    words = ["sweep", "altq.conf", "--set", f"lo qlimit={','.join(map(str, range(1, 801)))}", "--no-plot", "--into", "swept", *more, "--arrivals", "arrivals.pcap"]
    with open(tmp_path / "said", "wb") as said:
        client = subprocess.Popen([sys.executable, "-B", os.path.join(ROOT, "python", "altqplay", "workbench"), *words], cwd=tmp_path, stdout=said, stderr=said,
                                  preexec_fn=lambda: signal.signal(signal.SIGINT, signal.SIG_DFL))  # also where the tests run in the background
    store, until = tmp_path / "swept" / "runs.jsonl", time.monotonic() + 120
    while not store.exists() or store.read_text().count("{") < 3:
        assert client.poll() is None and time.monotonic() < until, (tmp_path / "said").read_text()
        time.sleep(0.05)
    return client


def below(process):
    """The processes that a process began."""
    found = []
    for name in os.listdir("/proc"):
        if name.isdigit():
            try:
                with open(f"/proc/{name}/stat", encoding="utf-8", errors="replace") as file:
                    found += [int(name)] if int(file.read().rpartition(")")[2].split()[1]) == process else []
            except OSError:
                pass
    return found


def is_there(process):
    """Whether a process runs."""
    try:
        with open(f"/proc/{process}/stat", encoding="utf-8", errors="replace") as file:
            return file.read().rpartition(")")[2].split()[0] != "Z"
    except OSError:
        return False


ENDINGS = [(signal.SIGINT, 130), (signal.SIGTERM, 143), (signal.SIGKILL, -9)]


@pytest.mark.skipif(sys.platform != "linux", reason="the children are found in /proc")
@pytest.mark.parametrize("ending, status", ENDINGS)
def test_a_killed_sweep_leaves_no_traceback_and_no_process(ending, status, tmp_path):
    client = begun(tmp_path, "--jobs", "2")
    children = below(client.pid)
    client.send_signal(ending)
    assert client.wait(60) == status and children
    until = time.monotonic() + 60
    while any(map(is_there, children)):
        assert time.monotonic() < until
        time.sleep(0.05)
    assert "Traceback" not in (tmp_path / "said").read_text()


@pytest.mark.skipif(sys.platform != "linux", reason="the children are found in /proc")
def test_a_killed_process_of_a_sweep_is_told_in_a_sentence(tmp_path):
    client = begun(tmp_path, "--jobs", "2")
    os.kill(below(client.pid)[0], signal.SIGKILL)
    assert client.wait(60) == 2
    said = (tmp_path / "said").read_text()
    assert "Traceback" not in said and said.endswith("altqwork: a process of the sweep was killed; what was played before is kept, and the same command goes on from there\n")


@needs_dask
@pytest.mark.parametrize("ending, status", ENDINGS)
def test_a_killed_client_leaves_no_traceback_and_free_workers(ending, status, scheduler, tmp_path):
    from dask import distributed

    address, _started = scheduler
    with distributed.Client(address, timeout="60s") as other:
        other.wait_for_workers(2, timeout=60)
        client = begun(tmp_path, "--scheduler", address)
        client.send_signal(ending)
        assert client.wait(60) == status
        until = time.monotonic() + 60
        while any(other.processing().values()):
            assert time.monotonic() < until, other.processing()
            time.sleep(0.1)
        assert other.submit(sum, [1, 2]).result(60) == 3 and len(other.scheduler_info()["workers"]) == 2
    assert "Traceback" not in (tmp_path / "said").read_text()


@needs_dask
def test_the_command_line_plays_on_a_cluster(scheduler, altqwork, tmp_path):
    address, _started = scheduler
    config, capture = tmp_path / "altq.conf", tmp_path / "arrivals.pcap"
    config.write_text(CONF)
    capture_file(PACKETS, str(tmp_path))
    tables = []
    for more in ([], ["--scheduler", address]):
        into = tmp_path / f"sweep{len(more)}"
        status, _said, told = altqwork("sweep", config, "--set", "lo qlimit=1,2", "--no-plot", "--into", into, *more, "--arrivals", capture)
        assert status == 0, told
        tables.append((into / "table.csv").read_text())
    assert tables[0] == tables[1] and tables[0].count("ok") == 4


def test_a_file_that_a_worker_lacks_is_written_from_what_was_sent(tmp_path):
    from altqplay import cluster

    name = tmp_path / "here"
    name.write_bytes(b"bytes")
    held = cluster.digest(name)
    assert cluster.path_here(str(name), held, None) == str(name)
    made = cluster.path_here(str(tmp_path / "elsewhere"), held, b"bytes")
    assert open(made, "rb").read() == b"bytes" and os.access(made, os.X_OK)
    with pytest.raises(altqplay.Missing, match="elsewhere2"):
        cluster.path_here(str(tmp_path / "elsewhere2"), held + "0", None)


@needs_dask
def test_no_scheduler_and_no_worker_are_told_within_seconds(tmp_path, monkeypatch):
    from altqplay import cluster

    monkeypatch.setattr(cluster, "SECONDS", 3)
    begun, port = time.monotonic(), free_port()
    with pytest.raises(altqplay.Missing, match="no scheduler answers"):
        altqplay.sweep(CONF, PACKETS, {}, scheduler=f"tcp://127.0.0.1:{port}")
    assert time.monotonic() - begun < 30
    alone = subprocess.Popen([sys.executable, "-m", "distributed.cli.dask_scheduler", "--host", "127.0.0.1", "--port", str(port), "--no-dashboard"],
                             stdout=subprocess.DEVNULL, stderr=subprocess.DEVNULL)
    try:
        monkeypatch.setattr(cluster, "SECONDS", 20)
        with pytest.raises(altqplay.Missing, match="has no worker"):
            altqplay.sweep(CONF, PACKETS, {}, scheduler=f"tcp://127.0.0.1:{port}")
    finally:
        alone.kill()
        alone.wait()
