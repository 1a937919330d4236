"""Sweeps: a grid of options over captures and seeds, played on this machine or on the machines of a scheduler, into one tidy table."""

from __future__ import annotations

import hashlib
import itertools
import json
import os
import re
import tempfile
from concurrent.futures import ThreadPoolExecutor, as_completed
from typing import Any, Iterable, Iterator, Mapping, NamedTuple, Optional, Sequence, Union

import pandas

from .workbench import play as finding
from .workbench.conf import Interface
from .workbench.delays import RANKS, ranks
from .workbench.faults import Refused
from .workbench.plays import Side
from .workbench.rows import DROPPED, read_fates
from .workbench.wants import busy

from .cluster import Cluster, digest
from .inputs import Conf, Packets, capture_file, interface_name, text_of
from .running import interface_of, run

CURVES = ("rt", "ls", "sc", "ul")
DRAWING = {"red", "ecn", "rio"}  # options of classes that draw words of the seed
DELAYS = ("least", "median", "of99", "greatest")
METRICS = ("packets", "sent", "dropped", *DROPPED, "rate", *DELAYS, "missed", "late", "worst")
Value = Union[str, int, bool, None]


class Task(NamedTuple):
    """One play: the text of its configuration, the interface, the paths of the capture and the program, and the seed."""

    text: str
    interface: str
    capture: str
    seed: int
    program: str
    metrics: tuple[str, ...]


def words_of(option: str, value: Value) -> list[str]:
    """A setting as words of a statement: a curve as `(2M 10 500K)`, or of one rate a line; True is the option alone.

    >>> words_of("rt", "(2M 10 500K)"), words_of("rt", "2M"), words_of("qlimit", 9), words_of("red", True)
    (['rt', '2M', '10', '500K'], ['rt', '2M', '0', '2M'], ['qlimit', '9'], ['red'])
    """
    if value is True:
        return [option]
    words = re.sub(r"[()\[\],/]", " ", str(value)).split()
    if option in CURVES and len(words) == 1:
        return [option, words[0], "0", words[0]]
    if option in CURVES and len(words) != 3:
        raise Refused(f"{option}={value}: a curve is a rate, or m1 d m2 as (2M 10 500K), d in milliseconds")
    return [option, *words]


def changed(text: str, interface: str, path: str, value: Value) -> str:
    """A configuration in which an option has a value: behind what its statement says, since the later of two holds. `path` is
    `CLASS.OPTION`, or `bandwidth` for the interface's. None and False take an option without a value away.

    >>> changed("interface if0 bandwidth 8M hfsc\\nclass hfsc if0 a root ls 1M 0 1M", "if0", "a.rt", "2M").splitlines()[1]
    'class hfsc if0 a root ls 1M 0 1M rt 2M 0 2M'
    """
    of, _dot, option = path.rpartition(".")
    head = ["class", interface, of] if of else ["interface", interface]
    lines, is_found = text.replace("\\\n", " ").split("\n"), False
    for at, line in enumerate(lines):
        words = re.sub(r"[\[\]]", " ", line.split("#")[0]).split()
        if ([words[0], *words[2:4]] if words[:1] == ["class"] else words[:2]) != head:
            continue
        fixed = 5 if of else 2
        rest = [word for word in words[fixed:] if word != option] if value is None or value is False else words[fixed:] + words_of(option, value)
        lines[at], is_found = " ".join(words[:fixed] + rest), True
    if not is_found:
        raise Refused(f"{path}: interface {interface} has no class {of}" if of else f"{path}: no interface {interface}")
    return "\n".join(lines)


def draws(interface: Interface) -> bool:
    """Whether some class of an interface draws words of the seed."""
    return any(DRAWING & set(words[5:]) for words in interface.lines)


def measured(side: Side, own: Any) -> dict[str, Optional[int]]:
    """All metrics of the packets at some places of a play: counts, bits per second sent while one of them waits or is being sent,
    and nanoseconds."""
    sent = own[side.is_sent[own]]
    found: dict[str, Optional[int]] = {"packets": len(own), "sent": len(sent), "dropped": len(own) - len(sent)}
    found.update({reason: side.count(own, reason) for reason in DROPPED})
    time = busy(side.arrival[sent], side.end[sent])
    found["rate"] = 8 * 10**9 * int(side.length[sent].sum()) // time if time else None
    found.update(zip(DELAYS, ranks(side.end[sent] - side.arrival[sent], RANKS)))
    missed = side.missed[own[side.has_due[own]]]
    found.update(missed=int((missed > 0).sum()), late=int(side.is_late[own].sum()), worst=int(missed.max())) if len(missed) else found.update(missed=None, late=None, worst=None)
    return found


def played(task: Task, paths: Mapping[str, str]) -> list[dict[str, Any]]:
    """The rows of a play, one for each class, or one with what was refused. `paths` has the files on this machine."""
    program, capture = paths[task.program], paths[task.capture]
    try:
        with tempfile.TemporaryDirectory(prefix="altqplay-") as folder:
            config = os.path.join(folder, "altq.conf")
            with open(config, "w", encoding="utf-8") as file:
                file.write(task.text)
            interface = interface_of(config, task.interface, program)
            words = ["--config", config, "--interface", task.interface, "--arrivals", capture, "--seed", str(task.seed)]
            run(["play", *words, *(word for name in ("departures", "fates", "stats") for word in (f"--{name}", os.path.join(folder, name)))], program)
            side = Side("play", interface, read_fates(os.path.join(folder, "fates")))
        rows = [(name, measured(side, side.class_is(name))) for name in side.classes()]
        return [{"class": name, **{metric: values[metric] for metric in task.metrics}, "answer": "ok"} for name, values in rows]
    except Refused as fault:
        return [{"class": "-", **dict.fromkeys(task.metrics), "answer": fault.brief()}]


def key_of(task: Task, held: Mapping[str, str]) -> str:
    """What tells a play from others: its configuration, capture, seed, program and metrics."""
    parts = [task.text, task.interface, held[task.capture], str(task.seed), held[task.program], *task.metrics]
    return hashlib.sha256("\0".join(parts).encode()).hexdigest()


def sweep(conf: Conf, packets: Union[Packets, Mapping[str, Packets]], grid: Mapping[str, Sequence[Value]], seeds: Iterable[int] = (42,),
          metrics: Sequence[str] = METRICS, *, interface: Optional[str] = None, jobs: int = 2, scheduler: Optional[str] = None,
          store: Optional[str] = None, program: Optional[str] = None) -> pandas.DataFrame:
    """Plays a grid, and gives a row for each of its points, each capture, each seed and each class.

    `grid` has values by path, as `{"hi.rt": ["2M", "(2M 10 500K)"], "lo.qlimit": [50, 300], "lo.red": [True, False], "bandwidth": ["8M"]}`.
    `packets` is one capture or table, or several by name. Columns are the paths of the grid, `capture`, `seed`, `class`, the metrics,
    and `answer`, `ok` or what was refused. Times are nanoseconds, `rate` bits per second sent while a packet of the class waits or is
    being sent. Where no class draws a word, a play is made once for all seeds.

    So many plays as `jobs` run at a time, or all workers of the scheduler of dask.distributed at `scheduler`, as `host:8786`. With
    `store` a file keeps what is done, and a sweep that was cut off goes on where it stopped. The table is the same however it was made.
    """
    unknown = [metric for metric in metrics if metric not in METRICS]
    if unknown:
        raise Refused(f"no metric {unknown[0]}: {', '.join(METRICS)}")
    path = os.path.abspath(finding.program(program))
    with tempfile.TemporaryDirectory(prefix="altqplay-") as folder:
        captures = captures_of(packets, folder)
        points = points_of(conf, grid, interface, folder, path)
        choices = list(itertools.product(points, captures.items(), list(seeds)))
        tasks = [Task(point.text, point.interface, capture, seed if point.draws else 0, path, tuple(metrics)) for point, (_name, capture), seed in choices]
        found = all_played(list(dict.fromkeys(tasks)), jobs, scheduler, store)
    rows = [{**point.values, "capture": name, "seed": seed, **row} for (point, (name, _path), seed), task in zip(choices, tasks) for row in found[task]]
    table = pandas.DataFrame(rows, columns=[*grid, "capture", "seed", "class", *metrics, "answer"])
    return table.astype({metric: "Int64" for metric in metrics})


class Point(NamedTuple):
    """A point of a grid: its values, its configuration and interface, and whether a class draws words."""

    values: dict[str, Value]
    text: str
    interface: str
    draws: bool


def points_of(conf: Conf, grid: Mapping[str, Sequence[Value]], interface: Optional[str], folder: str, program: str) -> list[Point]:
    """All points of a grid, in the order of its values. One that is refused draws nothing; its play says why."""
    text, config, found = text_of(conf), os.path.join(folder, "altq.conf"), []
    for values in itertools.product(*grid.values()):
        with open(config, "w", encoding="utf-8") as file:
            file.write(text)
        name, made = interface_name(config, interface), text
        for path, value in zip(grid, values):
            made = changed(made, name, path, value)
        with open(config, "w", encoding="utf-8") as file:
            file.write(made)
        try:
            is_drawing = draws(interface_of(config, name, program))
        except Refused:
            is_drawing = False
        found.append(Point(dict(zip(grid, values)), made, name, is_drawing))
    return found


def captures_of(packets: Union[Packets, Mapping[str, Packets]], folder: str) -> dict[str, str]:
    """The captures by name, those of tables written into a folder."""
    if isinstance(packets, (str, os.PathLike)):
        packets = {os.path.basename(os.fspath(packets)): packets}
    elif isinstance(packets, pandas.DataFrame):
        packets = {"packets": packets}
    found = {}
    for place, (name, one) in enumerate(packets.items()):
        own = os.path.join(folder, str(place))
        os.mkdir(own)
        found[name] = os.path.abspath(capture_file(one, own))
    return found


def all_played(tasks: list[Task], jobs: int, scheduler: Optional[str], store: Optional[str]) -> dict[Task, list[dict[str, Any]]]:
    """The rows of all plays: those that the store has, and those that are made now."""
    files = sorted({path for task in tasks for path in (task.capture, task.program)})
    held = {path: digest(path) for path in files}
    kept = finished(store)
    found = {task: kept[key_of(task, held)] for task in tasks if key_of(task, held) in kept}
    missing = [task for task in tasks if task not in found]
    for task, rows in remote(missing, scheduler, files) if scheduler and missing else local(missing, jobs):
        found[task] = rows
        if store is not None:
            with open(store, "a", encoding="utf-8") as file:
                file.write("\n" + json.dumps({"key": key_of(task, held), "rows": rows}))
    return found


def finished(store: Optional[str]) -> dict[str, list[dict[str, Any]]]:
    """The plays that a store holds, by key. A last line that was cut is none, and what was refused is asked again."""
    found = {}
    if store is not None and os.path.exists(store):
        with open(store, encoding="utf-8") as file:
            for line in file:
                try:
                    row = json.loads(line)
                except ValueError:
                    continue
                if row["rows"] and row["rows"][0]["answer"] == "ok":
                    found[row["key"]] = row["rows"]
    return found


def local(tasks: list[Task], jobs: int) -> Iterator[tuple[Task, list[dict[str, Any]]]]:
    """Plays on this machine. Threads wait for the program, which is a process of its own."""
    with ThreadPoolExecutor(max(jobs, 1)) as pool:
        waiting = {pool.submit(played, task, {task.capture: task.capture, task.program: task.program}): task for task in tasks}
        for done in as_completed(waiting):
            yield waiting[done], done.result()


def remote(tasks: list[Task], scheduler: str, files: list[str]) -> Iterator[tuple[Task, list[dict[str, Any]]]]:
    """Plays on the machines of a scheduler."""
    with Cluster(scheduler) as cluster:
        for item, rows in cluster.answers(of_tuple, [tuple(task) for task in tasks], files):
            yield Task(*item), rows


def of_tuple(item: Sequence[Any], paths: Mapping[str, str]) -> list[dict[str, Any]]:
    """The rows of a play that came from another machine."""
    return played(Task(*item), paths)
