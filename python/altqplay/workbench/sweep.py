"""Plays a grid: configurations, each changed in a rate, over captures and seeds, on all processors, into one table and one plot.

    altqwork sweep today.conf --set 'rest rt=1M,2M,2.8M,3.6M' --seeds 1-3 --into results --arrivals monday.pcap tuesday.pcap

--set 'CLASS WORD=V,V' puts each value in the place of what the configurations say: of `rt`, `ls`, `sc` and `ul` a rate, for a line,
or a curve of two slopes as 3M/10/1500K, which is 3M for 10 ms and then 1500K; of `exactbandwidth`, `pbandwidth`, `pshare`,
`priority` and `qlimit` the value itself. `bandwidth=V,V` without a class is that of the interface. Several --set make a grid. The
captures are such as the program reads; altqwork convert makes them.

table.csv in the folder has a row for each run and each class that holds packets, delays in nanoseconds, its last word `ok` or what
failed. With --want, which may be given several times, the table also says of each class what the run makes of what is asked of it,
and how much of that is not kept. plot.html draws the greatest delay and the drops of each class. A sweep that was cut off goes on where it stopped: what is done stands in runs.jsonl,
and is made again only where the configuration, the capture, the seed or the program is another. --scheduler HOST:PORT plays by
dask.distributed in place of this machine's processors; what a worker does not have of the package, the program and the captures is
sent to it. The exit status is 0 where all runs are done and keep each want, else 1.
"""

import ctypes
import hashlib
import itertools
import json
import os
import re
import signal
import sys
import tempfile
from collections import namedtuple
from concurrent.futures import ProcessPoolExecutor, as_completed
from concurrent.futures.process import BrokenProcessPool

from . import wants
from .conf import interface_named, read_conf
from .delays import ranks
from .faults import Missing, Refused
from .libraries import advice
from .play import add_program, play, program
from .rows import DROPPED, read_fates, read_stats
from .texts import Times
from .written import new_file

DIES_WITH_PARENT = 1  # PR_SET_PDEATHSIG of prctl(2)
NAME = "sweep"
HELP = "many configurations, rates, captures and seeds into one table and one plot"
CURVES = ("rt", "ls", "sc", "ul")
VALUES = ("exactbandwidth", "pbandwidth", "pshare", "priority", "qlimit")
HEAD = ["config", "settings", "capture", "seed", "class", "packets", "dropped", "median", "of99", "greatest", "answer"]
ASKED = ["wants", "broken"]  # the columns before the answer where something is asked: what the run makes of it, and how much it breaks
RANKS = (50, 99, 100)  # of a hundred delays
FORM = 2  # of what is kept of a run
COLOURS = ["#0072b2", "#d55e00", "#009e73", "#cc79a7", "#000000", "#56b4e9", "#e69f00"]  # tellable apart by the colour-blind (Okabe and Ito)
SETTING = re.compile(r"(?:(\S+)\s+)?(\w+)=(\S+)\Z")

# One run of the grid: what is played, and the key by which a sweep that goes on knows it again.
Run = namedtuple("Run", "config settings text interface capture seed program wants key")


def add_arguments(parser):
    parser.add_argument("--set", dest="settings", action="append", default=[], metavar="'CLASS WORD=V,V,..'", help="values of one option")
    parser.add_argument("--seeds", default="42", metavar="N,N-N", help="seeds, 42 by default")
    parser.add_argument("--into", default="sweep", metavar="FOLDER", help="where the results stand, sweep by default")
    parser.add_argument("--jobs", type=int, metavar="N", help="how many plays at a time; all processors by default")
    parser.add_argument("--scheduler", metavar="HOST:PORT", help="plays on the machines of this scheduler of dask.distributed")
    parser.add_argument("--no-plot", action="store_true", help="makes the table alone")
    wants.add_wants(parser)
    add_program(parser)
    parser.add_argument("--arrivals", nargs="+", required=True, metavar="CAPTURE", help="the captures")
    parser.add_argument("configs", nargs="+", metavar="CONFIG", help="the configurations")


def numbers(text):
    """The seeds of a text as 1,5-9."""
    found: list[int] = []
    for part in text.split(","):
        match = re.fullmatch(r"(\d+)(?:-(\d+))?", part)
        if match is None or int(match[2] or match[1]) < int(match[1]):
            raise Refused(f"--seeds {text}: no seeds, as 1,5-9")
        found += range(int(match[1]), int(match[2] or match[1]) + 1)
    return found


def settings_of(texts):
    """The grid: each choice of a value for each --set, as pairs of what is set and its value."""
    axes = []
    for text in texts:
        match = SETTING.match(text)
        if match is None or not (match[2] in CURVES or match[2] in VALUES or (match[2] == "bandwidth" and not match[1])):
            raise Refused(f"--set {text!r}: not CLASS WORD=VALUES with rt, ls, sc, ul, {', '.join(VALUES)}, or bandwidth=VALUES")
        if match[2] != "bandwidth" and not match[1]:
            raise Refused(f"--set {text!r}: the class is missing")
        values = match[3].split(",")
        if match[2] in CURVES and any(value.count("/") not in (0, 2) for value in values):
            raise Refused(f"--set {text!r}: a curve is a rate, or m1/d/m2 as 3M/10/1500K, d in milliseconds")
        axes.append([((match[1], match[2]), value) for value in values])
    return list(itertools.product(*axes))


def words_of(option, value):
    """A setting as words of a statement."""
    if option not in CURVES:
        return [option, value]
    return [option, *value.split("/")] if "/" in value else [option, value, "0", value]


def changed(text, interface, settings, name):
    """A configuration with settings behind what its statements say, since of two options the later one holds. `Refused` where it has
    no such class."""
    lines = text.replace("\\\n", " ").split("\n")
    for (of, option), value in settings:
        head, found = (["interface", interface] if of is None else [interface, of]), False
        for at, line in enumerate(lines):
            words = re.sub(r"[\[\]]", " ", line.split("#")[0]).split()
            if (words[:2] if of is None else words[2:4] if words[:1] == ["class"] else None) == head:
                lines[at], found = " ".join(words + words_of(option, value)), True
        if not found:
            raise Refused(f"{name}: interface {interface} has no class {of}" if of else f"{name}: no interface {interface}")
    return "\n".join(lines)


def label(settings):
    """What is set, in words."""
    return "; ".join(f"{of} {option}={value}" if of else f"{option}={value}" for (of, option), value in settings) or "-"


def digest(name):
    """What a file holds, in short."""
    found = hashlib.sha256()
    with open(name, "rb") as file:
        for piece in iter(lambda: file.read(1 << 20), b""):
            found.update(piece)
    return found.hexdigest()


def grid(args):
    """All runs, in order."""
    path = os.path.abspath(program(args.program))
    held = {name: digest(name) for name in [*args.arrivals, path]}
    asked, found = tuple(args.wants), []
    for name in args.configs:
        with open(name, encoding="ascii", errors="replace") as file:
            text = file.read()
        interface = interface_named(name, args.interface)
        if asked:
            wants.known(asked, read_conf(name, interface, args.program).classes)
        for settings in settings_of(args.settings):
            made = changed(text, interface, settings, name)
            for capture, seed in itertools.product(args.arrivals, numbers(args.seeds)):
                parts = [str(FORM), made, interface, held[capture], held[path], str(seed), *(want.text for want in asked)]
                key = hashlib.sha256("\0".join(parts).encode()).hexdigest()
                found.append(Run(name, label(settings), made, interface, os.path.abspath(capture), seed, path, asked, key))
    return found


def holders(interface, stats):
    """The classes that hold packets: those without children, and any to which packets came."""
    parents = {one.parent for one in interface.classes.values()}
    return [name for name in stats if name != "*" and (name not in parents or stats[name]["arrived"])]


def class_row(name, stats, fates, asked):
    """The row of a class: packets, drops, delays, and where something is asked, what becomes of it."""
    delays = ranks(fates.delays()[fates.class_is(name) & fates.is_sent], RANKS)
    row = [name, stats["arrived"], sum(stats[reason] for reason in DROPPED), *("" if delay is None else delay for delay in delays)]
    return row + (asked_columns(name, fates, asked) if asked else []) + ["ok"]


def asked_columns(name, fates, asked):
    """What a class's packets make of what is asked of it, and how much of that they break."""
    own = fates.class_is(name)
    verdicts = [wants.judged(want, fates.arrival[own], fates.end[own], fates.length[own], fates.is_sent[own]) for want in asked if want.of == name]
    told = [f"{verdict.want.text.split(' ', 1)[1]} {verdict.told(Times())}" for verdict in verdicts]
    return ["; ".join(told), sum(verdict.state != wants.KEPT for verdict in verdicts)]


def played(run):
    """One run: the rows of its classes, or one with its message. It is called in another process, or on another machine."""
    try:
        with tempfile.TemporaryDirectory(prefix="altqwork-") as folder:
            config = os.path.join(folder, "altq.conf")
            with open(config, "w", encoding="ascii", errors="replace") as file:
                file.write(run.text)
            interface = read_conf(config, run.interface, run.program)
            files = play(config, run.interface, run.capture, folder, run.seed, run.program)
            stats, fates = read_stats(files.stats), read_fates(files.fates)
        names = dict.fromkeys([*holders(interface, stats), *(want.of for want in run.wants)])
        return [class_row(name, stats.get(name, dict.fromkeys(["arrived", *DROPPED], 0)), fates, run.wants) for name in names]
    except (Refused, Missing, OSError) as fault:
        return [["-", "", "", "", "", "", *(["", ""] if run.wants else []), fault.brief() if isinstance(fault, Refused) else str(fault)]]


def finished(name):
    """The runs that a file of results holds: rows by key. A last line that was cut is none; a run that failed is made again."""
    found = {}
    if os.path.exists(name):
        with open(name, encoding="utf-8") as file:
            for line in file:
                try:
                    row = json.loads(line)
                except ValueError:
                    continue
                if row["rows"][0][-1] == "ok":
                    found[row["key"]] = row["rows"]
    return found


def stand_back():
    """Leaves an interrupt of the terminal to the process that began this one, and ends this one with that."""
    signal.signal(signal.SIGINT, signal.SIG_IGN)
    signal.signal(signal.SIGTERM, signal.SIG_DFL)
    if sys.platform == "linux":
        ctypes.CDLL(None).prctl(DIES_WITH_PARENT, signal.SIGTERM)


def local(runs, jobs):
    """Plays on this machine's processors; each run with its rows, as it is done. `Refused` where a process of them is killed."""
    pool = ProcessPoolExecutor(jobs, initializer=stand_back)
    try:
        waiting = {pool.submit(played, run): run for run in runs}
        for done in as_completed(waiting):
            yield waiting[done], done.result()
    except BrokenProcessPool:
        raise Refused("a process of the sweep was killed; what was played before is kept, and the same command goes on from there") from None
    finally:
        pool.shutdown(cancel_futures=True)


def remote(runs, scheduler):
    """Plays on the machines of a scheduler; each run with its rows, as it is done."""
    from ..cluster import Cluster

    with Cluster(scheduler) as cluster:
        yield from cluster.answers(played_there, runs, sorted({path for run in runs for path in (run.capture, run.program)}))


def played_there(run, paths):
    """One run on another machine, which has the capture and the program at these paths."""
    return played(run._replace(capture=paths[run.capture], program=paths[run.program]))


def all_played(args, runs):
    """The rows of all runs by key: those that stand in the folder, and those that are made now."""
    store = os.path.join(args.into, "runs.jsonl")
    found = finished(store)
    missing = list({run.key: run for run in runs if run.key not in found}.values())
    print(f"{len(runs)} runs, {len(runs) - len(missing)} of them are there", file=sys.stderr)
    made = remote(missing, args.scheduler) if args.scheduler else local(missing, args.jobs)
    with open(store, "a", encoding="utf-8") as file:
        file.write("\n")
        for count, (run, rows) in enumerate(made, 1):
            found[run.key] = rows
            file.write(json.dumps({"key": run.key, "rows": rows}) + "\n")
            file.flush()
            what = f"{run.config} {run.settings} {os.path.basename(run.capture)} seed {run.seed}"
            print(f"{count}/{len(missing)} {what}: {rows[0][-1]}", file=sys.stderr)
    return found


def table(runs, found):
    """The rows of the table, in the order of the grid."""
    return [[run.config, run.settings, os.path.basename(run.capture), run.seed, *row] for run in runs for row in found[run.key]]


def quoted(value):
    """A field of CSV (RFC 4180)."""
    text = str(value)
    return '"' + text.replace('"', '""') + '"' if re.search(r'[",\n\r]', text) else text


def write_table(name, rows, is_asked):
    head = [*HEAD[:-1], *(ASKED if is_asked else []), HEAD[-1]]
    with new_file(name, "w", encoding="utf-8") as file:
        file.writelines(",".join(map(quoted, row)) + "\n" for row in [head, *rows])


def plot(name, rows):
    """Writes a page: for each class the greatest delay in milliseconds and the drops of each run, in one colour."""
    from plotly import graph_objects, subplots

    figure = subplots.make_subplots(rows=2, cols=1, shared_xaxes=True, subplot_titles=["greatest delay, ms", "packets dropped"])
    good = [row for row in rows if row[-1] == "ok"]
    for number, of in enumerate(dict.fromkeys(row[4] for row in good)):
        own = [row for row in good if row[4] == of]
        where = [f"{row[0]} {row[1]}<br>{row[2]} seed {row[3]}" for row in own]
        colour = COLOURS[number % len(COLOURS)]
        style = {"name": of, "mode": "markers+lines", "legendgroup": of, "marker": {"symbol": number % 8, "size": 9, "color": colour}, "line": {"color": colour}}
        heights = [row[9] / 10**6 if row[9] != "" else None for row in own]
        figure.add_trace(graph_objects.Scatter(x=where, y=heights, **style), row=1, col=1)
        figure.add_trace(graph_objects.Scatter(x=where, y=[row[6] for row in own], showlegend=False, **style), row=2, col=1)
    figure.update_layout(template="plotly_white", height=800, title="altqwork sweep")
    with new_file(name, encoding="utf-8") as file:
        figure.write_html(file, include_plotlyjs=True)


def run(args):
    runs = grid(args)
    os.makedirs(args.into, exist_ok=True)
    found = all_played(args, runs)
    rows = table(runs, found)
    write_table(os.path.join(args.into, "table.csv"), rows, bool(args.wants))
    failed = sum(row[-1] != "ok" for row in rows)
    breaking = sum(any(row[-2] for row in found[run.key] if row[-1] == "ok") for run in runs) if args.wants else 0
    if not args.no_plot and failed < len(rows):
        try:
            plot(os.path.join(args.into, "plot.html"), rows)
        except ModuleNotFoundError as fault:
            raise Missing(f"the Python library {fault.name} is not installed: {advice(fault.name)}, or say --no-plot") from None
    print(f"{os.path.join(args.into, 'table.csv')}: {len(runs)} runs, {failed} failed" + (f", {breaking} break a want" if args.wants else ""))
    return 1 if failed or breaking else 0
