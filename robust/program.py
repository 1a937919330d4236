"""Runs the program in a folder, and says which statuses and messages docs/reference/MANUAL.md gives it.

The scripts of this folder share it. Nothing here is part of any test of the gate.
"""

import contextlib
import os
import re
import resource
import signal
import subprocess
from collections import namedtuple

ROOT = os.path.dirname(os.path.dirname(os.path.abspath(__file__)))


def found():
    """The program that release/program finds, else the name of the one that is not built."""
    done = subprocess.run([os.path.join(ROOT, "release", "program")], stdout=subprocess.PIPE, stderr=subprocess.DEVNULL, check=False)
    return os.fsdecode(done.stdout).strip() or os.path.join(ROOT, "crates", "altqplay", "out", "altqplay")


PROGRAM = found()

# How a run ended: its status (below 0 the signal that ended it), what stood on standard output and standard error
# after it, and the seconds of processor time that it took.
Run = namedtuple("Run", "status said complaint seconds")

PROCESSOR_SECONDS = 120  # after which a run is ended by a signal

OUTPUTS = ("departures", "fates", "stats")
DEPARTURES_HEAD = bytes.fromhex("4d3cb2a10200040000000000000000000000040001000000")
FATES_HEAD = b"number,arrival,length,class,fate,start,end\n"

CONFIGURATION_FAULTS = (
    "UnknownWord MissingWord BadNumber RateRange BadAddress BadByte TooLong InterfaceTwice NoInterface WrongDiscipline NameTaken NoParent "
    "TwoRoots TooDeep TooManyClasses TooManyFilters TooManyInterfaces ConvexFirst NoShare RealTimeInside InnerQueue TwoDefaults NoDefault NoClass ConditionerTwice"
).split()
CAPTURE_FAULTS = (
    "ShortHead BadMagic BadVersion BadLink ShortRecord EmptyRecord LongRecord BadBlock ShortBlock UnknownInterface BadStamp BadResolution OldPacket"
).split()

# The whole of what is said with each status but 0. With kind 10 of status 6 it could not be said.
MESSAGES = {
    2: rb"altqplay: words refused, kind [1-4]\n",
    3: rb"altqplay: configuration line \d+ word \d+: (?:%s)\n" % "|".join(CONFIGURATION_FAULTS).encode(),
    4: rb"altqplay: capture byte \d+: (?:%s)\n" % "|".join(CAPTURE_FAULTS).encode(),
    5: rb"altqplay: reading (?:configuration|arrivals|departures|fates) failed\n",
    6: rb"altqplay: writing (?:(?:marked )?arrivals|(?:second )?(?:departures|fates|statistics)|path|result) failed\n",
    7: rb"altqplay: limit [1-5] reached\n",
    8: rb"altqplay: out of memory\n",
    10: rb"altqplay: not verified, row \d+ kind [1-9]\n",
}
MADE = re.compile(rb"packets \d+ sent \d+ dropped \d+ end \d+\n")
VERIFIED = re.compile(rb"(?:[\w.:/-]+ worst (?:-?\d+|none)\n)*verified\n")
MEASURED = re.compile(rb"(?:[\w.:/-]+ [\w.:/-]+ (?:gap \d+ bound (?:\d+|none)|bound none)\n)*")
CHECKED = re.compile(rb"(?:(?:interface|class|filter6?|conditioner) [^\n]+\n)*(?:fits|exceeds at \d+ by \d+)\n")


def is_stated(status, said, command):
    """Whether this may stand on standard output after this status of this command, where standard output takes all."""
    if status == 0:
        form = {b"check": CHECKED, b"make": MADE, b"verify": VERIFIED, b"shares": MEASURED}.get(command)
        return said == b"" if form is None else form.fullmatch(said) is not None
    return status in MESSAGES and re.fullmatch(MESSAGES[status], said) is not None


def is_help(run):
    """Whether this may stand on standard error, where it is no terminal: nothing where the run is done, else one to three lines
    of bytes 32 to 126, or eight that say how the program is called; none where standard error is closed or a signal ended the run."""
    return run.complaint == b"" if run.status == 0 else re.fullmatch(rb"(?:[ -~]+\n){0,8}", run.complaint) is not None


def kind_of(run):
    """The status and what its message tells besides, in few words, for a count of how runs ended."""
    told = run.said.rsplit(b"\n", 2)[-2].decode(errors="replace") if run.status and run.said else ""
    return f"{run.status} " + re.sub(r"^altqplay: |configuration line \d+ word \d+: |capture byte \d+: ", "", told)


def words_of(names, seed="1"):
    """The words of `play` over names, a mapping with `config`, `arrivals` and the three outputs."""
    pairs = [(name, names[name]) for name in ("config", "arrivals", *OUTPUTS)]
    return ["play", "--interface", names.get("interface", "if0"), "--seed", seed, *(word for name, value in pairs for word in ("--" + name, value))]


class Late(Exception):
    """A run did not end in the time that it had."""


def _ring(_signal, _frame):
    raise Late


def ended(child, seconds):
    """Waits for a process, at most so many seconds by the clock: its status as waitpid gives it, and what it used."""
    before = signal.signal(signal.SIGALRM, _ring)
    signal.setitimer(signal.ITIMER_REAL, seconds)
    try:
        _child, status, used = os.wait4(child, 0)
    except Late:
        os.kill(child, signal.SIGKILL)
        os.waitpid(child, 0)
        raise
    finally:
        signal.setitimer(signal.ITIMER_REAL, 0)
        signal.signal(signal.SIGALRM, before)
    return status, used


def run(words, folder, seconds=600, environment=None):
    """Runs a command, its words as texts or bytes, where `folder` is the current one, and without standard input.

    What it prints goes to files beside the folder. Signals that Python ignores, of a pipe without a reader and of a file
    that grows too long, and an interrupt end it as they do from a shell, and so does a signal after PROCESSOR_SECONDS. It raises Late where it
    has not ended after so many seconds by the clock, which are many, since the machine may have other work.
    """
    printed, complained = folder.rstrip("/") + ".out", folder.rstrip("/") + ".err"
    flags = os.O_WRONLY | os.O_CREAT | os.O_TRUNC
    actions = [(os.POSIX_SPAWN_OPEN, 0, "/dev/null", os.O_RDONLY, 0),
               (os.POSIX_SPAWN_OPEN, 1, printed, flags, 0o600), (os.POSIX_SPAWN_OPEN, 2, complained, flags, 0o600)]
    here = os.getcwd()
    os.chdir(folder)
    try:
        child = os.posix_spawn(words[0], words, os.environ if environment is None else environment,
                               file_actions=actions, setsigdef=[signal.SIGPIPE, signal.SIGXFSZ, signal.SIGINT])
    finally:
        os.chdir(here)
    with contextlib.suppress(ProcessLookupError, PermissionError):  # it has ended, or is another user's
        resource.prlimit(child, resource.RLIMIT_CPU, (PROCESSOR_SECONDS, PROCESSOR_SECONDS))
    status, used = ended(child, seconds)
    return Run(os.waitstatus_to_exitcode(status), content(printed), content(complained), used.ru_utime + used.ru_stime)


def content(name):
    """The bytes of a file."""
    with open(name, "rb") as file:
        return file.read()


def store(name, data):
    """Makes a file of these bytes."""
    with open(name, "wb") as file:
        file.write(data)


def prepare():
    """Has what is started from now on leave no image of its memory, and begin with the three standard files open alone."""
    resource.setrlimit(resource.RLIMIT_CORE, (0, resource.getrlimit(resource.RLIMIT_CORE)[1]))
    for descriptor in os.listdir("/proc/self/fd"):
        if int(descriptor) > 2:
            with contextlib.suppress(OSError):
                os.set_inheritable(int(descriptor), False)
