#!/usr/bin/env python3
"""Runs the commands that the pages show, and compares what comes out with what the pages show.

Takes names of pages; without them README.md, all pages of docs/ and its folders, and robust/messages.txt are looked at.
With --quiet before them it says nothing but what does not come out as shown and what was left out. It takes two minutes,
100 MB of disk and 200 MB of memory.

A block of a page that is marked `console` holds commands and what they print, on standard output and standard
error together. A line that begins with `$ ` is a command, lines that begin with `> ` continue it, and a line `...`
stands for any lines. The commands of a page are given to one bash, one after the other, in a new folder that
holds bin/, example/, docs/, release/ and python/ of this repository, the program that release/program finds and its
data. So they change nothing here.

Where the program, bash, a tool of TOOLS or what a subcommand of the workbench needs is missing, what needs it is left
out, and named, and so is each later command of the page that names a file which only such a command makes. The exit status
is 0 where what was run came out as shown, else 1, and 2 for other arguments.
"""

import glob
import os
import re
import shutil
import signal
import subprocess
import sys
import tempfile
from collections import namedtuple
from functools import lru_cache

ROOT = os.path.dirname(os.path.dirname(os.path.abspath(__file__)))
RULE = os.path.join(ROOT, "release", "program")  # prints the path of the program
PROGRAM = os.path.join("crates", "altqplay", "out", "altqplay")  # where the commands have it
WORKBENCH = os.path.join("python", "altqwork")
MISSING = 77  # the status of a subcommand of the workbench whose libraries are not there
TOOLS = ["tcpdump", "tshark", "capinfos", "editcap", "gnuplot"]
MESSAGES = os.path.join(ROOT, "robust", "messages.txt")
SECONDS = 600
MARK = "\x01end of a command\x01"

# A command of a page, what it should print, and the number of its line.
Command = namedtuple("Command", "text shown line")


def console_lines(page):
    """The lines of a page that stand in its blocks of commands, each with its number."""
    found, is_inside = [], False
    with open(page, encoding="utf-8") as file:
        for number, line in enumerate(file.read().split("\n"), 1):
            if line.startswith("```"):
                is_inside = line == "```console"
            elif is_inside:
                found.append((number, line))
    return found


def commands(page):
    """The commands of a page, in order."""
    found = []
    for number, line in console_lines(page):
        if line.startswith("$ "):
            found.append(Command([line[2:]], [], number))
        elif line.startswith("> ") and found and not found[-1].shown:
            found[-1].text.append(line[2:])
        elif found:
            found[-1].shown.append(line)
    return found


@lru_cache(maxsize=None)
def has_libraries(subcommand):
    """Whether a subcommand of the workbench has its libraries."""
    done = subprocess.run([os.path.join(ROOT, WORKBENCH), subcommand, "--help"], stdout=subprocess.DEVNULL, stderr=subprocess.DEVNULL, check=False)
    return done.returncode != MISSING


def missing_tool(command):
    """The tool that a command begins with, or that the workbench needs for it, where this machine has it not."""
    text = "\n".join(command.text)
    if not all(map(has_libraries, re.findall(r"\baltqwork (\w+)", text))):
        return "the workbench's libraries"
    if "altqwork" in text and "--picture" in text and not (shutil.which("chromium") or shutil.which("chromium-browser")):
        return "chromium"
    words = text.split()
    return next((tool for tool in TOOLS if words[:1] == [tool] and shutil.which(tool) is None), None)


def makes(command):
    """The files and folders of example/out that a command names, and the functions of the shell that it defines."""
    text = "\n".join(command.text)
    return set(re.findall(r"example/out/[\w./-]*\w", text)), set(re.findall(r"^(\w+)\(\)", text, re.MULTILINE))


def left_out(found):
    """The commands of a page that cannot be run here: those that lack a tool, and those behind them that name what only one of them makes."""
    out, made, named, defined = [], set(), set(), set()
    for command in found:
        files, functions = makes(command)
        is_behind = any(file == one or file.startswith(one + "/") for file in files for one in made)
        if missing_tool(command) or is_behind or defined & set("\n".join(command.text).split()):
            out.append(command)
            made |= files - named
            defined |= functions
        else:
            named |= files
    return out


def is_same(line, shown):
    """Whether a line that was printed is the one shown, or says that the tool for it is missing."""
    absent = re.search(r"(\w+) was not found on this machine", line)
    return line == shown or (absent is not None and absent[1] in TOOLS and shutil.which(absent[1]) is None)


def are_same(lines, shown):
    """Whether the lines that were printed are those shown, `...` standing for any."""
    if not shown:
        return not lines
    if shown[0] == "...":
        return any(are_same(lines[n:], shown[1:]) for n in range(len(lines) + 1))
    return bool(lines) and is_same(lines[0], shown[0]) and are_same(lines[1:], shown[1:])


@lru_cache
def program():
    """The path of the program, empty where there is none."""
    return os.fsdecode(subprocess.run([RULE], stdout=subprocess.PIPE, stderr=subprocess.DEVNULL, check=False).stdout).strip()


def make_room(room):
    """Fills a new folder with what the commands of a page need."""
    for name in ("bin", "example", "docs", "release", "python", os.path.join("crates", "altqplay", "data")):
        shutil.copytree(os.path.join(ROOT, name), os.path.join(room, name), ignore=shutil.ignore_patterns("out", "venv", "__pycache__"))
    os.makedirs(os.path.join(room, os.path.dirname(PROGRAM)))
    shutil.copyfile(program(), os.path.join(room, PROGRAM))
    os.chmod(os.path.join(room, PROGRAM), 0o755)


def printed(todo):
    """What each of the commands prints, as a list of lines; None where it never ended."""
    text = "".join("\n".join(one.text) + f"\nprintf '%s\\n' '{MARK}'\n" for one in todo)
    with tempfile.TemporaryDirectory(prefix="altqplay-docs-") as top, tempfile.TemporaryFile() as output:
        room, script = os.path.join(top, "altqplay"), os.path.join(top, "script")
        make_room(room)
        with open(script, "w", encoding="utf-8") as file:
            file.write(text)
        environment = {**os.environ, "ALTQPLAY": os.path.join(room, PROGRAM), "LC_ALL": "C.UTF-8", "PYTHONDONTWRITEBYTECODE": "1"}
        shell = subprocess.Popen(["bash", script], cwd=room, env=environment, stdin=subprocess.DEVNULL,
                                 stdout=output, stderr=subprocess.STDOUT, start_new_session=True)
        try:
            shell.wait(SECONDS)
        except subprocess.TimeoutExpired:
            os.killpg(shell.pid, signal.SIGKILL)
            shell.wait()
        output.seek(0)
        parts = output.read().decode(errors="replace").split(MARK + "\n")[:-1]
    return [part.splitlines() for part in parts] + [None] * (len(todo) - len(parts))


def faults(todo):
    """What is wrong with each command that does not print what is shown."""
    found = []
    for command, lines in zip(todo, printed(todo)):
        if lines is None:
            found.append(f"line {command.line}: it did not end, or a command before it did not\n    $ {command.text[0]}")
        elif not are_same(lines, command.shown):
            told = [f"    {line}" for part in (["$ " + command.text[0]], ["-- shown"], command.shown, ["-- printed"], lines) for line in part]
            found.append("\n".join([f"line {command.line}: it does not print what is shown", *told]))
    return found


def judge(page, quiet):
    """Runs a page's commands, says what came out, and returns whether all is as shown."""
    found = commands(page)
    passed_over = left_out(found)
    todo = [one for one in found if one not in passed_over]
    wrong = faults(todo) if todo else []
    name = os.path.relpath(page, ROOT)
    for one in wrong:
        print(f"{name}, {one}")
    absent = sorted({missing_tool(one) for one in found} - {None})
    why = f"; left out {len(passed_over)}, since {', '.join(absent)} was not found" if absent else ""
    if found and (absent or not quiet):
        print(f"{name}: {len(todo) - len(wrong)} of {len(todo)} commands print what is shown{why}")
    return not wrong


def main(words):
    options = [word for word in words if word.startswith("-")]
    pages = [os.path.abspath(word) for word in words if not word.startswith("-")]
    if set(options) - {"--quiet"}:
        print("usage: try_commands.py [--quiet] [PAGE ..]", file=sys.stderr)
        return 2
    lacking = [what for what, is_there in [("bash", shutil.which("bash")), ("program", program())] if not is_there]
    if lacking:
        if "--quiet" not in options:
            print(f"try_commands.py: nothing was run, since there is no {' and no '.join(lacking)}")
        return 0
    pages = pages or [os.path.join(ROOT, "README.md"), *sorted(glob.glob(os.path.join(ROOT, "docs", "**", "*.md"), recursive=True)), MESSAGES]
    done = [judge(page, "--quiet" in options) for page in pages]
    return 0 if all(done) else 1


if __name__ == "__main__":
    sys.exit(main(sys.argv[1:]))
