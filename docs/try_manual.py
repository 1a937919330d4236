#!/usr/bin/env python3
"""Compares the man page and the completions of altqplay with docs/reference/MANUAL.md.

docs/reference/altqplay.1 is rendered by groff and by mandoc, where each is there. Neither may warn, and what comes out must
have these of docs/reference/MANUAL.md: the commands, each option with what it names, each status with its meaning and
kinds, each message, the head rows of fates and statistics, and the words of the fates. Case and blanks are not
compared. The completion for bash must offer the commands, exactly the options of each, each once, and behind
an option names of files, names of interfaces or nothing. That for zsh must name the same options; it is not run.

With --quiet it says nothing but what is wrong. Where neither groff nor mandoc is there the man page is left out,
and without bash its completion. The exit status is 0 where what was looked at is right, else 1, 2 for other arguments.
"""

import re
import shutil
import subprocess
import sys
import tempfile
from pathlib import Path

DOCS = Path(__file__).resolve().parent
PAGE = str(DOCS / "reference" / "altqplay.1")
COMPLETIONS = DOCS.parent / "example" / "completions"
MANUAL = (DOCS / "reference" / "MANUAL.md").read_text(encoding="utf-8")
# Of each command its options, each with the word for its value.
COMMANDS = {name: dict(re.findall(r"(--\w+) (\w+)", line)) for name, line in re.findall(r"^    altqplay (\w+) (--.*)$", MANUAL, re.M)}
# All options, each with the word for its value.
OPTIONS = {option: value for options in COMMANDS.values() for option, value in options.items()}
# Of each tool the commands that look at the page, the last of which gives its text.
TOOLS = {"groff": [["groff", "-man", "-Tutf8", "-ww", PAGE], ["groff", "-man", "-Tutf8", "-ww", "-P-c", "-rHY=0", PAGE]],
         "mandoc": [["mandoc", "-T", "lint", "-W", "all", PAGE], ["mandoc", "-T", "utf8", PAGE]]}
# Completes the line $2, whose words as bash parts them follow. Only within a completion does bash have `compopt`.
SCRIPT = """source "$1"; COMP_LINE=$2 COMP_POINT=${#2} COMP_WORDS=("${@:3}") COMP_CWORD=$(($# - 3))
compopt() { found=('names of files'); last= head=; }; _altqplay; printf '%s\\n' "${COMPREPLY[@]}" """


def run(command):
    return subprocess.run(command, capture_output=True, encoding="utf-8", check=False)


def tables(title):
    """The tables of a section of the manual: lists of rows, which are lists of cells, without the heads."""
    found = re.findall(r"(?:^\|.*\n)+", re.search(rf"^## {title}\n(.*?)(?=^## |\Z)", MANUAL, re.M | re.S)[1], re.M)
    return [[[cell.strip() for cell in line.split("|")[1:-1]] for line in table.splitlines()[2:]] for table in found]


def squeezed(text):
    """A text without case, blanks and marks of code, its hyphens and minus signs one sign."""
    return re.sub(r"[\s`]", "", text).replace("\u2010", "-").replace("\u2212", "-").casefold()


def wanted():
    """What the man page must have: the title of a section, and a text."""
    for name, options in COMMANDS.items():
        yield "SYNOPSIS", " ".join([f"altqplay {name}"] + [f"{option} {value}" for option, value in options.items()])
    for option, what in tables("The commands")[0]:
        yield "OPTIONS", f"{option} {OPTIONS[option.strip('`')]} {what}."
    for code, meaning, kinds in tables("Statuses")[1]:
        yield "EXIT STATUS", f"{code} {meaning}. Kinds: {kinds}."
    for code, cell in tables("Statuses")[0]:
        _, message, rest = cell.split("`", 2)
        yield "DIAGNOSTICS", f"{message} Status {code}{rest}."
    for row in re.findall(r"^    ([a-z]+(?:,[a-z]+)+)$", MANUAL, re.M) + [row[0] for row in tables("The outputs")[1]]:
        yield "FILES", row


def page_faults(tool):
    """What is wrong with the man page as a tool renders it."""
    for command in TOOLS[tool]:
        done = run(command)
        said = done.stderr + (done.stdout if "lint" in command else "")
        if said or done.returncode:
            yield f"{' '.join(command[:-1])} ends with {done.returncode} and says: {said.strip()}"
    parts = re.split(r"^([A-Z][A-Z ]+)$", re.sub(".\x08", "", done.stdout), flags=re.M)
    sections = {title: squeezed(text) for title, text in zip(parts[1::2], parts[2::2])}
    for title, text in wanted():
        if squeezed(text) not in sections.get(title, ""):
            yield f"{tool} renders a section {title} without: {text}"


def lines(conf, names):
    """Lines to complete, each with what must be offered; the configuration has the interfaces of the names."""
    yield "altqplay ", list(COMMANDS)
    for name, options in COMMANDS.items():
        for given in ["", *[option + value for option in options for value in (" x ", "=x ")]]:
            yield f"altqplay {name} {given}", [option for option in options if not re.match(rf"{option}[ =]", given)]
        for option, value in options.items():
            for sign in " =":
                first = "" if option == "--config" else f"--config{sign}{conf} "
                yield f"altqplay {name} {first}{option}{sign}", {"FILE": ["names of files"], "NAME": names}.get(value, [""])


def completion_faults():
    """What is wrong with the completion for bash."""
    with tempfile.NamedTemporaryFile("w", encoding="utf-8") as conf:
        conf.write("# interface no hfsc\ninterface if0 hfsc\nclass hfsc if0 interface NULL\n\tinterface [vlan:1] cbq # two")
        conf.flush()
        for line, found in lines(conf.name, ["if0", "vlan:1"]):
            parts = re.findall(r"[=:]+|[^=:\s]+", line) + ([""] if line.endswith(" ") else [])
            done = run(["bash", "-c", SCRIPT, "bash", str(COMPLETIONS / "altqplay.bash"), line, *parts])
            offered = (done.stdout + done.stderr).split("\n")[:-1]
            if sorted(offered) != sorted(found):
                yield f"bash offers behind '{line}' {offered}, not {found}"


def main(words):
    if set(words) - {"--quiet"}:
        print("usage: try_manual.py [--quiet]", file=sys.stderr)
        return 2
    tools, has_bash = [tool for tool in TOOLS if shutil.which(tool)], shutil.which("bash")
    wrong = [fault for tool in tools for fault in page_faults(tool)] + (list(completion_faults()) if has_bash else [])
    if sorted(re.findall(r"'(--\w+)=\[", (COMPLETIONS / "_altqplay").read_text(encoding="utf-8"))) != sorted(OPTIONS):
        wrong.append("_altqplay does not name the options of the manual")
    notes = ["docs/reference/altqplay.1: " + (f"rendered by {' and '.join(tools)}" if tools else "left out, since there is no groff and no mandoc"),
             "altqplay.bash: " + ("tried" if has_bash else "left out, since there is no bash")]
    for line in wrong + ([] if "--quiet" in words else notes):
        print(line)
    return 1 if wrong else 0


if __name__ == "__main__":
    sys.exit(main(sys.argv[1:]))
