#!/usr/bin/env python3
"""Writes the tables of docs/inside/PROVED.md and of README.md on what is proved, from docs/inside/proved.txt and the names in crates/.

proved.txt has a line for each row, its cells parted by `|`, in three sections:

    [promises TITLE]   SENTENCE | CRATE/NAME[.MEMBER], ..
    [crates]           CRATE, .. | PROMISE | CLAUSE, .. | WHAT IS NOT PROVED | MORE
    [definitions]      CRATE/specs/FILE, .. | WHAT THEY SAY

A NAME is a function, a type or a definition, and a MEMBER a clause of that function or a field of that record. Each is looked up in
src/ or specs/ of its crate, and the file where it stands is written beside it. A name, a file or a crate that is not there, and a crate
of crates.txt without a row, is a fault: then nothing is written, and the exit status is 1.

With --check nothing is written: it is a fault where a page does not have what would be written.
"""

import functools
import glob
import os
import re
import sys

ROOT = os.path.dirname(os.path.dirname(os.path.abspath(__file__)))
DATA, PROVED, README = "docs/inside/proved.txt", "docs/inside/PROVED.md", "README.md"
MARK = re.compile(r"(<!-- written by docs/write_proved\.py: (\w+) -->\n).*?(<!-- end -->\n)", re.S)


def text_of(path):
    with open(os.path.join(ROOT, path), encoding="utf-8") as file:
        return file.read()


def sections(text):
    """The sections of the data, each a title and its rows, which are lists of cells."""
    found = []
    for line in text.split("\n"):
        if line.startswith("["):
            found.append((line.strip("[]"), []))
        elif line and not line.startswith("#"):
            found[-1][1].append([cell.strip() for cell in line.split("|")])
    return found


@functools.lru_cache(maxsize=None)
def sources(crate):
    """The texts of a crate's code and definitions, by path."""
    names = [name for part in ("specs/**/*.antt", "src/**/*.rt") for name in sorted(glob.glob(os.path.join(ROOT, "crates", crate, part), recursive=True))]
    return {os.path.relpath(name, os.path.join(ROOT, "crates")): text_of(name) for name in names}


def contracts(text, name):
    """The contracts of the functions of a name: from the name to the body."""
    return [found[1] for found in re.finditer(rf"\bfn {name}\b(.*?)(?:^\s*\{{|;$)", text, re.M | re.S)]


def records(text, name):
    """The fields of the records of a name: the indented lines behind its head."""
    return [found[1] for found in re.finditer(rf"\brecord {name}\b[^\n]*\n((?:[ \t]+[^\n]*\n)*)", text + "\n")]


def declares(text, name, member):
    """Whether a file declares a name, and of it a member where one is named."""
    if not member:
        return re.search(rf"\b(?:fn|struct|enum|trait|record|data) {name}\b|^(?:(?:abbrev|unfoldable|pub)\s+)*{name} :", text, re.M) is not None
    return (any(re.search(rf"\bensures {member}\b", inside) for inside in contracts(text, name))
            or any(re.search(rf"^\s*pub {member} :", inside, re.M) for inside in records(text, name)))


def place(crate, name, faults):
    """The file of a crate that declares a name."""
    first, _, member = name.partition(".")
    found = next((path for path, text in sources(crate).items() if declares(text, first, member)), None)
    if found is None:
        faults.append(f"{DATA}: crates/{crate} has no {name}")
    return found or "?"


def promises(rows, faults):
    """A row for each promise: its sentence, the clause or field, the function or record, the file."""
    yield "| promise | clause or field | of | file in crates/ |"
    yield "|---|---|---|---|"
    for sentence, names in rows:
        cited = [tuple(name.strip().split("/", 1)) for name in names.split(",")]
        places = list(dict.fromkeys(place(crate, name, faults) for crate, name in cited))
        members = ", ".join(f"`{name.partition('.')[2] or name}`" for _crate, name in cited)
        wholes = ", ".join(dict.fromkeys(f"`{name.partition('.')[0]}`" for _crate, name in cited if "." in name))
        yield f"| {sentence} | {members} | {wholes} | {', '.join(places)} |"


def clauses(crates, names, faults):
    """The clauses of a row of crates, each looked up in one of them."""
    for name in filter(None, (name.strip() for name in names.split(","))):
        first, _, member = name.partition(".")
        if not any(declares(text, first, member) for crate in crates for text in sources(crate).values()):
            faults.append(f"{DATA}: {', '.join(crates)}: no {name}")
        yield f"`{member}` of `{first}`" if member else f"`{first}`"


def crate_rows(rows, faults):
    """A row for each crate, or a few that go together."""
    yield "| crate | promise | clauses | not proved |"
    yield "|---|---|---|---|"
    for names, promise, cited, rest, *more in rows:
        crates = [name.strip() for name in names.split(",")]
        found = ", ".join(clauses(crates, cited, faults))
        ticked = ", ".join(f"`{name}`" for name in crates)
        yield f"| {ticked} | {'; '.join([promise, *filter(None, more)])} | {found} | {rest} |"


def listed(rows, faults):
    """Looks whether the rows name each crate of crates.txt once, and no other."""
    named = [name.strip() for row in rows for name in row[0].split(",")]
    known = re.findall(r"^([a-z]\w*):", text_of("crates.txt"), re.M)
    for name in sorted(set(named) ^ set(known)) + sorted({name for name in named if named.count(name) > 1}):
        faults.append(f"{DATA}: crate {name} has no row, two, or is not in crates.txt")


def definitions(rows, faults):
    """The definitions in reading order."""
    for number, (files, what) in enumerate(rows, 1):
        for name in files.split(","):
            path = os.path.join(ROOT, "crates", name.strip())
            if not (os.path.isdir(path) or os.path.isfile(path + ".antt")):
                faults.append(f"{DATA}: no definition {name.strip()}")
        yield f"{number}. `{'`, `'.join(name.strip() for name in files.split(','))}`: {what}"


def parts(faults):
    """What is written between the marks of the pages, by the word of the mark."""
    found = {}
    for title, rows in sections(text_of(DATA)):
        kind, _, heading = title.partition(" ")
        if kind == "promises":
            found.setdefault("promises", []).extend([f"### {heading}", "", *promises(rows, faults), ""])
        elif kind == "crates":
            listed(rows, faults)
            found["crates"] = list(crate_rows(rows, faults))
        else:
            found["definitions"] = list(definitions(rows, faults))
    return found


def main(words):
    if set(words) - {"--check"}:
        print("usage: write_proved.py [--check]", file=sys.stderr)
        return 2
    faults = []
    found = parts(faults)
    for page in (PROVED, README):
        old = text_of(page)
        new = MARK.sub(lambda match: match[1] + "".join(line + "\n" for line in found[match[2]]) + match[3], old)
        if "--check" in words and new != old:
            faults.append(f"{page}: not as docs/write_proved.py writes it: run it")
        elif not faults and new != old:
            with open(os.path.join(ROOT, page), "w", encoding="utf-8") as file:
                file.write(new)
    for fault in dict.fromkeys(faults):
        print(fault)
    return 1 if faults else 0


if __name__ == "__main__":
    sys.exit(main(sys.argv[1:]))
