#!/usr/bin/env python3
"""Checks that what the pages cite exists: paths, links and their anchors, chapters, names of the code, and words of commands.

  - a path into this repository, and one into a crate (`hfsc_model/specs/Share.antt`), is there;
  - a link leads to a file, its anchor to a heading, and a chapter that is quoted behind a link, or "of" one, is a heading of that page or
    begins a paragraph of it in bold;
  - a name between backticks with a low line or an inner capital is declared in crates/ or stands in a script, and any other word there
    stands somewhere outside the pages; in "`a` of `b`" both are declared together: a clause of a function, a field of a record, a name
    of a crate;
  - a subcommand of altqwork, a command of altqplay and each option behind them is one of theirs, and so is an option behind a script;
  - docs/README.md links each page of docs/, and README.md links docs/README.md.

It takes no words. The exit status is 0 where nothing is wrong, else 1.
"""

import functools
import glob
import os
import re
import sys

ROOT = os.path.dirname(os.path.dirname(os.path.abspath(__file__)))
TOP = "crates|docs|robust|bench|python|example"
PATH = re.compile(rf"(?<![\w/.-])(?:\.\./)*((?:{TOP})/[\w./-]*[\w*]|\.ci/run|crates\.txt)")
IN_CRATE = re.compile(r"(?<![\w/.-])([a-z][a-z0-9_]*)/((?:specs|src|proofs|must-fail)(?:/[\w.-]*\w)*)")
MADE = re.compile(r"/(out|venv|results)(/|$)")  # what scripts make, and what is built
OWN_TEST = "tests/test_pages.py"  # has names that are gone
LINK = re.compile(r"\[[^\]]*\]\(([^)\s]+)\)")
BEHIND = re.compile(r'\]\(([^)\s#]*\.md)[^)]*\)((?:,? (?:and )?"[^"]+")+)')
BEFORE = re.compile(r'((?:"[^"]+"(?:, | and )?)+) of \[[^\]]*\]\(([^)\s#]+\.md)')
TICKED = re.compile(r"`([^`\n]+)`")
NAME = re.compile(r"[A-Za-z_]\w*(?:(?:::|\.)[A-Za-z_]\w*)*(?:\(\))?")
PAIR = re.compile(r"`([A-Za-z_]\w*)` of `([A-Za-z_]\w*)`")
DECLARED = re.compile(r"""\b(?:fn|struct|enum|trait|mod|const|type|static|record|data|ensures|requires|invariant|impl)\s+(?:pub\s+)?([A-Za-z_]\w*)
    |^\s*(?:pub\s+|abbrev\s+|unfoldable\s+|pub\(crate\)\s+)*([A-Za-z_]\w*)\s*:(?!:)|^\s*([A-Z]\w*)\s*[,({]|^(?:\#+\s*|==+\s*|\[)?([a-z]\w+)\s*\]?$|\bcase\s+(\w+)""", re.M | re.X)
ALTQWORK, ALTQPLAY = re.compile(r"\baltqwork ([a-z]+)\b([^|`;&>]*)"), re.compile(r"(?:^|[\s/`(])altqplay ([a-z]+)\b([^|`;&>]*)")
SCRIPT = re.compile(rf"((?:{TOP})/[\w/]*\.py)\b([^|`;&>]*)")
# Words of other programs, of papers and of the kit, which the pages compare with.
OUTSIDE = set("""grind omega harddrop SRTCM TRTCM peakrate mtu upstream bfifo tbf netem minburst maxdelay basic bpf indev trunc linterm_
    fq_codel dst_mac rand_pcg""".split())
OPTION = re.compile(r"(?<![\w-])(--[a-z][\w-]*)")


def text_of(path):
    with open(os.path.join(ROOT, path), encoding="utf-8", errors="replace") as file:
        return file.read()


def files(*patterns):
    """The files of some patterns, below the top, without what is made."""
    found = [os.path.relpath(name, ROOT) for pattern in patterns for name in glob.glob(os.path.join(ROOT, pattern), recursive=True)]
    return sorted(name for name in found if os.path.isfile(os.path.join(ROOT, name)) and not MADE.search("/" + name) and not name.endswith(OWN_TEST))


PAGES = files("*.md", "docs/**/*.md", "bench/*.md", "crates/transcript/*.md")
CODE = files("crates/*/src/**/*.rt", "crates/*/specs/**/*.antt")
CRATES = {os.path.basename(name) for name in glob.glob(os.path.join(ROOT, "crates", "*"))}


@functools.lru_cache(maxsize=None)
def declared_in(path):
    """The names that a file of a crate declares: functions, clauses, types, fields and variants."""
    return {name for groups in DECLARED.findall(text_of(path)) for name in groups if name}


@functools.lru_cache(maxsize=None)
def declared():
    found = set(CRATES)
    for path in CODE:
        found |= declared_in(path) | {os.path.splitext(os.path.basename(path))[0]}
    return found


@functools.lru_cache(maxsize=None)
def words():
    """All words that stand in the repository outside its pages."""
    found = set(CRATES)
    scripts = files("python/**/*", "robust/*", "bench/*.py", "example/**/*", "docs/*.py", ".ci/*", "crates/*/stdin", "crates/*/data/*", "crates/*/src/**/*.rt")
    for path in CODE + [name for name in scripts if not name.endswith((".pcap", ".pcapng", ".png", ".svg", ".gz"))]:
        found |= set(re.findall(r"[A-Za-z_]\w*", text_of(path)))
    return found


@functools.lru_cache(maxsize=None)
def scripted():
    """The words of scripts, of worked plays and of the kit's tools."""
    found = set()
    for path in files("python/**/*.py", "robust/*.py", "bench/*.py", "example/**/*.py", "docs/*.py", "crates/*/stdin", "example/completions/*"):
        found |= set(re.findall(r"[A-Za-z_]\w*", text_of(path)))
    return found


def slug(heading):
    """The anchor of a heading, as GitHub makes it."""
    return re.sub(r"[^\w\- ]", "", heading.strip().lower()).replace(" ", "-")


@functools.lru_cache(maxsize=None)
def headings(page):
    return re.findall(r"^#+ (.*)$", re.sub(r"^```.*?^```", "", text_of(page), flags=re.M | re.S), re.M)


@functools.lru_cache(maxsize=None)
def titles(page):
    """What may be quoted of a page: its headings, and what begins a paragraph or an item in bold."""
    return {re.sub("[.:?]$", "", title) for title in headings(page) + re.findall(r"^(?:- |\d+\. )?\*\*([^*]+)\*\*", text_of(page), re.M)}


def target(page, link):
    """The file that a link of a page leads to."""
    return os.path.normpath(os.path.join(os.path.dirname(page), link))


def wrong_links(page, line):
    for link in LINK.findall(line):
        path, _, anchor = link.partition("#")
        if "://" in link or link.startswith("mailto:"):
            continue
        there = target(page, path) if path else page
        if not os.path.exists(os.path.join(ROOT, there)):
            yield f"no file {link}"
        elif anchor and anchor not in map(slug, headings(there)):
            yield f"no heading for {link}"
    cited = [(path, quoted) for path, quoted in BEHIND.findall(line)] + [(path, quoted) for quoted, path in BEFORE.findall(line)]
    for path, quoted in cited:
        there = target(page, path)
        if os.path.exists(os.path.join(ROOT, there)):
            for title in re.findall(r'"([^"]+)"', quoted):
                if re.sub("[.,:?]$", "", title) not in titles(there):
                    yield f'{there} has no chapter "{title}"'


def wrong_paths(line):
    for path in PATH.findall(line):
        if not MADE.search(path) and not glob.glob(os.path.join(ROOT, path)):
            yield f"no path {path}"
    for crate, rest in IN_CRATE.findall(line):
        found = crate in CRATES and any(os.path.exists(os.path.join(ROOT, "crates", crate, rest + end)) for end in ("", ".antt", ".rt"))
        if not found and crate not in ("crates",):
            yield f"no path {crate}/{rest}"


def is_name(word):
    """Whether a word is a name of code by its form: a low line or an inner capital."""
    return "_" in word.strip("_") or re.search("[a-z][A-Z]", word) is not None


def wrong_names(line):
    for ticked in TICKED.findall(line):
        if NAME.fullmatch(ticked):
            for word in re.split(r"::|\.", ticked.replace("()", "")):
                if is_name(word) and word not in declared() | scripted() | OUTSIDE:
                    yield f"no name {word}"
                elif word not in words() | OUTSIDE and not re.fullmatch("[0-9a-f]{8}", word):
                    yield f"no word {word}"
    for part, whole in [pair for pair in PAIR.findall(line) if pair[0] not in COMMANDS]:
        inside = [path for path in CODE if path.startswith(f"crates/{whole}/")] if whole in CRATES else [path for path in CODE if whole in declared_in(path)]
        if inside and not any(part in declared_in(path) for path in inside):
            yield f"no {part} of {whole}"


@functools.lru_cache(maxsize=None)
def modules():
    """The subcommands of altqwork, each with the file of its module."""
    return dict(re.findall(r'^    "([a-z]+)": "(\w+)",', text_of("python/altqplay/workbench/cli.py"), re.M))


@functools.lru_cache(maxsize=None)
def options_of(pattern):
    """The options that stand in some files."""
    return {option for path in files(pattern) for option in OPTION.findall(text_of(path))}


def wrong_commands(line):
    for name, rest in ALTQWORK.findall(line):
        if name not in modules():
            yield f"no subcommand altqwork {name}"
        for option in OPTION.findall(rest):
            if option not in options_of("python/altqplay/workbench/*.py") | {"--help"}:
                yield f"no option altqwork {name} {option}"
    known = options_of("docs/reference/MANUAL.md")
    for name, rest in ALTQPLAY.findall(line):
        if name in COMMANDS and "# kind 2" not in line:  # such a command shows that its options are refused
            for option in OPTION.findall(rest):
                if option not in known:
                    yield f"no option altqplay {name} {option}"
    for path, rest in SCRIPT.findall(line):
        for option in OPTION.findall(rest):
            if os.path.exists(os.path.join(ROOT, path)) and option not in options_of(path) | {"--help"}:
                yield f"no option {path} {option}"


COMMANDS = set(re.findall(r"^    altqplay (\w+) --", text_of("docs/reference/MANUAL.md"), re.M))


def wrong_lines(page):
    """What is wrong on each line of a page."""
    is_inside = is_run = False
    for number, line in enumerate(text_of(page).split("\n"), 1):
        if line.startswith("```"):
            is_inside, is_run = not is_inside, line == "```console"
            continue
        found = [*wrong_paths(line)] + ([] if is_inside else [*wrong_links(page, line), *wrong_names(line)])
        if not (is_run and line[:2] not in ("$ ", "> ")):
            found += wrong_commands(line)
        for what in found:
            yield f"{page}:{number}: {what}"


def wrong_index():
    """Pages of docs/ that the index does not link."""
    linked = {target("docs/README.md", link.partition("#")[0]) for link in LINK.findall(text_of("docs/README.md"))}
    for page in PAGES:
        if page.startswith("docs/") and page.count("/") > 1 and page not in linked:
            yield f"docs/README.md: no link to {page}"
    if "docs/README.md" not in LINK.findall(text_of("README.md")):
        yield "README.md: no link to docs/README.md"


def main():
    wrong = [fault for page in PAGES for fault in wrong_lines(page)]
    wrong += [f"docs/reference/altqplay.1: {fault}" for line in text_of("docs/reference/altqplay.1").split("\n") for fault in wrong_paths(line)]
    wrong += wrong_index()
    for fault in wrong:
        print(fault)
    return 1 if wrong else 0


if __name__ == "__main__":
    sys.exit(main())
