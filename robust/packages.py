#!/usr/bin/env python3
"""Makes the packages of a release, installs each in a clean root of Debian, uses it there, and removes it.

    packages.py [--suites SUITE,SUITE] [--mirror URL] [--here]

The packages are made twice, here and in a clone at another path under another umask, and must have the same bytes. lintian and twine
look at them, where they are installed. Then mmdebstrap makes a root of each suite, bookworm and trixie, which has Python and the
libraries of the workbench; in it the package of Debian is installed by dpkg, the archive is unpacked, and the wheel is installed by pip
without a network in a new venv, where robust/tour.py uses each function of the Python package. Each plays the office link of docs,
verifies the play, writes a page and is removed; nothing of it may be left. With --here, or where mmdebstrap is not installed, the archive and the wheel alone are tried, on this machine.

It needs root, or what mmdebstrap needs in its place, and a mirror of Debian; it takes some three minutes for each suite, and is no
part of the gate. The exit status is 0 where all went well, 1 where something did not, and 2 for other words.
"""

import argparse
import os
import shutil
import subprocess
import sys
import tempfile

ROOT = os.path.dirname(os.path.dirname(os.path.abspath(__file__)))
INSIDE = ["python3", "python3-venv", "python3-numpy", "python3-pandas", "python3-plotly"]

# Uses what is installed, in a new folder: $1 has the examples. The counts are those that docs/operators/OPERATING.md shows.
USE = r"""
show() {
    printf '$ %s\n' "$*"
    "$@"
}
use() {
    cp "$1"/office.* .
    files='--config office.conf --interface if0 --arrivals office.pcap --departures departures.pcap --fates fates.csv'
    show altqplay play $files --stats stats.csv --seed 42
    printf '%s\n' class,arrived,arrivedbytes,raised,sent,sentbytes,full,early,forced voice,200,42800,0,200,42800,0,0,0 \
        bulk,240,363360,0,163,246782,77,0,0 rest,180,180000,0,180,180000,0,0,0 '*,620,586160,0,543,469582,77,0,0' | cmp - stats.csv
    show altqplay verify $files
    show altqwork --version
    show altqwork report --config office.conf office.pcap page.html
    show grep -c '</html>' page.html
    status=0; altqplay --help >/dev/null 2>help.txt || status=$?
    echo "\$ altqplay --help, status $status: $(head -n 1 help.txt)"
    [ $status -eq 2 ]
}
left() {
    status=0; command -v altqplay || status=$?
    [ $status -ne 0 ] && echo "nothing is left of $1"
}
"""
DEBIAN = r"""
echo "== dpkg, Debian $(cat /etc/debian_version)"
show dpkg -i "$packages"/*.deb
cd "$(mktemp -d)"
use /usr/share/doc/altqplay/examples
zcat /usr/share/man/man1/altqplay.1.gz /usr/share/man/man1/altqwork.1.gz | grep '^\.TH'
listed=$(dpkg -L altqplay | grep -v '^/\.$')
show dpkg -P altqplay
hash -r; left "the package"
for file in $listed; do [ -d "$file" ] || [ ! -e "$file" ] || { echo "$file is left"; exit 1; }; done
[ ! -e /usr/share/altqplay ] && [ ! -e /usr/share/doc/altqplay ]
"""
ARCHIVE = r"""
echo "== archive"
cd "$(mktemp -d)"
show tar -xzf "$packages"/*.tar.gz
here=$(echo "$PWD"/altqplay-*)
mkdir room; cd room
path=$PATH; PATH=$here/bin:$PATH; hash -r
use "$here/share/doc/altqplay/examples"
PATH=$path; hash -r; rm -rf "$here"; left "the archive"
"""
WHEEL = r"""
echo "== wheel, $(python3 --version)"
cd "$(mktemp -d)"
examples=$PWD/examples; mkdir examples
tar -xzf "$packages"/*.tar.gz --strip-components=5 -C examples --wildcards '*/share/doc/altqplay/examples'
show python3 -m venv --system-site-packages venv
before=$(find venv | sort)
show venv/bin/pip install --quiet --disable-pip-version-check --no-index --no-deps "$packages"/*.whl
path=$PATH; PATH=$PWD/venv/bin:$PATH; hash -r
mkdir room; cd room; use "$examples"; show python -B "$packages/tour.py"; cd ..
show pip uninstall --quiet --disable-pip-version-check --yes altqplay
PATH=$path; hash -r; left "the wheel"
[ "$before" = "$(find venv | sort)" ] || { find venv -name '*altq*'; exit 1; }
"""


def run(words, **more):
    """Runs a command, shown first, and ends this script where it fails."""
    print("$ " + " ".join(words), flush=True)
    done = subprocess.run(words, check=False, **more)
    if done.returncode != 0:
        sys.exit(f"packages.py: {words[0]} ended with status {done.returncode}")


def same_bytes(folder, room):
    """Makes the packages here and in a clone, and compares their sums."""
    run([os.path.join(ROOT, "release", "make"), folder])
    clone, other = os.path.join(room, "a clone"), os.path.join(room, "other")
    run(["git", "clone", "-q", ROOT, clone])
    run(["sh", "-c", 'umask 077; exec "$0" "$1"', os.path.join(clone, "release", "make"), other], stdout=subprocess.DEVNULL)
    run(["cmp", os.path.join(folder, "SHA256SUMS"), os.path.join(other, "SHA256SUMS")])


def looked_at(folder):
    """Has lintian and twine look at the packages."""
    names = [os.path.join(folder, name) for name in sorted(os.listdir(folder))]
    for tool, words, ending in (("lintian", ["--no-cfg", "--pedantic", "--fail-on", "error,warning,pedantic"], ".deb"),
                                ("twine", ["check", "--strict"], ".whl")):
        if shutil.which(tool):
            run([tool, *words, *(name for name in names if name.endswith(ending))])
        else:
            print(f"passed over: {tool} is not installed")


def in_root(suite, mirror, folder, script):
    """Runs the script in a new root of a suite, where the packages lie in /packages."""
    run(["mmdebstrap", "--quiet", "--variant=minbase", f"--include={','.join(INSIDE)}",
         f"--customize-hook=mkdir \"$1/packages\" && cp '{folder}'/* '{script}' \"$1/packages/\"",
         "--customize-hook=chroot \"$1\" env packages=/packages bash -eu /packages/script", suite, "/dev/null", mirror])


def main():
    parser = argparse.ArgumentParser(description="Tries the packages of a release in clean roots of Debian.")
    parser.add_argument("--suites", default="bookworm,trixie")
    parser.add_argument("--mirror", default="http://deb.debian.org/debian")
    parser.add_argument("--here", action="store_true")
    options = parser.parse_args()
    with tempfile.TemporaryDirectory(prefix="altqplay-packages-") as room:
        folder, script = os.path.join(room, "packages"), os.path.join(room, "script")
        same_bytes(folder, room)
        looked_at(folder)
        shutil.copy(os.path.join(ROOT, "robust", "tour.py"), folder)
        is_here = options.here or not shutil.which("mmdebstrap")
        with open(script, "w", encoding="utf-8") as file:
            file.write(USE + ("" if is_here else DEBIAN) + ARCHIVE + WHEEL)
        if is_here:
            print("passed over: the roots of Debian")
            run(["bash", "-eu", script], env={**os.environ, "packages": folder, "PATH": "/usr/bin:/bin"})
        else:
            for suite in options.suites.split(","):
                in_root(suite, options.mirror, folder, script)
    print("all packages were installed, used and removed")
    return 0


if __name__ == "__main__":
    sys.exit(main())
