"""The worked plays of docs/reference/HFSC.md, CBQ.md and QUEUE-RULES.md, and what `why` says of one."""

import subprocess

from conftest import example

from altqplay.workbench.play import play

HFSC = ["interface if0 bandwidth 8M hfsc", "class hfsc if0 root NULL pshare 100"]
CBQ = ["interface if0 bandwidth 8M cbq", "class cbq if0 root NULL pbandwidth 100"]
TO_A = "filter if0 a 0 5004 0 0 udp"
VOICE = HFSC + ["class hfsc if0 voice root [sc 4M 5 1M]", "class hfsc if0 data root [sc 0 5 4M] default", "filter if0 voice 0 5004 0 0 17"]
QUARTER = HFSC + ["class hfsc if0 a root pshare 25", "class hfsc if0 b root pshare 75 default", TO_A]
SURPLUS = HFSC + ["class hfsc if0 a root [sc 4M 0 4M]", "class hfsc if0 b root [sc 4M 0 4M] default", TO_A]
HALVES = HFSC + ["class hfsc if0 a root pshare 50", "class hfsc if0 b root pshare 50 default", TO_A]
LIMIT = HFSC + ["class hfsc if0 a root ls 8M 0 8M ul 2M 0 2M default"]
PACED = CBQ + ["class cbq if0 a root exactbandwidth 1M maxburst 1 default"]
ROUNDS = CBQ + ["class cbq if0 a root exactbandwidth 4M borrow default", "class cbq if0 b root exactbandwidth 2M borrow", "filter if0 b 0 5004 0 0 udp"]
LOANS = CBQ + ["class cbq if0 org root exactbandwidth 4M maxburst 1 packetsize 512", "class cbq if0 a org exactbandwidth 250K maxburst 1 packetsize 1000 default"]
BURST = HFSC + ["class hfsc if0 a root pshare 100 qlimit 4 red default"]
NO_NUMBER = ("-", "none", "yes", "no")


def with_words(lines, place, words):
    """A configuration with words more in one of its lines."""
    return lines[:place] + [f"{lines[place]} {words}"] + lines[place + 1:]


class Played:
    """A play in a folder, and what `why` says of it."""

    def __init__(self, altqwork, folder, lines, bursts, seed=42):
        self.altqwork, self.seed = altqwork, seed
        self.config, self.arrivals = folder / "c.conf", folder / "a.pcap"
        self.config.write_text("\n".join(lines) + "\n")
        subprocess.run(["python3", example("capture.py"), self.arrivals, *bursts.split()], check=True)
        self.fates = play(str(self.config), "if0", str(self.arrivals), str(folder), seed).fates

    def why(self, *words):
        return self.altqwork("why", self.fates, self.config, "--arrivals", self.arrivals, "--seed", self.seed, *words)

    def told(self, *words):
        """What is said, where all fates are those of the rules."""
        status, said, fault = self.why(*words)
        assert (status, fault) == (0, "") and said.splitlines()[-1].endswith(" fates, all of them those of the rules")
        return said

    def sending(self, moment):
        """The head, the numbers by class and column, and the words of the sending at a moment."""
        lines = self.told("--at", moment).splitlines()
        at = next(n for n, line in enumerate(lines) if " is sent by " in line)
        return lines[at], numbers(lines[at + 1:]), "\n".join(lines[at + 2:-1])

    def offer(self, packet):
        """The head, the numbers by precedence and column, and the words of a packet's offer."""
        lines = self.told("--packet", packet).splitlines()
        end = next((n for n, line in enumerate(lines) if " is sent by " in line), len(lines) - 1)
        return lines[0], numbers(lines[1:end]), "\n".join(lines[1:end])


def numbers(lines):
    """The numbers of a table, by the first word of each row and the head."""
    found, head = {}, lines[0].split() if lines else []
    for line in lines[1:]:
        words = line.split()
        if len(words) < len(head) or not all(word.lstrip("-").isdigit() or word in NO_NUMBER for word in words[1:len(head)]):
            break
        found[words[0]] = dict(zip(head, words))
    return found


def picked(numbers, *columns):
    """The numbers of some columns of a row."""
    return [numbers[column] for column in columns]
