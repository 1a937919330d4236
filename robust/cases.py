"""Makes the cases of fuzz.py: configurations, captures and words, random and then mutated, each from a seed and a number.

About one case in two is a configuration and a capture that are whole, so that something is played; in the others one or
the other was changed in a few places, or is noise. A case is the same wherever it is made of the same seed and number.
"""

import random
import struct
from collections import namedtuple

import pcapng
from program import DEPARTURES_HEAD, FATES_HEAD

# The words behind the program's name, the files that stand there when it starts, and whether a word is no UTF-8.
Case = namedtuple("Case", "words files is_text")

LIMITS = (
    "0 1 7 8 9 50 64 65 99 100 101 128 129 255 256 999 1000 1001 1024 1025 10000 10001 65535 65536 262144 262145 1000000 1000001 "
    "1073741824 1073741825 4294967295 4294967296 1000000000000 1000000000001 18446744073709551615 18446744073709551616 340282366920938463463374607431768211456 "
    "0x0 0xff 0xFFFFFFFFFFFFFFFF 0x10000000000000000 0x -1 +1 00000000000000000000000000000007 1.5M 0.000000001G 0.0000000001G 1000G 1001G 1e3 "
    ".5M 5.M 1K 999k 1000k 1m 1kk 0.5 255.255.255.255 256.0.0.0 0.0.0.0 ::/0 ::/129 1::2::3 fe80::1/64"
).split()
DICTIONARY = (
    "interface class filter filter6 hfsc cbq NULL root if0 if1 a b c bandwidth tbrsize efficient cbq-wrr sc rt ls ul pshare grate qlimit red ecn "
    "rio cleardscp default admission priority pbandwidth exactbandwidth borrow control maxburst packetsize name ruleno netmask tos tosmask tclass "
    "tclassmask tcp udp icmp 0 wred conditioner srtcm trtcm"
).split()
PHRASES = (
    "rt 1M 10 2M;rt 1M 0 1M;grate 1M;ul 1M 10 2M;sc 2M 5 1M;ls 0 0 0;pshare 100;pshare 0;default;default default;red rio;qlimit 0;qlimit 10000;"
    "tos 256;tclass 0 tclassmask 256;netmask 255.0.255.0;pbandwidth 0;exactbandwidth 999;admission x;name x ruleno 4294967295"
).split(";")
LINES = (
    "interface if0 hfsc;interface if0 cbq;class hfsc if0 root NULL;class cbq if0 root NULL;class hfsc if0 z root;class hfsc if0 z root pshare 1;"
    "class hfsc if0 z c1 pshare 1;class cbq if0 z root;class cbq if0 z c1 pbandwidth 1;class hfsc if0 z NULL;class cbq if0 z NULL;"
    "filter if0 root 0 0 0 0 17;filter6 if0 c1 ::/0 0 0 0 58;class hfsc if0 c1 root pshare 1;filter if9 a 0 0 0 0 0;"
    "conditioner if0 c1 srtcm 8M 1500 0 1;conditioner if0 root trtcm 8M 1500 8M 1500 4;conditioner if0 c1 trtcm 8M 1 9M 1 1;conditioner if9 a srtcm 1K 1 0 5"
).split(";")
ODD = [b"\\\n", b"\\\r\n", b"#", b"[", b"]", b"\r", b"\t", b"\0", b"\xff", b"\x7f", b"\n\n", b" ", b"\\", b"x" * 65, b" " * 4100]
RATES = ["1000", "64K", "1M", "3M", "8M", "100M", "12345678", "1G", "1000G", "0.5M"]
PORTS = [0, 0, 53, 5001, 5004, 65535]
HOSTS = ["10.0.0.1", "10.0.0.2", "10.0.1.7", "192.168.0.1"]
HOSTS6 = ["fe80::1", "2001:db8::2", "::"]
DSCP = [0x00, 0x28, 0x30, 0x38, 0x48, 0x50, 0x58, 0xB8, 0x02, 0x01, 0x03, 0x29]
MAGICS = [(b"\x4d\x3c\xb2\xa1", "<", 10**9), (b"\xa1\xb2\x3c\x4d", ">", 10**9), (b"\xd4\xc3\xb2\xa1", "<", 10**6), (b"\xa1\xb2\xc3\xd4", ">", 10**6)]


def chance(rng, part):
    """True in one of so many cases."""
    return rng.randrange(part) == 0


def rate(rng):
    """A rate that a curve may have."""
    return rng.choice(RATES) if chance(rng, 2) else f"{rng.randrange(1, 20_000)}K"


def curve(rng):
    """The three words of a curve: concave, convex with nothing at first, or one line."""
    slopes = sorted(rng.randrange(1, 9_000) for _ in range(2))
    first, delay, second = rng.choice([(slopes[1], rng.choice([1, 5, 10, 200]), slopes[0]), (0, rng.choice([1, 5, 20]), slopes[0]), (slopes[0], 0, slopes[0])])
    return f"{first}K {delay} {second}K"


def queue_words(rng):
    """The options of a class that say how its queue drops."""
    words = [f"qlimit {rng.choice([1, 2, 5, 20, 50, 200])}"] if chance(rng, 2) else []
    words += [rng.choice(["red", "ecn", "rio"])] if chance(rng, 2) else []
    return words + (["cleardscp"] if chance(rng, 6) else [])


def parents(rng, count):
    """A tree of so many classes behind a root: the parent of each, as the place of an earlier one, at most 8 levels deep."""
    tree, level = [None], [1]
    for _ in range(count):
        above = rng.choice([place for place in range(len(tree)) if level[place] < 8])
        tree.append(above)
        level.append(level[above] + 1)
    return tree


def hfsc_class(rng, name, parent, place, is_inner, is_default):
    """A statement of a class of HFSC."""
    words = [f"class hfsc {name} c{place}" if place else f"class hfsc {name} root"]
    words += ["NULL" if parent is None else f"c{parent}" if parent else "root"]
    options = queue_words(rng)
    if place or chance(rng, 2):
        options += [rng.choice([f"pshare {rng.randrange(1, 101)}", f"ls {curve(rng)}", f"[sc {curve(rng)}]"])]
    if not is_inner and chance(rng, 3):
        options += [rng.choice([f"rt {curve(rng)}", f"grate {rate(rng)}", "rt 0 0 0"])]
    if chance(rng, 5):
        fast, slow = rng.randrange(2_000, 90_000), rng.randrange(1, 2_000)
        options += [f"ul {fast}K {rng.choice([0, 3, 50])} {slow}K"]
    if is_default:
        options += ["default"]
    rng.shuffle(options)
    return " ".join(words + options)


def cbq_class(rng, name, parent, place, is_default):
    """A statement of a class of CBQ."""
    words = [f"class cbq {name} c{place}" if place else f"class cbq {name} root"]
    words += ["NULL" if parent is None else f"c{parent}" if parent else "root"]
    options = queue_words(rng) + [rng.choice([f"pbandwidth {rng.randrange(1, 101)}", f"exactbandwidth {rate(rng)}"])]
    for word, top in (("priority", 8), ("maxburst", 30), ("packetsize", 2000)):
        options += [f"{word} {rng.randrange(1, top)}"] if chance(rng, 3) else []
    options += [word for word in ("borrow", "control") if chance(rng, 3)]
    if is_default:
        options += ["default"]
    rng.shuffle(options)
    return " ".join(words + options)


def filter_statement(rng, name, target):
    """A statement of a filter to a class."""
    is_six = chance(rng, 4)
    hosts = HOSTS6 if is_six else HOSTS

    def address():
        if chance(rng, 2):
            return "0"
        host = rng.choice(hosts)
        if not chance(rng, 3):
            return host
        return f"{host}/{rng.randrange(129)}" if is_six else f"{host} netmask {rng.choice(['255.255.255.0', '255.0.255.0', '0.0.0.0'])}"

    words = ["filter6" if is_six else "filter", name, target]
    words += ["name", "x"] if chance(rng, 8) else []
    words += ["ruleno", str(rng.randrange(4))] if chance(rng, 2) else []
    words += [address(), str(rng.choice(PORTS)), address(), str(rng.choice(PORTS)), rng.choice(["0", "1", "6", "17", "udp", "tcp", "icmp", "58"])]
    if chance(rng, 4):
        words += ["tclass" if is_six else "tos", str(rng.choice(DSCP))]
        words += ["tclassmask" if is_six else "tosmask", rng.choice(["255", "0xfc", "0x3"])] if chance(rng, 2) else []
    return " ".join(words)


def conditioner_statement(rng, name, target):
    """A statement of a conditioner of a class."""
    slow, fast = sorted(rng.choice([1000, 8_000, 100_000, 8_000_000, 10**9, 10**12]) for _ in range(2))
    burst, other = rng.choice([1, 60, 1500, 10_000, 2**30]), rng.choice([60, 1500, 4000, 2**30])
    meter = rng.choice([f"srtcm {slow} {burst} {rng.choice([0, other])}", f"trtcm {fast} {other} {slow} {burst}"])
    return f"conditioner {name} {target} {meter} {rng.randrange(1, 5)}"


def interface(rng, name):
    """The statements of one interface, of either kind."""
    is_hfsc = chance(rng, 2)
    head = f"interface {name} bandwidth {rng.choice(RATES)} {'hfsc' if is_hfsc else 'cbq'}"
    if chance(rng, 6):
        return [head]
    tree = parents(rng, rng.randrange(40) if chance(rng, 20) else rng.randrange(6))
    leaves = [place for place in range(len(tree)) if place not in tree] if is_hfsc else list(range(len(tree)))
    default = rng.choice(leaves)
    lines = [head]
    for place, parent in enumerate(tree):
        if is_hfsc:
            lines.append(hfsc_class(rng, name, parent, place, place in tree, place == default))
        else:
            lines.append(cbq_class(rng, name, parent, place, place == default))
    for _ in range(rng.randrange(5)):
        target = rng.choice(leaves)
        lines.append(filter_statement(rng, name, f"c{target}" if target else "root"))
    if chance(rng, 3):
        targets = rng.sample(leaves, rng.randrange(1, min(3, len(leaves)) + 1))
        lines += [conditioner_statement(rng, name, f"c{target}" if target else "root") for target in targets]
    return lines


def configuration(rng):
    """A configuration that is accepted."""
    lines = interface(rng, "if0")
    if chance(rng, 5):
        lines += interface(rng, "if1")
    if chance(rng, 4):
        lines = [line.replace(" ", rng.choice([" ", "\t", "  ", " \\\n "]), 1) for line in lines]
    if chance(rng, 4):
        lines.insert(rng.randrange(len(lines) + 1), rng.choice(["# a comment", "", "[]", "#" + "x" * 5000]))
    return rng.choice(["\n", "\n", "\n", "\r\n"]).join(lines).encode() + rng.choice([b"\n", b"\n", b""])


def ip4(rng):
    """An IPv4 head and what stands behind it, with the type before it."""
    more = rng.choice([0, 0, 0, 4])
    fragment = rng.choice([0, 0, 0, 0, 0x2000, 0x4000, 1, 0x1FFF])
    head = struct.pack(">BBHHHBBH", 0x45 + more // 4, rng.choice(DSCP), rng.randrange(20, 1500), rng.randrange(65536), fragment, 64,
                       rng.choice([1, 2, 6, 17, 17, 17, 46, 58]), rng.randrange(65536))
    addresses = b"".join(bytes(int(part) for part in rng.choice(HOSTS).split(".")) for _ in range(2))
    return b"\x08\x00" + head + addresses + bytes(more) + struct.pack(">HH", rng.choice(PORTS), rng.choice(PORTS)) + bytes(rng.randrange(8))


def ip6(rng):
    """An IPv6 head and what stands behind it, with the type before it."""
    word = 0x60000000 | rng.choice(DSCP) << 20
    head = struct.pack(">IHBB", word, 0, rng.choice([6, 17, 17, 58, 0]), 64)
    addresses = b"".join(rng.choice([b"\xfe\x80" + bytes(13) + b"\1", b"\x20\x01\x0d\xb8" + bytes(11) + b"\2", bytes(16)]) for _ in range(2))
    return b"\x86\xdd" + head + addresses + struct.pack(">HH", rng.choice(PORTS), rng.choice(PORTS))


def frame(rng):
    """The captured bytes of a frame."""
    if chance(rng, 12):
        return rng.randbytes(rng.randrange(64))
    tags = b"".join(rng.choice([b"\x81\x00", b"\x88\xa8"]) + bytes([0, 1]) for _ in range(rng.choice([0, 0, 0, 1, 2, 3])))
    inside = rng.choice([ip4, ip4, ip4, ip6, lambda _: b"\x08\x06" + bytes(28)])(rng)
    whole = bytes(12) + tags + inside
    return whole[: rng.randrange(len(whole) + 1)] if chance(rng, 10) else whole


def records(rng, count, order, unit):
    """The records of a capture, as a list."""
    found, stamp = [], rng.choice([0, 0, 5 * unit, 2**31 * unit, (2**32 - 1) * unit])
    steps = rng.choice([[0], [0, 0, 0, 1000], [0, unit // 1000, unit // 100], [1, unit], [unit // 10_000, -unit // 10_000], [0, 3600 * unit]])
    for _ in range(count):
        stamp = min(max(stamp + rng.choice(steps), 0), 2**32 * unit - 1)
        data = frame(rng)
        length = rng.choice([len(data), len(data), 64, 200, 1000, 1500, rng.randrange(1, 9000), 1, 262_144])
        length = length or 1
        found.append(struct.pack(order + "IIII", stamp // unit, stamp % unit, len(data), length) + data)
    return found


def changed_records(rng, found, order):
    """Records of which some were doubled, exchanged, left out, or have a number at a limit."""
    for _ in range(rng.randrange(1, 4)):
        if not found:
            break
        here, there = rng.randrange(len(found)), rng.randrange(len(found))
        how = rng.randrange(4)
        if how == 0:
            found.insert(there, found[here])
        elif how == 1:
            found[here], found[there] = found[there], found[here]
        elif how == 2:
            del found[here]
        else:
            field, value = 4 * rng.randrange(4), rng.choice([0, 1, 999_999_999, 10**9, 262_144, 262_145, 2**31, 2**32 - 1])
            found[here] = found[here][:field] + struct.pack(order + "I", value) + found[here][field + 4:]
    return found


def changed_bytes(rng, data):
    """Bytes of which some were flipped, cut off, doubled, left out or put in."""
    for _ in range(rng.randrange(1, 4)):
        here = rng.randrange(len(data) + 1)
        there = min(len(data), here + rng.randrange(1, 40))
        how = rng.randrange(6)
        if how == 0 and here < len(data):
            data = data[:here] + bytes([data[here] ^ 1 << rng.randrange(8)]) + data[here + 1:]
        elif how == 1:
            data = data[:here]
        elif how == 2:
            data = data[:there] + data[here:there] + data[there:]
        elif how == 3:
            data = data[:here] + data[there:]
        elif how == 4:
            data = data[:here] + rng.randbytes(rng.randrange(1, 5)) + data[here:]
        else:
            data = data[:here] + rng.choice(ODD) + data[here:]
    return data


def changed_lines(rng, text):
    """A configuration of which lines or words were exchanged, doubled, left out, or are others."""
    lines = text.split(b"\n")
    for _ in range(rng.randrange(1, 4)):
        here, there = rng.randrange(len(lines)), rng.randrange(len(lines))
        words = lines[here].split(b" ")
        place = rng.randrange(len(words))
        how = rng.randrange(9)
        if how == 0:
            lines[here], lines[there] = lines[there], lines[here]
        elif how == 1:
            lines.insert(there, rng.choice([lines[here], rng.choice(LINES).encode()]))
        elif how == 2 and len(lines) > 1:
            del lines[here]
            continue
        elif how == 3:
            words[place] = rng.choice(LIMITS).encode()
        elif how == 4:
            words.insert(place, rng.choice(DICTIONARY + LIMITS).encode())
        elif how == 5:
            del words[place]
        elif how == 6:
            words.insert(place, rng.choice(PHRASES).encode())
        elif how == 7:
            words.append(rng.choice(PHRASES).encode())
        else:
            words[place] = rng.choice(DICTIONARY).encode()
        if how > 2:
            lines[here] = b" ".join(words)
    return b"\n".join(lines)


def wide(rng):
    """A configuration at a limit of its size, or one above it: interfaces, classes, filters, levels or bytes."""
    head, root = "interface if0 hfsc\n", "class hfsc if0 root NULL\n"
    leaf, more = "class hfsc if0 c1 root pshare 1 default\n", rng.randrange(2)
    how = rng.randrange(5)
    if how == 0:
        return "".join(f"interface if{number} {rng.choice(['hfsc', 'cbq'])}\n" for number in range(16 + more)).encode()
    if how == 1:
        return (head + root + leaf + "".join(f"class hfsc if0 c{number} root {rng.choice(['pshare 1', 'sc 0 5 1M'])}\n" for number in range(2, 256 + more))).encode()
    if how == 2:
        return (head + root + leaf + "".join(f"{filter_statement(rng, 'if0', 'c1')}\n" for _ in range(1024 + more))).encode()
    if how == 3:
        chain = "".join(f"class hfsc if0 d{level} {f'd{level - 1}' if level else 'root'} pshare 50\n" for level in range(7 + more))
        return (head + root + leaf + chain).encode()
    text = configuration(rng) + b"\n#"
    return text + b"x" * (2**20 + more - len(text))


def noise(rng):
    """A configuration of words that belong to the language, in any order."""
    words = [rng.choice(DICTIONARY + LIMITS) + rng.choice([" ", " ", " ", " ", "\n"]) for _ in range(rng.randrange(60))]
    return rng.choice(["".join(words).encode(), rng.randbytes(rng.randrange(200)), b""])


def capture(rng):
    """A capture, whole or changed."""
    magic, order, unit = rng.choice(MAGICS)
    head = magic + struct.pack(order + "HHIIII", 2, 4, 0, 0, 262_144, 1)
    count = 4000 if chance(rng, 300) else rng.randrange(100, 500) if chance(rng, 10) else rng.randrange(70)
    found = records(rng, count, order, unit)
    if chance(rng, 4):
        found = changed_records(rng, found, order)
    data = head + b"".join(found)
    if chance(rng, 5):
        data = changed_bytes(rng, data)
    return rng.randbytes(rng.randrange(100)) if chance(rng, 50) else data


def newer(rng):
    """A pcapng capture, whole or changed."""
    count = rng.randrange(100, 500) if chance(rng, 10) else rng.randrange(40)
    packets = []
    for record in records(rng, count, "<", 10**9):
        seconds, rest, _, length = struct.unpack("<IIII", record[:16])
        packets.append((seconds * 10**9 + rest, length, record[16:]))
    blocks = pcapng.blocks_of(rng, packets)
    if chance(rng, 2):
        blocks = pcapng.changed_blocks(rng, blocks)
    data = b"".join(blocks)
    return changed_bytes(rng, data) if chance(rng, 5) else data


def config(rng):
    """A configuration, whole, changed, noise, or at a limit of its size."""
    if chance(rng, 150):
        return wide(rng)
    text = configuration(rng)
    how = rng.randrange(10)
    if how < 3:
        text = changed_lines(rng, text)
    elif how == 3:
        text = changed_bytes(rng, text)
    return noise(rng) if how == 4 and chance(rng, 3) else text


COUNTS = [b"0", b"1", b"1000001", b"18446744073709551617", b"007", b"", b"-1", b"+1", b" 1", b"1x", b"0x1"]
SEEDS = [b"0", b"1", b"42", b"18446744073709551615", b"18446744073709551616", b"007", b"", b"-1", b"+1", b" 1", b"1x", b"0x1", "\u0661".encode(), b"9" * 40]
OF_CHECK = (b"config", b"interface")
OF_VERIFY = (*OF_CHECK, b"arrivals", b"departures", b"fates")
OF_MAKE_ALONE = b"count"
COMMANDS = [b"check", b"make", b"shares", b"verify", b"play", b"play"]
NAMES = {b"config": b"altq.conf", b"arrivals": b"arrivals.pcap", b"departures": b"departures.pcap", b"fates": b"fates.csv", b"stats": b"stats.csv"}


def options(rng):
    """The options of a command that may be accepted, as pairs, and the command."""
    values = {**NAMES, b"interface": b"if0", b"seed": b"%d" % rng.randrange(2**64), OF_MAKE_ALONE: b"%d" % rng.randrange(1, 300)}
    if chance(rng, 10):
        values[rng.choice(list(values))] = rng.choice([b"absent/file", b"absent", b"", b"-", b"altq.conf", b"fates.csv", b"if1", b"a b", "\u00fc".encode(), b"x" * 300])
    if chance(rng, 20):
        values[b"seed"] = rng.choice(SEEDS)
    if chance(rng, 10):
        values[OF_MAKE_ALONE] = rng.choice(COUNTS)
    command = rng.choice(COMMANDS)
    taken = [name for name in {b"check": OF_CHECK, b"verify": OF_VERIFY}.get(command, values) if name != OF_MAKE_ALONE or command == b"make"]
    rng.shuffle(taken)
    return command, [(name, values[name]) for name in taken]


def words(rng):
    """The words behind the program's name."""
    command, pairs = options(rng)
    found = [command]
    for name, value in pairs:
        found += [b"--" + name + b"=" + value] if chance(rng, 3) else [b"--" + name, value]
    if not chance(rng, 12):
        return found
    for _ in range(rng.randrange(1, 3)):
        here, how = rng.randrange(len(found) + 1), rng.randrange(6)
        if how == 0 and here < len(found):
            del found[here]
        elif how == 1 and here < len(found):
            found.insert(rng.randrange(len(found)), found[here])
        elif how == 2:
            found.insert(here, rng.choice([b"--", b"-", b"--help", b"-h", b"--version", b"--seed=2", b"--x", b"x", b"", b"--=", b"--config=", b"check"]))
        elif how == 3 and here < len(found):
            found[here] = found[here][: rng.randrange(len(found[here]) + 1)]
        elif how == 4 and here < len(found) and found[here]:
            place = rng.randrange(len(found[here]))
            found[here] = found[here][:place] + bytes([found[here][place] ^ 1 << rng.randrange(8)]) + found[here][place + 1:]
        elif how == 5:
            rng.shuffle(found)
    return [word.replace(b"\0", b"") for word in found]


def rows(rng):
    """Rows of fates, which mostly are of no packets that come. verify_changes.py has those of plays."""
    return b"".join(b"%d,%d,%d,%s,%s\n" % (number, rng.choice([0, number, 10**9]), rng.choice([60, 1000]), rng.choice([b"a", b"c1", b"default"]),
                                            rng.choice([b"full,,", b"share,0,1000000", b"own,%d,18446744073709551615" % number])) for number in range(1, rng.choice([1, 2, 5])))


def case(seed, number):
    """The case of this number."""
    rng = random.Random(f"{seed}/{number}")
    given = words(rng)
    files = {b"altq.conf": config(rng), b"arrivals.pcap": newer(rng) if chance(rng, 3) else capture(rng)}
    for name in (b"departures.pcap", b"fates.csv", b"stats.csv"):
        if chance(rng, 3):
            files[name] = rng.choice([b"", b"what stood here before\n", bytes(3000)])
    if given[:1] == [b"verify"] and not chance(rng, 4):
        files[b"departures.pcap"], files[b"fates.csv"] = DEPARTURES_HEAD + rng.choice([b"", b"\0"]), FATES_HEAD + rows(rng)
    return Case(given, files, all(is_text(word) for word in given))


def is_text(word):
    """Whether a word is UTF-8."""
    try:
        word.decode()
    except UnicodeDecodeError:
        return False
    return True
