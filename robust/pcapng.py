"""Reads and makes pcapng captures, for judge.py and cases.py, by the rules of docs/reference/FORMATS.md."""

import struct

BEGIN = b"\x0a\x0d\x0d\x0a"
MAGICS = {b"\x1a\x2b\x3c\x4d": ">", b"\x4d\x3c\x2b\x1a": "<"}
BILLION = 10**9
LONGEST, MOST_RECORDS, MOST_BYTES = 262_144, 4_000_000, 2**30


def padded(data):
    """Bytes with zeros up to a multiple of four."""
    return data + bytes(-len(data) % 4)


def options(body, order):
    """The resolution's byte and the offset that the options behind an interface's first eight bytes tell, or None for a bad option."""
    resolution, offset, place = 6, 0, 8
    while place < len(body):
        code, length = struct.unpack(order + "HH", body[place:place + 4])
        if code == 0:
            break
        after = place + 4 + length + -length % 4
        if after > len(body) or length != {9: 1, 14: 8}.get(code, length):
            return None
        value = body[place + 4:place + 4 + length]
        resolution = value[0] if code == 9 else resolution
        offset = struct.unpack(order + "q", value)[0] if code == 14 else offset
        place = after
    return resolution, offset


def interface(body, order):
    """An interface: its link type, the units of its second and its offset; or the name of what is wrong with it."""
    told = options(body, order) if len(body) >= 8 else None
    if told is None:
        return "BadBlock"
    exponent, is_binary = told[0] % 128, told[0] >= 128
    if exponent > (63 if is_binary else 18):
        return "BadResolution"
    return struct.unpack(order + "H", body[:2])[0], (2 if is_binary else 10) ** exponent, told[1]


def packet(body, order, interfaces, count):
    """A packet: its stamp, its lengths and its bytes; or the name of what is wrong with it, or a limit."""
    if len(body) < 20:
        return "BadBlock"
    number, high, low, captured, original = struct.unpack(order + "IIIII", body[:20])
    if len(body) - 20 < captured + -captured % 4:
        return "BadBlock"
    if count == MOST_RECORDS:
        return "limit"
    if number >= len(interfaces):
        return "UnknownInterface"
    link, units, offset = interfaces[number]
    if link != 1:
        return "BadLink"
    if max(captured, original) > LONGEST:
        return "LongRecord"
    if captured == original == 0:
        return "EmptyRecord"
    stamp = (high << 32 | low) * BILLION // units + offset * BILLION
    if not 0 <= stamp < 2**32 * BILLION:
        return "BadStamp"
    return stamp, max(captured, original), body[20:20 + captured]


def block_of(data, place, order):
    """The order, the type and the body of a block, or the name of what is wrong with its form."""
    if len(data) - place < 12:
        return "ShortBlock"
    if data[place:place + 4] == BEGIN:
        order = MAGICS.get(data[place + 8:place + 12])
        if order is None:
            return "BadMagic"
    kind, total = struct.unpack(order + "II", data[place:place + 8])
    if total > len(data) - place:
        return "ShortBlock"
    if total < 12 or total % 4 or data[place + total - 4:place + total] != struct.pack(order + "I", total):
        return "BadBlock"
    return order, kind, data[place + 8:place + total - 4]


def read(data):
    """The packets of a pcapng capture, as stamp, length and bytes, and how it ends, as `Capture` of judge.py says it."""
    found, interfaces, order, place = [], [], "<", 0
    if len(data) > MOST_BYTES:
        return found, ("limit", 1)
    while place < len(data):
        block = block_of(data, place, order)
        fault = block if isinstance(block, str) else None
        if fault is None:
            order, kind, body = block
            if data[place:place + 4] == BEGIN:
                fault = "BadBlock" if len(body) < 16 else "BadVersion" if struct.unpack(order + "H", body[4:6])[0] != 1 else None
                interfaces = []
            elif kind in (2, 3):
                fault = "OldPacket"
            elif kind in (1, 6):
                told = interface(body, order) if kind == 1 else packet(body, order, interfaces, len(found))
                fault = told if isinstance(told, str) else None
                if fault is None:
                    (interfaces if kind == 1 else found).append(told)
        if fault is not None:
            return found, ("limit", 1) if fault == "limit" else (fault, place)
        place += len(body) + 12
    return found, None


def block(order, kind, body):
    """A block of this type."""
    body = padded(body)
    return struct.pack(order + "II", kind, len(body) + 12) + body + struct.pack(order + "I", len(body) + 12)


def option(order, code, value):
    """An option."""
    return struct.pack(order + "HH", code, len(value)) + padded(value)


def whole_blocks(packets):
    """The blocks of a pcapng capture of these packets, in one section whose one interface counts nanoseconds."""
    order = "<"
    blocks = [block(order, 0x0A0D0D0A, struct.pack(order + "IHHq", 0x1A2B3C4D, 1, 0, -1)),
              block(order, 1, struct.pack(order + "HHI", 1, 0, 65535) + option(order, 9, b"\x09"))]
    for stamp, length, data in packets:
        blocks.append(block(order, 6, struct.pack(order + "IIIII", 0, stamp >> 32, stamp % 2**32, len(data), length) + padded(data)))
    return blocks


def section(rng, order):
    """A section header, and one to three interfaces with their units."""
    blocks = [block(order, 0x0A0D0D0A, struct.pack(order + "IHHq", 0x1A2B3C4D, 1, rng.randrange(3), rng.choice([-1, -1, 0, 77])))]
    interfaces = []
    for _ in range(rng.choice([1, 1, 1, 2, 3])):
        resolution, offset = rng.choice([None, 6, 9, 9, 3, 0, 18, 128 + 10, 128 + 30, 128 + 63]), rng.choice([None, None, None, 0, 1, -1, 5])
        told = [] if resolution is None else [option(order, 9, bytes([resolution]))]
        told += [] if offset is None else [option(order, 14, struct.pack(order + "q", offset))]
        told += [option(order, 2, b"eth0"[: rng.randrange(5)])] if rng.randrange(3) == 0 else []
        rng.shuffle(told)
        told += [bytes(4)] if rng.randrange(2) else []
        link = 101 if rng.randrange(20) == 0 else 1
        blocks.append(block(order, 1, struct.pack(order + "HHI", link, 0, 65535) + b"".join(told)))
        code = 6 if resolution is None else resolution
        interfaces.append(((2 if code >= 128 else 10) ** (code % 128), offset or 0))
    return blocks, interfaces


def blocks_of(rng, packets):
    """The blocks of a pcapng capture of these packets: stamps in nanoseconds, original lengths and bytes. A finer stamp is rounded down."""
    order = rng.choice("<>")
    blocks, interfaces = section(rng, order)
    for stamp, length, data in packets:
        if rng.randrange(30) == 0:
            order = rng.choice("<>")
            more, interfaces = section(rng, order)
            blocks += more
        if rng.randrange(20) == 0:
            blocks.append(block(order, rng.choice([4, 5, 10, 0xBAD, 0x80000001]), rng.randbytes(rng.randrange(40))))
        number = rng.randrange(len(interfaces))
        units, offset = interfaces[number]
        count = max(0, stamp - offset * BILLION) * units // BILLION % 2**64
        tail = option(order, 2, b"\1\2\3\4") if rng.randrange(10) == 0 else b""
        blocks.append(block(order, 6, struct.pack(order + "IIIII", number, count >> 32, count % 2**32, len(data), length) + padded(data) + tail))
    return blocks


def changed_blocks(rng, blocks):
    """Blocks of which some were doubled, exchanged or left out, or have a number at a limit."""
    for _ in range(rng.randrange(1, 4)):
        here, there, how = rng.randrange(len(blocks)), rng.randrange(len(blocks)), rng.randrange(5)
        if how == 0:
            blocks.insert(there, blocks[here])
        elif how == 1 and here and there:
            blocks[here], blocks[there] = blocks[there], blocks[here]
        elif how == 2 and here:
            del blocks[here]
        else:
            one, value = blocks[here], rng.choice([0, 1, 2, 3, 6, 8, 9, 12, 14, 16, 19, 28, 32, 63, 64, 101, 128, 192, 262_144, 262_145, 2**31, 2**32 - 1])
            place, order = 4 * rng.randrange(len(one) // 4), rng.choice("<>")
            blocks[here] = one[:place] + struct.pack(order + "I", value) + one[place + 4:]
    return blocks
