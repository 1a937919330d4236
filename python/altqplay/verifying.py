"""`verify`: whether any real link could have produced some fates, with every failure and why it is one."""

from __future__ import annotations

import os
import struct
from typing import Iterable, Iterator, Optional, Sequence, Union

import pandas

from .workbench.captures import HEAD, Record, records, write_ethernet
from .workbench.faults import Refused
from .workbench.rules.frames import IPV4, TAGS, is_capable, type_of_service, word

from . import given_tests, givens
from .given_tests import Came, Link
from .givens import HEAD as FATES_HEAD
from .givens import Failure, Fates, Given, Row
from .inputs import Conf, Packets
from .playing import Play, Text, by
from .running import named_alone, run

REFUTED = 10  # the status of fates that are not verified
OF_PROGRAM = 9  # the last test that the program makes
MICROSECONDS = b"\xd4\xc3\xb2\xa1"


class Verified:
    """What `verify` found. It is true where nothing fails.

    `failures` has every failure, the earliest row first; `table` is the same as a DataFrame. `worst` has for each class with a
    real-time curve how many nanoseconds its latest packet ends after its due moment, below 0 where it is early, None without one.
    `remarks` are sentences on what was taken otherwise than the program takes it. `said` is what the program says of the rows that were
    taken, and None where it was not asked. `columns` are those of the table.
    """

    columns = list(Failure._fields)

    def __init__(self, failures: Iterable[Failure], worst: dict[str, Optional[int]], remarks: list[str], said: Optional[str]) -> None:
        self.failures = sorted(failures, key=lambda one: (one.row, one.kind))
        self.worst, self.remarks, self.said = worst, remarks, said

    def __bool__(self) -> bool:
        return not self.failures

    @property
    def least(self) -> Optional[Failure]:
        """The failure that the program names: of the least test that fails the first row."""
        tested = [one for one in self.failures if one.kind <= OF_PROGRAM]
        return min(tested, key=lambda one: (one.kind, one.row)) if tested else None

    @property
    def table(self) -> pandas.DataFrame:
        """The failures, a row for each."""
        return pandas.DataFrame(self.failures, columns=self.columns)

    def lines(self, shown: int = 10) -> list[str]:
        """What was found in lines, so many failures at most, and the remarks."""
        lines = [f"not verified, {len(self.failures)} {'failure' if len(self.failures) == 1 else 'failures'}:" if self.failures else "verified"]
        lines += [f"  line {one.line} (row {one.row}){'' if one.packet is None else f', packet {one.packet}'}, {one.test}: {one.found}, expected {one.expected}: {one.because}"
                  for one in self.failures[:shown]]
        lines += [f"  and {len(self.failures) - shown} more"] if len(self.failures) > shown else []
        return lines + [f"  {remark}" for remark in self.remarks]

    def __repr__(self) -> str:
        return Text("\n".join(self.lines()))


def verify(conf: Conf, packets: Packets, fates: Fates, departures: Union[str, "os.PathLike[str]", None] = None, *, foreign: bool = False,
           each_rounded: bool = False, interface: Optional[str] = None, program: Optional[str] = None) -> Verified:
    """Tests fates of any program against a configuration and the arrivals.

    `fates` is a file or a DataFrame with the columns number, arrival, length, class, fate, start and end, in the order of decision
    (docs/reference/MANUAL.md, "The outputs"); `departures` the capture of what left, which need not be there. Every row that fails a
    test is told (docs/reference/MANUAL.md, "The tests of given files"), and beyond those tests each packet that is `full` of a queue
    that is not. Which class is picked is not tested.

    With `foreign` rows of another program are taken that say the same in another way: `sent` and `dropped`, CRLF, quotes, floats such
    as `214000.0`, and departures in microseconds. With `each_rounded` an end may be that of its packet alone, rounded, as ns-3 has
    it. Either is told as a remark. The proved program is asked, too, where the rows are such as it takes, and `said` is its answer.

    >>> packets = pandas.DataFrame({"time_ns": [0, 0], "length": [1000, 1000]})
    >>> import altqplay
    >>> fates = altqplay.play("interface if0 bandwidth 8M hfsc", packets).fates
    >>> bool(verify("interface if0 bandwidth 8M hfsc", packets, fates))
    True
    >>> fates.loc[1, "end"] = 2000001
    >>> verify("interface if0 bandwidth 8M hfsc", packets, fates).failures[0][:7]
    (3, 2, 2, 6, 'ends', 2000001, 2000000)
    """
    played = by("play", conf, packets, 42, interface, program)[0]
    link = given_tests.link_of(played.interface)
    words = {name: "share" if link.is_hfsc else "own" for name in link.queues}
    data = givens.data_of(fates)
    given = givens.given_of(data, words, foreign)
    judge = Judge(played, link, given, foreign, each_rounded, None if departures is None else os.fspath(departures))
    return judge.verified(data)


class Judge:
    """What is tested: the play that knows the packets, the link, the rows that were given, and the departures or None."""

    def __init__(self, played: Play, link: Link, given: Given, foreign: bool, each_rounded: bool, departures: Optional[str]) -> None:
        self.played, self.link, self.given, self.foreign, self.each_rounded, self.departures = played, link, given, foreign, each_rounded, departures
        self.remarks = given.remarks()

    def came(self) -> list[Came]:
        """The packets as they arrived, by number."""
        table = self.played.fates.sort_values("number")
        return [Came(*one) for one in zip(table["arrival"].tolist(), table["length"].tolist(), table["class"].tolist())]

    def failures(self) -> Iterator[Failure]:
        """All failures."""
        came, rows = self.came(), self.given.rows
        yield from self.given.failures
        reading = list(given_tests.of_arrivals(self.link, rows, came))
        yield from reading
        yield from given_tests.of_numbers(rows, len(came)) if not self.given.failures else ()
        if self.given.failures or any(not 1 <= row.number <= len(came) for row in rows):
            return  # what follows rests on the rows being those of the packets
        order = [*given_tests.of_order(rows), *given_tests.of_link(self.link, rows, self.each_rounded)]
        yield from order
        yield from given_tests.of_rest(self.link, rows)
        yield from self.of_departures(rows)
        yield from given_tests.of_due(self.link, rows)
        if not any(one.kind < 6 for one in [*reading, *order]) and len(rows) == len(came):
            yield from given_tests.of_causes(self.link, rows)

    def verified(self, data: bytes) -> Verified:
        """All that is found. The program is asked last."""
        found = list(self.failures())
        if self.each_rounded:
            early = [one for one in given_tests.of_link(self.link, self.given.rows, False) if one.kind == 6]
            self.remarks += [f"{len(early)} ends are not those of their runs, and are taken as those of packets that are rounded one by one"] if early else []
        worst: dict[str, Optional[int]] = {name: None for name, queue in self.link.queues.items() if queue.real is not None}
        if not any(one.kind < 4 for one in found):
            for row, due in given_tests.lateness(self.link, self.given.rows).values():
                late, held = (row.end or 0) - due, worst[row.name]
                worst[row.name] = late if held is None else max(held, late)
        return Verified(found, worst, self.remarks, self.said(data))

    def said(self, data: bytes) -> Optional[str]:
        """What the program says of the rows as they were given, or of those that were taken in their place."""
        room = self.played.room
        fates, departures = room.path("given.csv"), room.path("given.pcap")
        tidy = self.foreign and not self.given.failures
        with open(fates, "wb") as file:
            file.write(text_of(self.given.rows) if tidy else data)
        own = self.departures if self.departures is not None and not (tidy and head_of(self.departures)[:4] == MICROSECONDS) else None
        if own is None:
            frames = self.frames()
            known = [row for row in self.given.rows if row.end is not None and 1 <= row.number <= len(frames)]
            try:
                write_ethernet(departures, [Record(row.end, frames[row.number - 1], row.length, 1) for row in known])
            except (Refused, struct.error):
                return None  # an end is of no capture
        status, said, hint = run(["verify", "--config", self.played.config, "--interface", self.played.interface.name, "--arrivals", self.played.arrivals,
                                  "--departures", own or departures, "--fates", fates], self.played.program, (0, REFUTED))
        return Text(named_alone(f"{said}{hint}".strip()))

    def frames(self) -> list[bytes]:
        """The bytes that each packet may leave with, by number, without marks of congestion: as it came, marked by its conditioner,
        cleared by its class."""
        played, name = self.played, self.played.arrivals
        if played.interface.meters:
            name = played.room.path("marked.pcap")
            run(["condition", "--config", played.config, "--interface", played.interface.name, "--arrivals", played.arrivals, "--marked", name], played.program)
        names = [one.name for one in self.came()]
        return [dressed(record.data, self.link.queues[of].is_clearing, False) for record, of in zip(records(name), names)]

    def of_departures(self, rows: Sequence[Row]) -> Iterator[Failure]:
        """Test 8: the departures have a record for each sending, with the bytes that its class gives it."""
        if self.departures is None:
            return
        head = head_of(self.departures)
        magic = head[:4]
        is_coarse = self.foreign and magic == MICROSECONDS
        if head != HEAD and not is_coarse:
            because = "departures have microseconds; foreign=True takes them" if magic == MICROSECONDS else "the departures do not begin with the header of The outputs"
            yield Failure(1, 0, None, 8, "departures", head.hex(), HEAD.hex(), because)
            return
        if is_coarse:
            self.remarks.append("departures have microseconds: their stamps are taken as the ends, cut or rounded to them")
        yield from self.of_records(rows, is_coarse)

    def of_records(self, rows: Sequence[Row], is_coarse: bool) -> Iterator[Failure]:
        """The sendings whose record is another one, up to the first that is of another packet."""
        frames, left = self.frames(), whole_records(str(self.departures))
        sent = [row for row in rows if row.end is not None]
        for row, record in zip(sent, left):
            queue, end = self.link.queues[row.name], row.end or 0
            may_mark = queue.early == "ecn" and is_capable(type_of_service(frames[row.number - 1]))
            forms = [dressed(frames[row.number - 1], False, is_marked) for is_marked in ([False, True] if may_mark else [False])]
            stamps = {end // 1000 * 1000, -(-end // 1000) * 1000} if is_coarse else {end}
            if record.at not in stamps:
                yield given_tests.fail(row, 8, "departures", record.at, end, "the record's stamp is not the end; a stamp is when the last bit has left")
            elif record.length != row.length or record.data not in forms:
                yield given_tests.fail(row, 8, "departures", f"{record.length} bytes, {record.data.hex()}", f"{row.length} bytes, {forms[0].hex()}",
                                       "the record is not the frame that came, with what its class changes of it")
        if len(sent) > len(left):
            row = sent[len(left)]
            yield given_tests.fail(row, 8, "departures", "no record", "a record", f"{len(sent)} packets were sent, and the departures have {len(left)} records")
        elif len(left) > len(sent):
            end = (rows[-1].row if rows else 0) + 1
            yield Failure(end + 1, end, None, 8, "departures", f"{len(left)} records", f"{len(sent)} records", "records stand behind the last sending")


def text_of(rows: Sequence[Row]) -> bytes:
    """Rows as the program takes them."""
    lines = [FATES_HEAD] + [",".join("" if value is None else str(value) for value in row[1:]) for row in rows]
    return "".join(f"{line}\n" for line in lines).encode("ascii", "replace")


def head_of(name: str) -> bytes:
    """The header of a capture."""
    with open(name, "rb") as file:
        return file.read(len(HEAD))


def whole_records(name: str) -> list[Record]:
    """The records of a capture up to the first that is damaged."""
    found: list[Record] = []
    try:
        found.extend(records(name))
    except Refused:
        found.append(Record(-1, b"", 0, 0))
    return found


def dressed(frame: bytes, is_cleared: bool, is_marked: bool) -> bytes:
    """The bytes with which a frame leaves (docs/reference/FRAMES.md): without its code point, or with a mark of congestion."""
    tos = type_of_service(frame)
    if tos is None or not (is_cleared or is_marked):
        return frame
    new = (tos & 3 if is_cleared else tos) | (3 if is_marked else 0)
    return frame if new == tos else retagged(frame, new)


def retagged(frame: bytes, new: int) -> bytes:
    """A frame of IP with another type of service, and of IPv4 with the checksum of its header changed (RFC 1624)."""
    at = 12
    for _tag in range(2):
        at += 4 if word(frame, at) in TAGS else 0
    made, head = bytearray(frame), at + 2
    if word(frame, at) != IPV4:
        made[head], made[head + 1] = made[head] & 0xF0 | new >> 4, (new & 15) << 4 | made[head + 1] & 15
        return bytes(made)
    before, sum_before = word(frame, head) or 0, word(frame, head + 10) or 0
    made[head + 1] = new
    total = (~sum_before & 0xFFFF) + (~before & 0xFFFF) + (word(bytes(made), head) or 0)
    while total > 0xFFFF:
        total = (total & 0xFFFF) + (total >> 16)
    made[head + 10:head + 12] = struct.pack(">H", ~total & 0xFFFF)
    return bytes(made)
