"""Prints the numbers behind the decisions of a play: which rule fired, what it compared, which class came second and by how much.

    altqwork why fates.csv altq.conf --packet 477
    altqwork why fates.csv altq.conf --packet 477 --story
    altqwork why fates.csv altq.conf --at 10000000 --arrivals arrivals.pcap

It replays the fates by a plain model of the rules, written from the pages alone, and compares each. Without --packet and --at
it only says how many agree. Where the rules decide otherwise it prints the row and the numbers there, ends the replay, and the
exit status is 1. The rows stand in the order of decision, as altqplay writes them; `sent` and `dropped` stand for any rule. Of more
than 20,000 fates it replays only the decisions that --packet and --at ask for, each from the state that the fates before it tell.
--story tells what a packet waited for, from its arrival to its end: whose packets the link carried, and why each went first.

Moments are nanoseconds, but in a story milliseconds after the first arrival, counts and totals units, of which a byte has 8,000,000,000. `after` is a number behind the decision; all
others are those before it. A class with `ecn` or `rio` needs the capture, `red`, `ecn` and `rio` need the seed. Which class a frame
is of, the fates tell. Of up to 20,000 fates it needs no library, but altqplay, which says what the configuration means.
"""

from __future__ import annotations

from argparse import ArgumentParser, Namespace

from .faults import Refused
from .foreign import add_foreign
from .journals import row_text
from .play import add_program
from .rows import place
from .rules.play import Offer, Sending
from .why_csv import Rows
from .why_inputs import question
from .why_pictures import offer_lines, picture_of, state_lines
from .texts import Times, add_times
from .why_replay import Behind, Replay
from .why_story import Story
from .written import new_file

NAME = "why"
LONG = 20_000  # fates
HELP = "the numbers behind a decision, and whether the fates are those of the rules"


def add_arguments(parser: ArgumentParser) -> None:
    parser.add_argument("--packet", type=int, action="append", default=[], metavar="N", help="tells the offer and the sending of packet N")
    parser.add_argument("--at", type=int, action="append", default=[], metavar="MOMENT", help="tells what is decided at a moment, or holds then")
    parser.add_argument("--story", action="store_true", help="tells of each --packet what it waited for, in milliseconds of the capture")
    parser.add_argument("--csv", metavar="FILE", help="writes a row for each decision, also for each packet that is kept")
    parser.add_argument("--arrivals", metavar="FILE", help="the capture that was played; only ecn and rio need it")
    parser.add_argument("--seed", type=int, default=42, metavar="N", help="the seed of the play, 42 by default")
    add_program(parser)
    add_foreign(parser, True)
    add_times(parser)
    parser.add_argument("fates", metavar="FATES", help="the fates of a play")
    parser.add_argument("config", metavar="CONFIG", help="its configuration")


def moment_of(decision: Offer | Sending) -> int:
    """When a decision is made."""
    return decision.packet.arrival if isinstance(decision, Offer) else decision.choice.start


def all_of(behind: list[Behind]) -> Behind | None:
    """What calls each of some, or None of none."""
    def call(taken: Offer | Sending) -> None:
        for one in behind:
            one(taken)

    return call if behind else None


class Told:
    """What is told of a replay: the pictures of the decisions that are asked for."""

    def __init__(self, replay: Replay, args: Namespace) -> None:
        self.replay, self.play, self.packets = replay, replay.play, set(args.packet)
        self.moments = sorted(set(args.at), reverse=True)  # those that are not passed yet, the next one last
        self.lines: list[str] = []
        self.last: Offer | Sending | None = None
        self.has_picture = False
        origin, members = replay.question.origin, replay.play.members
        self.stories = [Story(number, Times(args.ns), origin, lambda place: members[place].name, self.sent_last) for number in sorted(self.packets)] if args.story else []

    def passed(self, moment: int) -> None:
        """Tells what holds at the moments before one at which nothing was decided."""
        while self.moments and self.moments[-1] < moment:
            asked = self.moments.pop()
            if self.last is None or moment_of(self.last) != asked:
                self.lines += state_lines(self.play, asked)

    def look(self, decision: Offer | Sending) -> Behind | None:
        """Looks at a decision before it is taken."""
        moment = moment_of(decision)
        if self.moments and self.moments[-1] < moment:
            self.passed(moment)
        self.last = decision
        if self.stories:
            return self.follow(decision)
        is_asked = decision.packet.number in self.packets or (self.moments and self.moments[-1] == moment)
        self.has_picture = bool(is_asked or self.replay.otherwise)
        if not self.has_picture:
            return None
        picture = picture_of(self.play, decision)
        return lambda _decision: self.lines.extend(picture.lines())

    def sent_last(self) -> str:
        """The class of the last packet that was sent."""
        rows = self.replay.question.rows
        return next(fate.name for _row, fate in (rows[at] for at in range(self.replay.at - 1, -1, -1)) if fate.start is not None)

    def follow(self, decision: Offer | Sending) -> Behind | None:
        """Has each story look at a decision."""
        behind = [found for found in [story.look(self.play, decision) for story in self.stories] if found]
        return all_of(behind)

    def told(self) -> list[str]:
        """All lines."""
        return self.lines + [line for story in self.stories for line in story.lines()]


def otherwise_lines(told: Told, name: str) -> list[str]:
    """The lines on the first difference."""
    found = told.replay.otherwise
    assert found is not None and told.last is not None
    lines = [f"{name}: {place(found.row)}: {row_text(found.fate)}"]
    packet = told.last.packet
    if found.ours is not None:
        lines.append(f"by the rules: {row_text(found.ours)}")
        own = told.replay.question.row_of(packet.number)
        lines += [f"packet {packet.number} stands in {place(own)}"] if own not in (None, found.row) else []
    else:
        lines.append(f"by the rules: packet {packet.number} is kept")
    return lines + ([found.hint] if found.hint else [])


def run(args: Namespace) -> int:
    if args.story and (not args.packet or args.at):
        raise Refused("--story tells of packets: name one by --packet, without --at")
    status = of_long_play(args) if (args.packet or args.at) and not args.csv and not args.each_rounded and is_long(args.fates) else None
    return of_whole_play(args) if status is None else status


def is_long(name: str) -> bool:
    """Whether a file has more fates than are replayed in a second."""
    with open(name, "rb") as file:
        return any(number > LONG for number, _line in enumerate(file))


def test_packets(args: Namespace, count: int) -> None:
    """Refuses a packet that is asked for and is none of so many."""
    wrong = [number for number in args.packet if not 1 <= number <= count]
    if wrong:
        raise Refused(f"{args.fates}: no packet {wrong[0]}: it has {count}")


def of_whole_play(args: Namespace) -> int:
    """Replays all."""
    asked = question(args)
    test_packets(args, len(asked.packets))
    replay = Replay(asked, args.each_rounded)
    told = Told(replay, args)
    if args.csv:
        with new_file(args.csv, "w", newline="", encoding="ascii") as file:
            follow(replay, told, Rows(file, replay.play))
    else:
        follow(replay, told, None)
    print("\n".join(told.told() + summary(told, args)))
    return 1 if replay.otherwise else 0


def of_long_play(args: Namespace) -> int | None:
    """Replays what is asked for alone; None where that cannot be told from the fates, or a library is missing."""
    try:
        from .why_window import Unordered, windows
    except ModuleNotFoundError:
        return None
    count = 0
    lines: list[str] = []
    try:
        asked = windows(args)
    except Unordered:
        return None
    test_packets(args, len(asked.columns.fates))
    for window in asked.windows(args.packet, args.at, args.story):
        replay = Replay(window)
        told = Told(replay, window.asked(args))
        follow(replay, told, None, window.count())
        lines, count = lines + told.told(), count + replay.count
        if replay.otherwise:
            print("\n".join(lines + otherwise_lines(told, args.fates)))
            return 1
    print("\n".join(lines + [f"{args.fates}: {len(asked.columns.fates)} fates, of which {count} decisions were replayed, all of them those of the rules"]))
    return 0


def follow(replay: Replay, told: Told, rows: Rows | None, most: int | None = None) -> None:
    """Replays all, or `most` decisions, for the pictures and for the rows."""
    looks = [told.look] + ([rows.look] if rows else [])

    def look(decision: Offer | Sending) -> Behind | None:
        behind = [found for found in [one(decision) for one in looks] if found]
        return all_of(behind)

    replay.decisions(look if rows else told.look, most)
    if replay.otherwise is None:
        if not told.stories:
            told.passed(2**200)
    elif isinstance(told.last, Offer) and not told.has_picture:
        told.lines += offer_lines(replay.play, told.last, [])


def summary(told: Told, args: Namespace) -> list[str]:
    """The last lines: whether the fates are those of the rules."""
    replay = told.replay
    if replay.otherwise:
        return otherwise_lines(told, args.fates)
    return [f"{args.fates}: {len(replay.question.rows)} fates, all of them those of the rules"]
