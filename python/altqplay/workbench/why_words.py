"""What `why` says of a decision in words: which rule fired, who came second, and by how much."""

from __future__ import annotations

from .rules.cbq import Cbq, needed
from .rules.cbq import Node as CbqNode
from .rules.choices import Choice, Contest
from .rules.hfsc import NEVER, Hfsc, Node, Wake
from .rules.play import Offer, Play, Sending
from .rules.queues import EARLY, FORCED, FULL, KEPT, MARKED, Verdict


def of_contest(contest: Contest, at: str) -> str:
    """Who came second. `at` says what decides between equals."""
    first = contest.value if contest.value is not None else "none"
    text = f"{contest.where}: {contest.first}, {contest.measure} {first}"
    if contest.second is None:
        return f"{text}; no other"
    second = contest.second_value if contest.second_value is not None else "none"
    text += f"; second {contest.second}, {contest.measure} {second}"
    if contest.value == contest.second_value:
        return f"{text}, equal: {at}"
    return text if contest.by is None else f"{text}, by {contest.by}"


def by_file_order(contests: list[Contest]) -> list[str]:
    """Who came second, where of equal ones the class that stands earlier in the file goes first."""
    return [of_contest(one, f"{one.first} stands earlier in the file") for one in contests]


def waited(play: Play, sending: Sending) -> list[str]:
    """The line on that the link waited, or none."""
    start = sending.choice.start
    return [f"the link waited from {play.now} on: {start} is the least moment at which a class may send"] if start > play.now else []


def of_realtime(discipline: Hfsc, choice: Choice) -> list[str]:
    """The lines on a sending by real time."""
    later = [node for node in discipline.real if node.waiting and choice.start < node.soonest]
    lines = ["realtime: the eligible head of least deadline"] + by_file_order(discipline.contests(choice))
    return lines + ([not_eligible(later)] if later else [])


def not_eligible(nodes: list[Node]) -> str:
    """The line on heads that are not eligible yet."""
    return "not eligible: " + ", ".join(f"{node.name} " + ("for good" if node.soonest == NEVER else f"before {node.soonest}") for node in nodes)


def of_share(discipline: Hfsc, choice: Choice) -> list[str]:
    """The lines on a sending by share."""
    held = [node for node in discipline.members if node.is_active and node.within > choice.start]
    waiting = [node for node in discipline.real if node.waiting]
    lines = ["share: no head is eligible" + ("" if waiting else "; none has a real-time curve")]
    lines += [not_eligible(waiting)] if waiting else []
    lines += by_file_order(discipline.contests(choice))
    return lines + (["beyond their limits: " + ", ".join(f"{node.name} until {node.within}" for node in held)] if held else [])


def of_cbq(discipline: Cbq, choice: Choice) -> list[str]:
    """The lines on a sending of CBQ."""
    node, start = choice.of, choice.start
    if choice.rule == "borrow":
        loan = discipline.loan(node, start)
        assert loan is not None
        lender = loan[1]
        lines = [f"borrow: {node.name} itself may not before {discipline.own_moment(node, start)}; {lender.name} lends"]
        lines.append(allows(discipline, lender, node.waiting[0].length, start))
    else:
        lines = ["own: " + allows(discipline, node, node.waiting[0].length, start)]
    priority = node.given.priority
    cursor = discipline.cursors.get(priority)
    first = "the file's first class" if cursor is None else f"{discipline.members[cursor].name}, which was sent last of its priority"
    lines += [of_contest(one, f"the ring begins at {first}") for one in discipline.contests(choice)]
    able = [other for other, moment in discipline.moments(start) if moment <= start and other.given.priority < priority]
    lines += ["of lesser priority: " + ", ".join(other.name for other in able)] if able else []
    held = [(other, moment) for other, moment in discipline.moments(start) if moment > start]
    return lines + (["held back: " + ", ".join(f"{other.name} until {moment}" for other, moment in held)] if held else [])


def allows(discipline: Cbq, node: CbqNode, length: int, start: int) -> str:
    """Why a class allows a packet."""
    if node.parent is None:
        return f"{node.name} is the root, which is never held back"
    if node.average > 0:
        return f"the average of {node.name}, {node.average}, is above 0"
    idle = node.idle(length, discipline.link.end(start, length))
    return f"the average of {node.name}, {node.average}, asks for an idle time of {needed(node.average)}, and the packet leaves {idle}"


def of_sending(play: Play, sending: Sending) -> list[str]:
    """The lines on a sending, before it is taken."""
    discipline, choice = play.discipline, sending.choice
    if isinstance(discipline, Cbq):
        lines = of_cbq(discipline, choice)
    else:
        lines = of_realtime(discipline, choice) if choice.rule == "realtime" else of_share(discipline, choice)
    return lines + waited(play, sending)


def of_wake(wake: Wake) -> str:
    """The line on the virtual time that a class takes."""
    if wake.least is not None and wake.greatest is not None:
        middle = (wake.least + wake.greatest) // 2
        what = f"the middle of {wake.least} and {wake.greatest}"
    else:
        assert wake.node.parent is not None
        middle, what = wake.high, f"the high mark of {wake.node.parent.name}"
    if wake.own > middle:
        return f"{wake.node.name} becomes active at its own virtual time {wake.own}, which is later than {middle}, {what}"
    return f"{wake.node.name} becomes active at virtual time {wake.virtual}, {what}"


def of_opening(play: Play, offer: Offer) -> list[str]:
    """The lines on what becomes active, and which leaf opens, where a packet is kept. Before it is taken."""
    node = offer.of
    lines = [of_wake(wake) for wake in play.discipline.wakes(node) if wake.node.parent is not None]
    real = getattr(node, "real", None)
    if real is not None and not node.waiting:
        lines.append(f"{node.name} opens at {offer.packet.arrival} with a count of {node.count}")
    return lines


def of_thresholds(verdict: Verdict) -> str:
    """The line on where the average stands."""
    average, lower, upper = verdict.average, verdict.lower, verdict.upper
    assert average is not None
    if verdict.word == FORCED:
        return f"the average {average} is not below the upper threshold {upper}: it is {average - upper} above it"
    if average < lower:
        return f"the average {average} is below the lower threshold {lower} by {lower - average}"
    return f"the average {average} is over the lower threshold {lower} by {verdict.over}, and below the upper one {upper} by {upper - average}"


def of_spacing(verdict: Verdict, drawn: int) -> list[str]:
    """The lines on the spacing of early drops, and on the word."""
    lines = [f"d = 10 * {verdict.upper - verdict.lower} - {verdict.risen} * {verdict.over} = {verdict.spacing}"]
    if verdict.drawn is None or verdict.spacing is None or verdict.over is None:
        return lines + ["d is not above 0: early without a word"]
    left, right = verdict.drawn * verdict.spacing, 2**32 * verdict.over
    what = f"less by {right - left}: early" if left < right else f"not less, by {left - right}: kept"
    return lines + [f"word {drawn} of the seed, {verdict.drawn}: word * d = {left}, 2^32 * {verdict.over} = {right}, {what}"]


def of_verdict(offer: Offer, drawn: int) -> list[str]:
    """The lines on a queue's verdict; `drawn` is how many words were drawn by then."""
    verdict = offer.answer
    if verdict.word == FULL:
        lines = [f"as many packets wait as the limit says, {verdict.limit}"]
    elif not verdict.moves:
        lines = []
    else:
        lines = [of_thresholds(verdict)] + (of_spacing(verdict, drawn) if verdict.spacing is not None else [])
    if verdict.word == MARKED:
        lines.append("its transport is capable of congestion notification, so it is marked in place of the drop")
    return lines + ([f"the count becomes {verdict.count}"] if verdict.moves else [])


VERBS = {KEPT: "is kept", MARKED: "is kept and marked", FULL: "is dropped full", FORCED: "is dropped forced", EARLY: "is dropped early"}
