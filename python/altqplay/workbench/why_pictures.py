"""A decision with the numbers behind it, as lines."""

from __future__ import annotations

from .rules.packets import Packet
from .rules.play import Offer, Play, Sending
from .rules.queues import KEPT, MARKED, Red
from .why_tables import queue_table, table_of
from .why_words import VERBS, of_opening, of_sending, of_verdict


def packet_text(packet: Packet, name: str) -> str:
    """A packet of a class in words."""
    return f"packet {packet.number} of {name}, {packet.length} bytes"


class OfferPicture:
    """An offer: made before it is taken, told behind that."""

    def __init__(self, play: Play, offer: Offer) -> None:
        self.play, self.offer = play, offer
        self.opening = of_opening(play, offer)

    def lines(self) -> list[str]:
        """The picture, behind the decision."""
        return offer_lines(self.play, self.offer, self.opening)


def offer_lines(play: Play, offer: Offer, opening: list[str]) -> list[str]:
    """An offer that was taken, with the lines on what it opened."""
    verdict, packet, queue = offer.answer, offer.packet, play.queues[offer.packet.place]
    lines = [f"{packet.arrival}: {packet_text(packet, offer.of.name)}, {VERBS[verdict.word]}: {verdict.waiting} of at most {verdict.limit} wait"]
    if verdict.moves and isinstance(queue, Red):
        lines += queue_table(queue, verdict)
    lines += [f"  {line}" for line in of_verdict(offer, play.words.drawn)]
    return lines + ([f"  {line}" for line in opening] if verdict.word in (KEPT, MARKED) else [])


class SendingPicture:
    """A sending: its table and its words are those before it is taken."""

    def __init__(self, play: Play, sending: Sending) -> None:
        packet, choice = sending.packet, sending.choice
        self.head = f"{choice.start}: {packet_text(packet, choice.of.name)}, arrived at {packet.arrival}, is sent by {choice.rule}, to {sending.end}"
        self.table, self.words = table_of(play, choice.start, sending), of_sending(play, sending)

    def lines(self) -> list[str]:
        """The picture, behind the decision."""
        return [self.head, *self.table.lines(True), *(f"  {line}" for line in self.words)]


def picture_of(play: Play, decision: Offer | Sending) -> OfferPicture | SendingPicture:
    """The picture of a decision that is not taken yet."""
    return (OfferPicture if isinstance(decision, Offer) else SendingPicture)(play, decision)


def state_lines(play: Play, moment: int) -> list[str]:
    """What holds at a moment at which nothing is decided, behind all decisions before it."""
    free = play.link.free
    if free is not None and moment < free:
        what = f"the link is busy until {free}"
    elif play.discipline.least(moment) is None:
        what = "nothing waits"
    else:
        what = f"the link waits until {play.discipline.least(moment)}, the least moment at which a class may send"
    return [f"{moment}: nothing is decided: {what}", *table_of(play, moment).lines(False)]
