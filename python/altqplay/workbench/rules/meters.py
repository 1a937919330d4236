"""The meters of conditioners, colour-blind, after RFC 2697 and RFC 2698, as exact fluids (docs/reference/METERS.md)."""

from __future__ import annotations

from dataclasses import dataclass

from .units import BYTE

GREEN, YELLOW, RED = "green", "yellow", "red"
PRECEDENCES = {GREEN: 1, YELLOW: 2, RED: 3}


@dataclass(frozen=True)
class MeterRule:
    """The rates of a meter in bits per second and its bursts in bytes. A meter with one rate has no `pir`, and `other_burst` is its EBS;
    of one with two rates it is the PBS. `af` is the class of assured forwarding of the marks."""

    pir: int | None
    other_burst: int
    cir: int
    cbs: int
    af: int

    @property
    def other_bucket(self) -> str:
        """What the bucket beside the committed one is called."""
        return "excess" if self.pir is None else "peak"


def rule_of(words: list[str]) -> MeterRule:
    """The meter of a canonical line, by its words from `srtcm` or `trtcm` on."""
    numbers = [int(word) for word in words[1:]]
    if words[0] == "srtcm":
        cir, cbs, ebs, af = numbers
        return MeterRule(None, ebs, cir, cbs, af)
    pir, pbs, cir, cbs, af = numbers
    return MeterRule(pir, pbs, cir, cbs, af)


class Meter:
    """The buckets of a meter, in units: full at first, at the moment 0."""

    def __init__(self, rule: MeterRule) -> None:
        self.rule, self.moment = rule, 0
        self.committed, self.other = rule.cbs * BYTE, rule.other_burst * BYTE

    def fill(self, moment: int) -> None:
        """What comes to the buckets up to a moment. With one rate the excess bucket gets what the committed one cannot hold."""
        rule, passed = self.rule, moment - self.moment
        held = self.committed + rule.cir * passed
        self.committed, self.moment = min(rule.cbs * BYTE, held), moment
        more = held - self.committed if rule.pir is None else rule.pir * passed
        self.other = min(rule.other_burst * BYTE, self.other + more)

    def colour(self, moment: int, length: int) -> str:
        """The colour of a packet, which pays as its colour says."""
        self.fill(moment)
        amount = length * BYTE
        is_committed, is_other = amount <= self.committed, amount <= self.other
        if self.rule.pir is None:
            colour = GREEN if is_committed else YELLOW if is_other else RED
        else:
            colour = RED if not is_other else GREEN if is_committed else YELLOW
        self.committed -= amount if colour == GREEN else 0
        self.other -= amount if colour == YELLOW or colour == GREEN and self.rule.pir is not None else 0
        return colour


def mark(rule: MeterRule, colour: str, tos: int) -> int:
    """A type of service with the code point of a colour; the two bits of congestion notification stay."""
    return 4 * (8 * rule.af + 2 * PRECEDENCES[colour]) + tos % 4
