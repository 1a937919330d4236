"""What a queue is told of a frame: its drop precedence, and whether its transport is capable of congestion notification
(docs/reference/FRAMES.md)."""

from __future__ import annotations

TAGS = (0x8100, 0x88A8)
IPV4, IPV6 = 0x0800, 0x86DD


def word(frame: bytes, at: int) -> int | None:
    """Two bytes of a frame, the greater first; None where they were not captured."""
    return int.from_bytes(frame[at:at + 2], "big") if len(frame) >= at + 2 else None


def type_of_service(frame: bytes) -> int | None:
    """The type of service or traffic class of a frame; None where it is neither IPv4 nor IPv6, or its headers cannot be read."""
    at = 12
    for _tag in range(2):
        at += 4 if word(frame, at) in TAGS else 0
    kind, head = word(frame, at), frame[at + 2:]
    if kind == IPV4 and len(head) >= 20 and head[0] >> 4 == 4 and head[0] & 15 >= 5:
        return head[1]
    if kind == IPV6 and len(head) >= 40 and head[0] >> 4 == 6:
        return (head[0] & 15) << 4 | head[1] >> 4
    return None


def precedence(tos: int | None) -> int:
    """The drop precedence of a type of service: that of assured forwarding (RFC 2597), else 0."""
    if tos is None:
        return 0
    forwarding, point = divmod(tos >> 2, 8)
    return {2: 0, 4: 1, 6: 2}.get(point, 0) if 1 <= forwarding <= 4 else 0


def is_capable(tos: int | None) -> bool:
    """Whether a type of service says that the transport is capable of congestion notification (RFC 3168)."""
    return tos is not None and tos & 3 != 0
