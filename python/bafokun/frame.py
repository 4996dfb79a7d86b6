"""CAN frames, as pairs and as messages of python-can."""

from __future__ import annotations

from typing import TYPE_CHECKING, Any, NamedTuple, Optional, Tuple, Union

from .arguments import integer, octets

if TYPE_CHECKING:
    import can

AnyFrame = Union[Tuple[int, bytes], "can.Message"]
"""A pair (identifier, data), also a Frame; or a message of python-can."""


class Frame(NamedTuple):
    """A CAN data frame with an identifier of 11 bits and at most 8 bytes. It equals the pair (id, data)."""

    id: int
    data: bytes

    def __str__(self) -> str:
        """As candump -L writes it: 705#00."""
        return f"{self.id:03X}#{self.data.hex().upper()}"

    def message(self) -> "can.Message":
        """The frame as a message of python-can."""
        import can

        return can.Message(arbitration_id=self.id, data=self.data, is_extended_id=False)


def frame_of(frame: AnyFrame) -> Optional[Frame]:
    """The frame of a pair or a message.

    None for a message that a device doesn't hear: an identifier of 29 bits (python-can's default), a remote, error or
    CAN FD frame. ValueError: a pair or a message that is no frame; TypeError: neither a pair nor a message.
    """
    identifier: Any
    data: Any
    if isinstance(frame, tuple) and len(frame) == 2:
        identifier, data = frame
    elif not hasattr(frame, "is_extended_id"):
        raise TypeError(f"a frame is a pair (identifier, data) or a message of python-can, not {frame!r}")
    elif frame.is_extended_id or frame.is_remote_frame or frame.is_error_frame or frame.is_fd:
        return None
    else:
        # python-can checks a message only if it is told to
        identifier, data = frame.arbitration_id, frame.data
    identifier, data = integer("a frame's identifier", identifier, 0x7FF), octets("a frame's data", data)
    if len(data) > 8:
        raise ValueError(f"a frame's data isn't at most 8 bytes: {data!r}")
    return Frame(identifier, data)
