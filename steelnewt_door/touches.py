"""A passkey's counter: whoever copied a passkey goes on from the number that it had then, so the
two go on beside each other, and one of them shows (Web Authentication, section 6.1.1)."""

from collections.abc import Iterable
from dataclasses import dataclass

from steelnewt_client.signed import Signed
from steelnewt_door.assertions import assertion_in


@dataclass(frozen=True)
class Touch:
    """One touch of a passkey: the counter, the moment of what was signed, and by what it is known
    again."""

    counter: int
    at: str
    mark: str

    def is_behind(self, others: Iterable["Touch"]) -> bool:
        """Whether another touch has this counter, or a higher one though it is no later. (What was
        signed later may come first. A passkey without a counter says 0 each time.)"""
        return any(
            it.mark != self.mark
            and it.counter > 0
            and (it.counter == self.counter or (it.counter > self.counter and it.at <= self.at))
            for it in others
        )


def touch_of(signed: Signed, at: str) -> Touch | None:
    """The touch with which a message of a moment was signed; None where that was by ssh."""
    if not signed.is_by_passkey:
        return None
    made = assertion_in(signed.signature)
    return Touch(made.fields[2], at, made.mark)
