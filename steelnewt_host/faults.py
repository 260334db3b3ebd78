"""What goes wrong, and the statuses that say so."""

from __future__ import annotations


# statuses; 2 is argparse's, for wrong words; with 4 a file was taken, and somebody has to look at
# what another desk says
FAULT, UNFIT, REFUSED = 1, 3, 4


class Fault(Exception):
    """Why nothing was done, in a line, and the status."""

    def __init__(self, why: str, status: int = FAULT) -> None:
        super().__init__(why)
        self.status = status


class Unsigned(Fault):
    """Why an answer is not that of a door whose key this host has: somebody has to look."""


class Unclear(Exception):
    """Why sudo cannot be asked about a session, by what its user chose or did."""


class Unanswered(Exception):
    """Why sudo gives no answer, whoever is asked about: that is for this host to mend."""
