"""Fills a desk behind its door with what another door of the site took: from that door's journal,
each message with its signature and the moment of its arrival there, by root's own socket.

The door here judges each by its own signers, rules and desk; it believes the other one for the
moment alone. A copy only grows, and no row of it is from before the row that it follows: so a door
that was bought dates nothing back to before the last look at it.
"""

import json
import os
from collections.abc import Callable, Iterator
from dataclasses import asdict, dataclass, field

from steelnewt_client.codes import Answer, Fate
from steelnewt_client.moments import seconds
from steelnewt_client.signed import Signed
from steelnewt_door.journal import files_of, rows_of
from steelnewt_door.rows import ACK, FIRST, Arrival, Row
from steelnewt_door.verifying import SET_BACK

GIVEN = "given.json"
MOST_OPEN = 10_000  # rows that wait for their answers at the other door
HOWS = ("signed", "root", "unsigned", "program")
Post = Callable[[Arrival, str, str], Answer]


@dataclass
class Mark:
    """How far a copy was given: the last row, its chain and moment; rows that the other desk had
    not acknowledged; and rows that the door here did not take yet."""

    no: int = 0
    chain: str = FIRST
    at: str = ""
    open: list[int] = field(default_factory=list)
    left: list[int] = field(default_factory=list)


def read_mark(folder: str) -> Mark:
    try:
        with open(os.path.join(folder, GIVEN), encoding="ascii") as file:
            return Mark(**json.load(file))
    except FileNotFoundError:
        return Mark()


def write_mark(folder: str, mark: Mark) -> None:
    path = os.path.join(folder, GIVEN)
    with open(f"{path}.new", "w", encoding="ascii") as file:
        json.dump(asdict(mark), file)
        file.flush()
        os.fsync(file.fileno())
    os.replace(f"{path}.new", path)


def rows_with(journal: str, numbers: set[int]) -> Iterator[Row]:
    """The rows of these numbers."""
    files = files_of(journal)
    ends = [begins for begins, _ in files[1:]]
    for (begins, path), end in zip(files, [*ends, 1 << 62], strict=True):
        if any(begins <= it < end for it in numbers):
            yield from (row for row in rows_of(path) if row["no"] in numbers)


def signed_of(row: Row) -> Signed:
    return Signed(row["message"], row["signature"], row["about"], row["why"])


def arrival_of(name: str, row: Row) -> Arrival:
    # (of what nobody signed no version judged: any has its form)
    return Arrival(name, row["at"], row["signers"] or row["at"], row["chain"])


@dataclass
class Filling:
    """Gives the door here what the copy of another door's journal has. `is_taken` says of a
    message whether the desk here has it."""

    name: str
    folder: str
    is_taken: Callable[[str], bool]
    post: Post
    found: list[str] = field(default_factory=list)
    given: int = 0

    def __post_init__(self) -> None:
        self.journal = os.path.join(self.folder, "journal")
        self.mark = read_mark(self.folder)

    def fill(self, is_empty: bool = False) -> None:
        """Gives what is new, and what was not taken before; all, where the desk here is empty."""
        self.mark = Mark() if is_empty else self.mark
        left = list(rows_with(self.journal, set(self.mark.left)))
        self.mark.left = []
        for row in [*left, *self.acknowledged()]:
            self.give(row)
        write_mark(self.folder, self.mark)

    def acknowledged(self) -> list[Row]:
        """The rows behind the mark, and before, that the other desk has acknowledged since."""
        came = {it["no"]: it for it in rows_with(self.journal, set(self.mark.open))}
        found = []
        for row in self.new_rows():
            if row["row"] == "came" and row["how"] in HOWS:
                came[row["no"]] = row
            elif row["row"] == "answered" and row["code"] == ACK and row["of"] in came:
                found.append(came.pop(row["of"]))
        self.mark.open = sorted(came)[-MOST_OPEN:]
        return found

    def new_rows(self) -> Iterator[Row]:
        """The rows behind the mark, up to the first that does not follow the one before it. (What
        the other door brought from a third one comes from that.)"""
        mark = self.mark
        for begins, path in files_of(self.journal):
            for row in rows_of(path):
                if row["no"] <= mark.no:
                    continue
                is_first = not mark.no and row["no"] == begins
                if not is_first and (row["no"], row["before"]) != (mark.no + 1, mark.chain):
                    self.found.append(f"OTHER ROW: row {row['no']} does not follow row {mark.no}")
                    return
                if mark.at and seconds(mark.at) - seconds(row["at"]) > SET_BACK:
                    told = f"row {row['no']} is of {row['at']}, the one before of {mark.at}"
                    self.found.append(f"SET BACK: {told}")
                    return
                mark.no, mark.chain, mark.at = row["no"], row["chain"], row["at"]
                yield row

    def give(self, row: Row) -> None:
        """Gives one message, which is kept for the next time where the door cannot take it now."""
        if self.is_taken(row["message"]):
            return
        answer = self.post(arrival_of(self.name, row), row["relay"], signed_of(row).line())
        if answer.fate is Fate.TAKEN:
            self.given += 1
        elif answer.fate is Fate.AGAIN:
            self.mark.left.append(row["no"])
            self.found.append(f"WAITS: row {row['no']}: {answer.said}: {row['message']}")
        else:
            told = f"row {row['no']}: {answer.said}: {row['message']}"
            self.found.append(f"REFUSED HERE: {told}")
