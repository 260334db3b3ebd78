"""What a key signed, exactly, and when it came: by the journal."""

from collections.abc import Iterator

from steelnewt_client.messages import Request
from steelnewt_client.signed import said_in
from steelnewt_door.journal import files_of, rows_of
from steelnewt_door.rows import MESSAGES, moment_of


def signed_with(journal: str, marks: set[str]) -> Iterator[str]:
    """A line for each message that keys of these fingerprints signed, and what was answered."""
    came, codes = {}, {}
    for _, path in files_of(journal):
        for row in rows_of(path):
            if row["row"] in MESSAGES and row["key"] in marks:
                came[row["no"]] = row
            elif row["row"] == "answered" and row["of"] in came:
                codes[row["of"]] = row["code"]
    for no, row in came.items():
        message = said_in(row["message"])
        kind = "ask" if isinstance(message, Request) else message.kind
        of = message.by if isinstance(message, Request) else message.of
        yield (
            f"{moment_of(row)} by relay {row['relay']}: {message.by}: {kind} {of} {message.no}"
            f" ({codes.get(no, 'no answer')}), with {row['key']}"
        )
    yield f"{len(came)} messages were signed with {', '.join(sorted(marks))}"
