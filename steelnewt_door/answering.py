"""What the door answers itself: to hosts, each answer with the door's own signature, and to
auditors, what it kept (docs/SIGNING.md, 'Hosts' files' and 'The journal').

It is a process of its own with a socket of its own: a host's questions take nothing from the
messages, and the key that signs is in no process that reads what strangers post. It asks the desk
where questions go, and signs what that answers, to the byte. A refusal of the desk's passes as it
is. All other questions go to the desk itself, as without a door.
"""

import asyncio
import logging
import re
import signal
import socket
from dataclasses import dataclass

from steelnewt_client.names import LABEL
from steelnewt_door.file_key import BadKey, FileKey
from steelnewt_door.heads import PHRASES, Bad, read_head, reply
from steelnewt_door.shown import rows_after, versions_after
from steelnewt_door.signers import BadSigners

log = logging.getLogger("desk-door")
COMES_IN, ANSWERS_IN, GOES_IN = 10.0, 60.0, 30.0  # seconds
MOST_OPEN = 1_024  # connections
AT_ONCE = 8  # answers that are made at a time: the desk makes one after the other
PAGES = 4  # that auditors are given at a time: who reads none keeps no host waiting
MOST_ANSWER = 17 << 20  # bytes: the longest policy, and the line before it
PIECE = 65_536
# What the desk is asked for a question with a signed answer. The question's last word is a number of
# the host's, which no earlier question had.
HOST = re.compile(rf"/v1/hosts/{LABEL}/(?:at/[0-9]{{14}}Z|history)(?=/signed/[0-9a-f]{{32}}\Z)")
# What auditors ask of the door's own files.
KEPT = re.compile(r"/v1/(?:journal/after/([0-9]{1,12})|signers/after/([0-9]{14}Z))")
ANSWER = re.compile(rb"HTTP/1\.1 ([0-9]{3}) [^\r\n]*\r\n((?:[^\r\n]+\r\n)*)\r\n")
LENGTH = re.compile(rb"^Content-Length: ([0-9]{1,9})\r$", re.MULTILINE)


@dataclass(frozen=True)
class Kept:
    """Where the door's own files are."""

    journal: str
    signers: str

    def page(self, asked: re.Match[str]) -> bytes:
        """What an auditor asks for: rows behind a number, or signers behind a moment."""
        number, moment = asked.groups()
        try:
            if number:
                return rows_after(self.journal, int(number))
            return versions_after(self.signers, moment)
        except (OSError, BadSigners) as fault:
            log.error("K23 DoorFails: %s", fault)
            raise Bad(503, "K23 DoorFails") from None


def asked_by(target: str) -> str:
    """What the desk is asked for a question with a signed answer."""
    found = HOST.match(target)
    if not found:
        raise Bad(404, "T3 NoRoute")
    return "/v1/history" if found[0].endswith("/history") else found[0]


def read_answer(raw: bytes) -> tuple[int, bytes]:
    """The status and the body of what the desk answered, where that came whole."""
    head = ANSWER.match(raw)
    length = LENGTH.search(head[2]) if head else None
    if not head or not length or int(length[1]) != len(raw) - head.end():
        raise Bad(503, "K20 DeskAway")
    if int(head[1]) not in PHRASES:
        raise Bad(503, "K20 DeskAway")
    return int(head[1]), raw[head.end() :]


class Answering:
    """Answers at one socket; `questions` is where the desk answers."""

    def __init__(self, key: FileKey, kept: Kept, questions: str) -> None:
        self.key, self.kept, self.questions = key, kept, questions
        self.open = 0
        self.room, self.pages = asyncio.Semaphore(AT_ONCE), asyncio.Semaphore(PAGES)

    async def serve(self, place: socket.socket) -> None:
        """Serves until SIGTERM."""
        loop, ended = asyncio.get_running_loop(), asyncio.Event()
        for number in (signal.SIGTERM, signal.SIGINT):
            loop.add_signal_handler(number, ended.set)
        server = await asyncio.start_unix_server(self.hear, sock=place, backlog=512)
        async with server:
            await ended.wait()

    async def hear(self, reader: asyncio.StreamReader, writer: asyncio.StreamWriter) -> None:
        """One connection, and one question."""
        self.open += 1
        # (what is given is gone when `drain` ends)
        writer.transport.set_write_buffer_limits(0)
        try:
            if self.open <= MOST_OPEN:
                await self.answer(reader, writer)
            writer.close()
        except (OSError, asyncio.TimeoutError, EOFError):
            writer.transport.abort()  # (nobody is there to be answered)
        except Exception:
            log.exception("K23 DoorFails: a question")
            writer.transport.abort()
        finally:
            self.open -= 1

    async def answer(self, reader: asyncio.StreamReader, writer: asyncio.StreamWriter) -> None:
        is_head = False
        try:
            head, _ = await asyncio.wait_for(read_head(reader), COMES_IN)
            is_head, kept = head.method == "HEAD", KEPT.fullmatch(head.target)
            question = "" if kept else asked_by(head.target)
            if head.method not in ("GET", "HEAD"):
                raise Bad(405, "T4 BadMethod", "GET, HEAD")
            if kept:
                async with self.pages:
                    body = await asyncio.to_thread(self.kept.page, kept)
                    await give(writer, reply(200, body, is_head=is_head))
                return
            async with self.room:
                status, body = await self.ask(question)
                body = self.signed(head.target, body) if status == 200 else body
            await give(writer, reply(status, body, is_head=is_head))
        except Bad as fault:
            text = f"{fault.code}\n".encode()
            await give(writer, reply(fault.status, text, fault.allow, is_head))

    def signed(self, route: str, answer: bytes) -> bytes:
        """An answer behind the line with its signature."""
        try:
            return self.key.sign(route, answer).encode("ascii") + b"\n" + answer
        except BadKey as fault:
            log.error("K23 DoorFails: no answer is signed: %s", fault)
            raise Bad(503, "K23 DoorFails") from None

    async def ask(self, question: str) -> tuple[int, bytes]:
        """What the desk answers to a question."""
        text = f"GET {question} HTTP/1.1\r\nHost: desk\r\n\r\n"
        try:
            return await asyncio.wait_for(self.exchanged(text.encode("ascii")), ANSWERS_IN)
        except (OSError, asyncio.TimeoutError):
            raise Bad(503, "K20 DeskAway") from None

    async def exchanged(self, given: bytes) -> tuple[int, bytes]:
        reader, asked = await asyncio.open_unix_connection(self.questions)
        try:
            asked.write(given)
            pieces, size = list[bytes](), 0
            while piece := await reader.read(PIECE):
                pieces.append(piece)
                size += len(piece)
                if size > MOST_ANSWER:
                    raise Bad(503, "K20 DeskAway")
            return read_answer(b"".join(pieces))
        finally:
            asked.close()


async def give(writer: asyncio.StreamWriter, said: bytes) -> None:
    writer.write(said)
    await asyncio.wait_for(writer.drain(), GOES_IN)
