"""The program `desk-verify`."""

import argparse
import sys

from steelnewt_client.signed import SITE
from steelnewt_door.changes import Two
from steelnewt_door.journal import BadJournal
from steelnewt_door.judge import Judge, JudgeAway
from steelnewt_door.signers import BadSigners, Signers
from steelnewt_door.verifying import BadInput, Verifier, read_counting, summary, theirs_of

DONE, FOUND, REFUSED = 0, 1, 2
DAY = 86_400


def parser() -> argparse.ArgumentParser:
    found = argparse.ArgumentParser(
        "desk-verify",
        description="Says which messages nobody signed, whether each approval was given over the"
        " very request, and which rows of a journal are missing or were changed.",
        epilog="Exit status: 0 all is signed, 1 something was found, 2 a file is not what it has to"
        " be.",
    )
    found.add_argument("--site", required=True, help="the site's name, as door.toml has it")
    said = "the folder with all files of the journal"
    found.add_argument("--journal", required=True, metavar="DIR", help=said)
    said = "the folder with all versions of the signers"
    found.add_argument("--signers", required=True, metavar="DIR", help=said)
    said = "what /v1/messages says, or desk-snapshot: look at each message of the desk"
    found.add_argument("--messages", metavar="FILE", help=said)
    said = "what was cut out of the desk's store, beside --messages (may be given again)"
    found.add_argument("--archive", action="append", default=[], metavar="FILE", help=said)
    said = "what /v1/requests or desk-audit --json says: look at approvals that count alone"
    found.add_argument("--requests", metavar="FILE", help=said)
    said = "the last row's digest, as you noted it the last time"
    found.add_argument("--chain", metavar="DIGEST", help=said)
    said = "how many people have to say yes to the signers (1)"
    found.add_argument("--changes-by", type=int, default=1, metavar="NUMBER", help=said)
    said = "what came unsigned before this moment is not named (door.toml, signed_since)"
    found.add_argument("--signed-since", default="", metavar="MOMENT", help=said)
    said = "nor are requests of this relay, which signs for nobody; may be given again"
    found.add_argument("--program", action="append", default=[], metavar="RELAY", help=said)
    said = "another door's journal: what was brought from it has to be there; may be given again"
    found.add_argument(
        "--other", action="append", default=[], type=named, metavar="DOOR=DIR", help=said
    )
    said = "seconds that a message may be on its way, before it is named (86400)"
    found.add_argument("--late", type=int, default=DAY, metavar="SECONDS", help=said)
    said = "give each so many-th signature to ssh-keygen too (1000)"
    found.add_argument("--sample", type=int, default=1_000, metavar="NUMBER", help=said)
    return found


def named(text: str) -> tuple[str, str]:
    name, mark, folder = text.partition("=")
    if not (name and mark and folder):
        raise argparse.ArgumentTypeError(f"{text!r} is not DOOR=DIR")
    return name, folder


def text_of(path: str) -> str:
    with open(path, encoding="utf-8", newline="\n") as file:
        return file.read()


def messages_of(said: argparse.Namespace) -> list[str] | None:
    """All that a desk was told: what it holds, and what was cut out of its store."""
    if said.archive and not said.messages:
        raise BadInput("an --archive is looked at beside --messages")
    paths = [said.messages, *said.archive] if said.messages else []
    texts = dict.fromkeys(line for path in paths for line in text_of(path).splitlines())
    return list(texts) if paths else None


def followed(said: argparse.Namespace) -> int:
    if not SITE.fullmatch(said.site) or said.sample < 1:
        raise BadInput("--site is a name as desk.example, and --sample a number from 1 on")
    signers, judge = Signers(said.signers), Judge(said.site)
    verifier = Verifier(judge, signers, said.late, said.sample, said.chain or "")
    verifier.since, verifier.programs = said.signed_since, frozenset(said.program)
    verifier.others = {name: theirs_of(folder) for name, folder in said.other}
    lines = messages_of(said)
    counting = read_counting(text_of(said.requests)) if said.requests else None
    found = verifier.look(said.journal, lines, counting)
    if said.chain and not verifier.has_noted:
        found.add("CUT", "the row that you noted is not there, or is another one")
    try:
        Two(judge, signers, said.changes_by).check_all()
    except BadSigners as fault:
        found.add("NOT AGREED", str(fault))
    for line in [*found.lines, *summary(found, counting is not None)]:
        print(line)
    return FOUND if any(not it.startswith("(") for it in found.lines) else DONE


def main(words: list[str] | None = None) -> int:
    said = parser().parse_args(words)
    try:
        return followed(said)
    except (BadInput, BadSigners, BadJournal, JudgeAway, OSError, ValueError) as fault:
        print(f"desk-verify: {fault}", file=sys.stderr)
        return REFUSED
