"""Compares desks that were given the same messages: they must answer alike, to the byte.

    desk-compare answers ROSTER URL URL.. [--at MOMENT].. [--doors URL..] [--patience SECONDS]

asks each desk which roster and base it serves, for every host's file, for the verdicts that wait,
and for the report at each moment, and compares the digests. A URL is http://HOST:PORT, or unix:/PATH
for the desk's socket. `--doors` has the sockets at which doors answer auditors: each is asked for
every version of its signers, which has to be the same at all. Messages that are still in a desk's queue make it differ: it is asked again until all agree, or the
patience is over. Status 0: they agree; 1: they differ; 2: one did not answer, or the roster
cannot be read here (it has to be TOML 1.0).

    desk-compare messages NAME=FILE NAME=FILE.. [--since NAME=FILE..] [--lacking NAME]

compares the desks' messages: each FILE has those of one desk's store, one a line, as
desk-snapshot prints them. With `--since` only those count that some desk
had in these older files: take them a minute before, and what is merely on its way is not found
lacking. `--lacking NAME` prints those that this desk lacks and nothing else, for desk-fill.
"""

from __future__ import annotations

import argparse
import concurrent.futures
import hashlib
import json
import sys
import time
import tomllib
from collections.abc import Callable

from steelnewt_client.desk import BadAddress, Desk, Silent

COUNT = "/v1/count"
EARLIEST, MOST_PAGES = "19700101000000Z", 10_000
SHOWN = 5  # so many of the messages that a desk lacks are shown
ANSWERS_IN = 60.0  # seconds
Digests = dict[str, str]


MEND = (
    "See what desk-lint says of it; if the desks take it, write each inline table on one line, and"
    " use no other word of TOML 1.1"
)


class BadRoster(Exception):
    """The roster cannot be read here; the text says what to do."""


class NoAnswer(Exception):
    """A desk did not answer, or not with 200."""


def answer(url: str, target: str) -> bytes:
    try:
        reply = Desk(url, patience=ANSWERS_IN).exchange("GET", target)
    except (BadAddress, Silent) as error:
        raise NoAnswer(f"{url}{target}: {error}") from error
    if reply.status != 200:
        raise NoAnswer(f"{url}{target}: {reply.status}")
    return reply.body


def digest(body: bytes) -> str:
    return hashlib.sha256(body).hexdigest()


def digests(url: str, targets: list[str]) -> Digests:
    """What a desk answers, and which roster and base it serves."""
    served = answer(url, COUNT).decode("ascii", "replace").split()[1:]
    if len(served) != 2:
        raise NoAnswer(f"{url}{COUNT}: no digests of a roster and a base")
    found = dict(zip(("the roster", "the base"), served))
    return found | {target: digest(answer(url, target)) for target in targets}


def signers(url: str) -> Digests:
    """Each version of the signers that a door has."""
    found: Digests = {}
    last = EARLIEST
    for _ in range(MOST_PAGES):
        page = answer(url, f"/v1/signers/after/{last}")
        if not page:
            return found
        for line in page.splitlines():
            last = moment_of(url, line, last)
            found[f"the signers of {last}"] = digest(line)
    raise NoAnswer(f"{url}: its signers have no end")


def moment_of(url: str, line: bytes, last: str) -> str:
    """The moment of a version, which is later than the one before it."""
    try:
        at = str(json.loads(line)["at"])
    except (ValueError, KeyError, TypeError) as error:
        raise NoAnswer(f"{url}: a version of its signers is none") from error
    if at <= last:
        raise NoAnswer(f"{url}: its versions of the signers do not rise")
    return at


def differing(found: dict[str, Digests]) -> list[str]:
    """What not all have, or have alike."""
    each = [*found.values()]
    names = dict.fromkeys(name for one in each for name in one)
    return [name for name in names if len({one.get(name) for one in each}) > 1]


def ask(
    urls: list[str], about: Callable[[str], Digests], patience: float
) -> dict[str, Digests]:
    """What each answers, when they agree, or when the patience is over."""
    until, wait = time.monotonic() + patience, 0.2
    while True:
        with concurrent.futures.ThreadPoolExecutor(len(urls)) as pool:
            found = dict(zip(urls, pool.map(about, urls)))
        if not differing(found) or time.monotonic() >= until:
            return found
        time.sleep(wait)
        wait = min(5.0, wait * 2)


def hosts_of(path: str) -> list[str]:
    """The hosts of a roster. (A desk reads TOML 1.1, and Python TOML 1.0.)"""
    try:
        with open(path, "rb") as file:
            hosts = tomllib.load(file)["hosts"]
        return sorted({str(it) for it in hosts})
    except OSError as error:
        raise BadRoster(f"cannot read {path}: {error.strerror}") from error
    except (ValueError, KeyError, TypeError, AttributeError) as error:
        raise BadRoster(f"cannot read {path}: {error!r}. {MEND}") from error


def compare_answers(words: argparse.Namespace) -> int:
    try:
        hosts = hosts_of(words.roster)
    except BadRoster as error:
        print(error)
        return 2
    targets = [f"/v1/hosts/{host}/sudoers" for host in hosts]
    targets += ["/v1/parked", *(f"/v1/reviews/{moment}" for moment in words.at)]
    try:
        found = ask(words.urls, lambda url: digests(url, targets), words.patience)
        doors = ask(words.doors, signers, words.patience) if words.doors else {}
    except NoAnswer as error:
        print(f"no answer: {error}")
        return 2
    for url, each in found.items():
        print(f"{url}: {len(each)} answers, sha256 of their digests {digest_of(each)}")
    for url, each in doors.items():
        print(f"{url}: {len(each)} versions of the signers, sha256 {digest_of(each)}")
    wrong = differing(found) + (differing(doors) if doors else [])
    tell_differing(found, doors)
    asked = len({name for each in (*found.values(), *doors.values()) for name in each})
    print("they agree" if not wrong else f"{len(wrong)} of {asked} answers differ")
    return 1 if wrong else 0


def digest_of(each: Digests) -> str:
    return digest("".join(each[name] for name in each).encode())


def tell_differing(*groups: dict[str, Digests]) -> None:
    for found in filter(None, groups):
        for name in differing(found):
            said = ", ".join(each.get(name, "lacking")[:12] for each in found.values())
            print(f"differs: {name}: {said}")


def named(text: str) -> tuple[str, str]:
    name, mark, path = text.partition("=")
    if not (name and mark and path):
        raise argparse.ArgumentTypeError(f"{text!r} is not NAME=FILE")
    return name, path


def lines(pairs: list[tuple[str, str]]) -> dict[str, set[bytes]]:
    found = {}
    for name, path in pairs:
        with open(path, "rb") as file:
            found[name] = set(file.read().splitlines())
    return found


def compare_messages(words: argparse.Namespace) -> int:
    now = lines(words.files)
    every = set().union(*lines(words.since or words.files).values())
    lacking = {name: sorted(every - each) for name, each in now.items()}
    if words.lacking is not None:
        sys.stdout.buffer.writelines(body + b"\n" for body in lacking[words.lacking])
        return 0
    for name, each in now.items():
        whole = hashlib.sha256(b"".join(body + b"\n" for body in sorted(each))).hexdigest()
        print(f"{name}: {len(each)} messages, sha256 {whole}")
    for name, wanted in lacking.items():
        if wanted:
            print(f"{name} lacks {len(wanted)}:")
        for body in wanted[:SHOWN]:
            print("    " + body.decode("utf-8", "replace"))
    print("they agree" if not any(lacking.values()) else "they differ")
    return 1 if any(lacking.values()) else 0


def main() -> int:
    parser = argparse.ArgumentParser("desk-compare", description="Compares desks.")
    parts = parser.add_subparsers(dest="part", required=True)
    answers = parts.add_parser("answers", help="their files and reports, over HTTP")
    answers.add_argument("roster", help="the file of the desks' roster")
    answers.add_argument("urls", nargs="+", metavar="URL")
    answers.add_argument("--at", action="append", default=[], metavar="MOMENT")
    said = "the sockets at which doors answer auditors: compare their signers too"
    answers.add_argument("--doors", nargs="+", default=[], metavar="URL", help=said)
    answers.add_argument("--patience", type=float, default=60.0, metavar="SECONDS")
    messages = parts.add_parser("messages", help="what their stores hold")
    messages.add_argument("files", nargs="+", type=named, metavar="NAME=FILE")
    messages.add_argument("--since", nargs="+", type=named, metavar="NAME=FILE")
    messages.add_argument("--lacking", metavar="NAME")
    words = parser.parse_args()
    if words.part == "messages" and words.lacking not in (None, *dict(words.files)):
        parser.error(f"--lacking: no file is named {words.lacking}")
    return compare_answers(words) if words.part == "answers" else compare_messages(words)


if __name__ == "__main__":
    sys.exit(main())
