"""Texts that are changed at random: messages, rosters and policies, and what must be answered.

Messages and rosters are read a second time by the rules of `desk-lint` (tools/), from which the
desk's answer to each follows. No second reader says which policies are of the desk's subset. If the
desk reads a policy, `visudo -c` must accept the text, the canonical text must be read back to
itself, and both must decide alike; if it refuses one, the code for its length and its bytes is
known.
"""

from __future__ import annotations

import glob
import os
import random
import re
import sys

from tests.common import desk, store_files
from tests.common.tally import Stopped, Tally

sys.path[:0] = [os.path.join(desk.ROOT, "tools"), os.path.join(desk.ROOT, "tools", "tests")]
sys.dont_write_bytecode = True

import texts  # noqa: E402

from desk_tools import admission, message_faults, roster_faults  # noqa: E402
from desk_tools.found import coded, first_code  # noqa: E402
from desk_tools.site import Site  # noqa: E402

FAULT = re.compile(rb"S([1-9]|10) [A-Za-z]+ line [0-9]+\n")
MOST_TEXT = 16_777_216
COMMENT = b"# " + b"-" * 4_000 + b"\n"
LAWFUL = re.compile(rb"[\t\n\x20-\x7e]*")


def site(roster: bytes) -> Site:
    return Site(roster_faults.Roster(roster).document.value)


def answer(held: Site, body: bytes) -> str:
    """What the desk must answer to a message."""
    message = message_faults.Message(body, 1)
    faults = message.look() or admission.Admission(held, message.value, 1).look()
    code = first_code(faults)
    return str(coded(code)) if code else "ack"


def bytes_changed(chance: random.Random, given: bytes) -> bytes:
    """The bytes with one to three of them changed, put in, taken out or repeated."""
    for _ in range(chance.randint(1, 3)):
        at = chance.randint(0, len(given))
        end = min(len(given), at + chance.choice([1, 1, 1, 2, 4, 8, 40]))
        some = bytes([chance.randrange(256)])
        given = chance.choice(
            [
                given[:at] + some + given[at + 1 :],
                given[:at] + some + given[at:],
                given[:at] + given[end:],
                given[:at] + given[at:end] * 2 + given[end:],
                given[:at],
            ]
        )
    return given


def messages(words: list[str], seed: str, count: int, folder: str) -> Tally:
    """Lines of one delivery, each a message that was changed; one delivery in four is to a file,
    which holds afterwards what was acknowledged and nothing else."""
    tally, chance = Tally(), random.Random(seed)
    with open(desk.ROSTER, "rb") as file:
        held = site(file.read())
    lines = texts.messages(count, chance.randrange(2**32))
    for place in range(0, count, 3):
        lines[place] = bytes_changed(chance, lines[place]).replace(b"\n", b"")
    store = os.path.join(folder, "store.db") if chance.random() < 0.25 else "-"
    tally.inputs = len(lines)
    given = b"".join(line + b"\n" for line in lines)
    try:
        status, out, err = tally.run(
            [*words, "deliver", desk.ROSTER, desk.BASE, store, "chat"], given
        )
    except Stopped:
        return tally
    said = out.decode("ascii", "replace").splitlines()
    wanted = [answer(held, line) for line in lines]
    tally.answers.update(said)
    tally.compare("how many lines are answered", len(said), len(lines))
    for line, got, expected in zip(lines, said, wanted):
        tally.compare(line, got, expected)
    tally.compare("the status", status, 0 if {*wanted} == {"ack"} else 2)
    tally.compare("the standard error", err, b"")
    if store != "-":
        acked = sorted({line.decode() for line, it in zip(lines, wanted) if it == "ack"})
        tally.compare("what the file holds", store_files.read(store)[1], acked)
    return tally


def rosters(words: list[str], seed: str, count: int, folder: str) -> Tally:
    """Rosters that were changed, a run each."""
    tally, chance = Tally(), random.Random(seed)
    for data in texts.rosters(count, chance.randrange(2**32)):
        if chance.random() < 0.3:
            data = bytes_changed(chance, data)
        tally.inputs += 1
        path = desk.write(folder, "roster", data)
        try:
            got = tally.run([*words, "deliver", path, os.devnull, "-", "chat"])
        except Stopped:
            continue
        code = first_code(roster_faults.Roster(data).look())
        wanted = (2, b"", f"{coded(code)}\n".encode()) if code else (0, b"", b"")
        tally.answers[got[2].decode("ascii", "replace").strip() or "read"] += 1
        tally.compare(data, got, wanted)
    return tally


# ---- policies

WORDS = (
    "ann bob ALL db1 db2 root op X1 X2 OPS FILES User_Alias Host_Alias Runas_Alias Cmnd_Alias"
    " (root) (op,ann) () NOPASSWD: PASSWD: NOEXEC: NOTBEFORE=20260105090000Z NOTAFTER=2026010511Z"
    " NOTAFTER=20260105100000+0100 NOTBEFORE=2026023009Z /bin/ls /usr/bin/ /usr/bin/id -l"
    " /bin/a\\:b /bin/a:b /bin/ls* / // /bin/../ls ! !! , : = ( ) # #1 #include \\ Defaults"
    " sudoedit sha224 %wheel +net @include 1 _a a.b -x x,y"
).split() + ['""', "x" * 33, "/" + "a" * 256]
MARKS = list(" \t\n,:=!()#\\\"'\r\x00\x7f0aA") + ["\\\n", " \\\n", "\n\n", "é", ", ", " : ", "!!"]
NAMES = ("ann", "bob", "kim", "root")
HOSTS = ("db1", "db2", "web1", "other")
RUN = (["/bin/ls"], ["/usr/bin/id", "-u"], ["/bin/a", "b:c"], ["/usr/bin/x"], ["/bin/ls", "-l"])
TIMES = ("20260105093000Z", "20260105110001Z", "19700101000000Z", "20991231235959Z")


def policies_at_first() -> list[str]:
    """Policies that the desk reads: those of examples/, and some with deep and heavy aliases."""
    paths = sorted(glob.glob(os.path.join(desk.EXAMPLES, "**", "*.sudo"), recursive=True))
    found = [desk.read(path) for path in paths]
    deep = ["User_Alias X1 = ann", *(f"User_Alias X{n} = !X{n - 1}, bob" for n in range(2, 64))]
    twice = [
        "User_Alias Y1 = a, a",
        *(f"User_Alias Y{n} = Y{n - 1}, Y{n - 1}" for n in range(2, 17)),
    ]
    found.append("\n".join([*deep, "X63 db1 = ALL", ""]))
    found.append("\n".join([*twice, "Y16 db1 = (root) ALL", ""]))
    found.append(
        "User_Alias A = ann, !bob : B = A, !kim\nHost_Alias H = db1, db2\nRunas_Alias R = root,"
        " !op\nCmnd_Alias C = /bin/ls, !/usr/bin/id -u : D = C, /usr/bin/\nB H = (R)"
        " NOTBEFORE=2026010509Z NOTAFTER=202601051100Z NOPASSWD: D, PASSWD: !C : web1 = ALL\n"
    )
    return found


def lengthened(given: bytes, length: int) -> bytes:
    """The bytes with comments behind them, as many as come to the length."""
    count, rest = divmod(length - len(given), len(COMMENT))
    return given + b"\n" * rest + COMMENT * count


def policies(words: list[str], seed: str, count: int, folder: str) -> Tally:
    """Policies that were changed, one after another."""
    tally, chance, first = Tally(), random.Random(seed), policies_at_first()
    visudo = desk.tool("visudo")
    for _ in range(count):
        data = chance.choice(first).encode()
        for _ in range(chance.choice([1, 1, 2, 3])):
            if chance.random() < 0.7:
                text = texts.changed(chance, data.decode("utf-8", "replace"), WORDS, MARKS)
                data = text.encode("utf-8", "replace")
            else:
                data = bytes_changed(chance, data)
        if chance.random() < 0.002:
            data = lengthened(data, MOST_TEXT + chance.randint(0, 1))
        tally.inputs += 1
        try:
            policy(tally, chance, words, visudo, data, folder)
        except Stopped:
            continue
    return tally


def policy(
    tally: Tally, chance: random.Random, words: list[str], visudo: str, data: bytes, folder: str
) -> None:
    path = desk.write(folder, "policy", data)
    asked = [chance.choice(NAMES), chance.choice(HOSTS), chance.choice(NAMES), chance.choice(TIMES)]
    run = chance.choice(RUN)
    asked += [run[0], "--", *run[1:]]
    status, out, err = tally.run([*words, "check", path])
    decided = tally.run([*words, "decide", path, *asked])
    if status:
        is_lawful = LAWFUL.fullmatch(data) is not None
        tally.answers[err.decode("ascii", "replace").split(" ")[0]] += 1
        if (status, out) != (2, b"") or not FAULT.fullmatch(err):
            tally.deny(data, (status, out, err), "a policy or a named fault")
        elif err.startswith(b"S1 ") != (len(data) > MOST_TEXT):
            tally.deny(len(data), err, "S1 exactly past the length")
        elif err.startswith(b"S1 "):
            line = data[:MOST_TEXT].count(b"\n") + 1
            tally.compare(len(data), err, b"S1 TooLong line %d\n" % line)
        elif err.startswith(b"S2 ") and is_lawful:
            tally.deny(data, err, "S2 only with a byte that is refused")
        tally.compare((data, asked), decided, (status, out, err))
        return
    tally.answers["read"] += 1
    if err or not LAWFUL.fullmatch(data):
        tally.deny(data, (out, err), "a refusal")
    canonical = desk.write(folder, "canonical", out)
    tally.compare(
        ("the canonical text of", data), tally.run([*words, "check", canonical]), (0, out, b"")
    )
    again = tally.run([*words, "decide", canonical, *asked])
    tally.compare((data, asked), decided, again)
    is_answer = decided in (
        (0, b"allow\n", b""),
        (0, b"allow nopasswd\n", b""),
        (1, b"deny\n", b""),
    )
    if not is_answer:
        tally.deny((data, asked), decided, "a decision")
    for each in (path, canonical):
        said = tally.run([visudo, "-cf", each])
        if said[0] != 0:
            tally.deny((each, data, out), "read", ("what visudo says", said))
