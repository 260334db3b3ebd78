#!/usr/bin/env python3
"""Runs the program with each request for memory failing in turn.

Every run has to give the plain answer, or to end with status 2, nothing on the output and a refusal
for want of memory. `deliver` may also answer some lines with that refusal, and the others as they
are. A file in the place of STORE holds afterwards what it held and what was acknowledged, and
nothing that was not sent; run again, after each tenth, the program gives the plain answer over it.
`serve` may answer a peer with that refusal and the status 503, or let it go and name `H3`; asked
again it gives the plain reply. `python3 -m tests.cases.faults WORDS..` runs another program than
build/desk.
"""

import contextlib
import os
import re
import shutil
import socket
import subprocess
import sys
import tempfile
from collections.abc import Sequence

from tests.common import desk, store_files

REFUSAL = re.compile(r"(NoMemory|B2 NoMemory|O8 NoMemory|S11 NoMemory line \d+|K5 NoMemory)\n\Z")

# what `serve` says on its standard error where nothing is wanting, and where it could not count
STATED = re.compile(
    r"serving (0 messages|messages that were not counted), roster [0-9a-f]{64}|ended: all"
    r" connections that were asked for are served|" + desk.EVERY_ACCOUNT
)

# a run's status, its output and its standard error
Answer = tuple[int, bytes, bytes]
# a server's status, its replies, its output and standard error, and how many peers were told that
# memory was wanting
Served = tuple[int, list[bytes], bytes, str, int]
# the runs with a request refused, those that were refused by name, and those that were wrong
Counts = tuple[int, int, int]

POLICY = """# two visits
ann db1 = NOTBEFORE=2026010509Z NOTAFTER=202601051100Z /bin/ls
ALL ALL = (op) /usr/bin/id
"""

ROSTER = """
relays = ["chat"]
hosts = ["db1"]
duties = ["approve-db", "audit", "operate-db"]
conflicts = [["approve-db", "audit"]]

[people]
bob = ["approve-db"]
eve = ["operate-db"]

[ceilings.db-root]
ask = "operate-db"
approve = "approve-db"
needs = 1
hosts = ["db1"]
runas = ["root"]
commands = ["/bin/ls", "/usr/bin/"]
longest = 7200
"""

MESSAGES = "".join(
    f"{line}\n"
    for line in (
        desk.approval(of="eve"),
        desk.request(by="eve", ceiling="db-root", cmnds=["/bin/ls", "/usr/bin/id"]),
        "{}",
    )
).encode()


def heavy() -> dict[str, list[str]]:
    """Policies whose aliases are 64 deep with a sign at each depth, and of the greatest weight as
    one rule and as 8,000."""
    deep = [
        "User_Alias X1 = ann",
        *(f"User_Alias X{n} = !X{n - 1}" for n in range(2, 65)),
        "!X64 db1 = ALL",
    ]
    doubled = [
        "User_Alias X1 = a, a",
        *(f"User_Alias X{n} = X{n - 1}, X{n - 1}" for n in range(2, 17)),
    ]
    one = [*doubled, f"{', '.join(f'X{n}' for n in range(16, 1, -1))}, ann db1 = (root) ALL"]
    many = [
        *doubled[:11],
        "User_Alias T = X3, X2, ann",
        *(f"T db{n} = (root) /bin/c{n}" for n in range(7_999)),
        "X11, X10, X3, X2, bob db1 = (root) ALL",
    ]
    return {"deep": deep, "one": one, "many": many}


def tried(requests: int) -> Sequence[int]:
    """Which requests are refused, one in each run: each, or of more than 2,000 the first and the
    last 150, and some 300 of those between."""
    if requests <= 2_000:
        return range(1, requests + 1)
    return [
        *range(1, 151),
        *range(151, requests - 149, (requests - 300) // 300),
        *range(requests - 149, requests + 1),
    ]


def commands(folder: str) -> list[tuple[list[str], bytes]]:
    """The command lines to run, each with its standard input."""
    base = desk.write(folder, "base.sudo", POLICY)
    roster = desk.write(folder, "roster.toml", ROSTER)
    weighty = []
    for name, lines in heavy().items():
        path = desk.write(folder, f"{name}.sudo", "\n".join(lines) + "\n")
        weighty.append((["decide", path, "ann", "db1", "root", "20260105093000Z", "/bin/c1"], b""))
    weighty.append((["beyond", os.path.join(folder, "deep.sudo"), base], b""))
    return [
        *weighty,
        (["print", roster, base, "-", "db1"], MESSAGES),
        (["print", roster, base, "-", "db1", "--after", "20260105110001Z"], MESSAGES),
        (["review", roster, base, "-", "20260105093000Z"], MESSAGES),
        (["deliver", roster, base, "-", "chat"], MESSAGES),
        (["check", base], b""),
        (["beyond", base, os.path.join(desk.EXAMPLES, "team.sudo")], b""),
        (["beyond", base, base, "--user", "ann", "--host", "db1"], b""),
        (["check", os.path.join(desk.EXAMPLES, "team.sudo")], b""),
        (["check", os.path.join(desk.EXAMPLES, "peers", "layout.sudo")], b""),
        (
            ["decide", base, "ann", "db1", "root", "20260105093000Z", "/bin/ls", "--", "-l", "x"],
            b"",
        ),
        (["decide", base, "bob", "db2", "op", "20260105093000Z", "/bin/cat"], b""),
    ]


def is_refused(words: list[str], got: Answer, plain: Answer) -> bool:
    """Whether the run is refused for want of memory, as a whole or for some lines."""
    status, out, err = got
    if words[0] == "deliver" and out and not err:
        lines = list(zip(out.splitlines(), plain[1].splitlines(), strict=True))
        return status == 2 and all(line in (b"K5 NoMemory", wanted) for line, wanted in lines)
    return status == 2 and not out and REFUSAL.search(err.decode()) is not None


def run(words: list[str], given: bytes, shim: str, failing: int, count: str) -> Answer:
    environment = dict(os.environ, LD_PRELOAD=shim, FAIL_ALLOC=str(failing), COUNT_ALLOC=count)
    done = subprocess.run(
        [*desk.named(), *words], input=given, capture_output=True, env=environment, timeout=60
    )
    return done.returncode, done.stdout, desk.without_names(done.stderr.decode()).encode()


def exchanges() -> list[bytes]:
    """What `serve` is asked, one connection each."""
    lines = MESSAGES.splitlines()
    posts = [desk.posted(b"chat", line) for line in lines]
    targets = (
        b"parked",
        b"grants/20260105093000Z",
        b"hosts/db1/sudoers",
        b"reviews/20260105093000Z",
        b"messages",
        b"hosts/db1/sudoers/20260105110000Z",
    )
    gets = [desk.asked(b"GET", b"/v1/" + target) for target in targets]
    return [posts[0], gets[0], *posts[1:], *gets[1:], gets[0]]


def ask(port: int, given: bytes) -> bytes:
    whole = b""
    # a peer that is let go with its request unread is reset
    with contextlib.suppress(OSError), socket.create_connection(
        ("127.0.0.1", port), timeout=20
    ) as peer:
        peer.sendall(given)
        peer.shutdown(socket.SHUT_WR)
        while piece := peer.recv(65536):
            whole += piece
    return whole


def is_wanting(reply: bytes) -> bool:
    """Whether the peer was let go without a reply, or told of want of memory."""
    return not reply or reply.startswith(b"HTTP/1.1 503 ") and reply.endswith(b"K5 NoMemory\n")


def serve(roster: str, base: str, shim: str, failing: int, count: str) -> Served:
    """The replies of a server, each asked again where it is for want of memory; and how the server
    ends."""
    environment = dict(os.environ, LD_PRELOAD=shim, FAIL_ALLOC=str(failing), COUNT_ALLOC=count)
    asked = exchanges()
    replies, wanting = [], 0
    with desk.Server(
        "-",
        "--requests",
        str(len(asked) + 1),
        program=desk.named(),
        roster=roster,
        base=base,
        stderr=subprocess.PIPE,
        environment=environment,
        must_listen=False,
    ) as server:
        if server.port:
            for given in asked:
                reply = ask(server.port, given)
                if is_wanting(reply) and wanting == 0:
                    wanting += 1
                    reply = ask(server.port, given)
                replies.append(reply)
            if wanting == 0:
                # one connection is left
                wanting += is_wanting(ask(server.port, asked[0]))
        out, err = server.process.communicate(timeout=20)
    return server.process.returncode, replies, out, err.decode(), wanting


def fail_serving(roster: str, base: str, shim: str, count: str) -> Counts:
    """How many runs of `serve` there were with a request refused, how many of them were refused by
    name, and how many were wrong."""
    plain = serve(roster, base, shim, 0, count)
    with open(count) as file:
        requests = int(file.read())
    refusals = wrong = 0
    for failing in range(1, requests + 1):
        status, replies, out, err, wanting = serve(roster, base, shim, failing, count)
        lines = [line for line in err.splitlines() if not STATED.fullmatch(line)]
        is_whole = (status, replies, out) == plain[:3] and lines in (
            [["H3 NoMemory"], ["answered K5 NoMemory"]] if wanting else [[]]
        )
        is_none = status == 2 and not replies and not out and REFUSAL.search(err)
        refusals += bool(wanting or is_none)
        if not (is_whole or is_none):
            wrong += 1
            print(f"desk serve: request {failing} refused: {status} {replies} {out!r} {err}")
    return requests, refusals, wrong


def stored(folder: str) -> list[tuple[list[str], bytes, list[str] | None]]:
    """The command lines over a file, each with its input, and with the messages that the file holds
    before: none where it is not there."""
    base, roster, store = (
        os.path.join(folder, name) for name in ("base.sudo", "roster.toml", "desk.db")
    )
    held = [line.decode() for line in MESSAGES.splitlines()[:2]]
    return [
        (["deliver", roster, base, store, "chat"], MESSAGES, None),
        (["deliver", roster, base, store, "chat"], MESSAGES, held[:1]),
        (["print", roster, base, store, "db1"], b"", held),
        (["review", roster, base, store, "20260105093000Z"], b"", held),
    ]


def put(store: str, held: list[str] | None) -> None:
    """Makes the file of a desk that holds these messages, or none."""
    for end in ("", "-wal"):
        with contextlib.suppress(FileNotFoundError):
            os.unlink(store + end)
    if held is not None:
        shutil.copy(store + f".{len(held)}", store)


def is_kept(store: str, held: list[str] | None, given: bytes, out: bytes) -> bool:
    """Whether the file holds what it held and what was acknowledged, and nothing that was not
    sent."""
    if not os.path.exists(store) or not store_files.asked(store, "SELECT name FROM sqlite_schema"):
        return held is None and b"ack" not in out
    lines = [line.decode() for line in given.splitlines()]
    acked = {
        line for line, answer in zip(lines, out.splitlines(), strict=False) if answer == b"ack"
    }
    kept = set(store_files.read(store)[1])
    return acked | set(held or ()) <= kept <= set(held or ()) | set(lines)


def fail_storing(folder: str, shim: str, count: str) -> Counts:
    """The same as of `serve`, of the commands over a file."""
    runs = refusals = wrong = 0
    for words, given, held in stored(folder):
        store = words[3]
        if held is not None and not os.path.exists(store + f".{len(held)}"):
            store_files.make_desk(store + f".{len(held)}", ROSTER, held)
        put(store, held)
        plain = run(words, given, shim, 0, count)
        with open(count) as file:
            requests = int(file.read())
        for failing in range(1, requests + 1):
            put(store, held)
            got = run(words, given, shim, failing, count)
            runs += 1
            refusals += got != plain
            is_right = (got == plain or is_refused(words, got, plain)) and is_kept(
                store, held, given, got[1]
            )
            # (run again after each tenth, for the time that it takes)
            if not is_right or failing % 10 == 0 and run(words, given, shim, 0, count) != plain:
                wrong += 1
                print(f"desk {' '.join(words)}: request {failing} refused: {got}")
    return runs, refusals, wrong


def main() -> None:
    wrong = runs = refusals = 0
    with tempfile.TemporaryDirectory() as folder:
        shim, count = os.path.join(folder, "fail_alloc.so"), os.path.join(folder, "count")
        source = os.path.join(os.path.dirname(__file__), "fail_alloc.c")
        subprocess.run(["cc", "-shared", "-fPIC", "-O1", "-o", shim, source, "-ldl"], check=True)
        base, roster = os.path.join(folder, "base.sudo"), os.path.join(folder, "roster.toml")
        rows = commands(folder)
        served = fail_serving(roster, base, shim, count)
        kept = fail_storing(folder, shim, count)
        runs, refusals, wrong = (sum(pair) for pair in zip(served, kept, strict=True))
        for words, given in rows:
            plain = run(words, given, shim, 0, count)
            with open(count) as file:
                requests = int(file.read())
            for failing in tried(requests):
                got = run(words, given, shim, failing, count)
                runs += 1
                if got == plain:
                    continue
                refusals += 1
                if not is_refused(words, got, plain):
                    wrong += 1
                    print(f"desk {' '.join(words)}: request {failing} refused: {got}")
    print(f"{runs} runs with a request refused: {refusals} named refusals, {wrong} wrong answers")
    if not refusals:
        print("no request was refused: this program asks something else than malloc for memory")
    sys.exit(1 if wrong or not refusals else 0)


main()
