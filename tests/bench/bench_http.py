#!/usr/bin/env python3
"""Times `desk serve` over loopback beside nginx, one connection for each exchange.

A desk over memory is asked for a list of grants (GET), and takes messages that it has not seen
(POST). Beside each, in turn with it, nginx (Debian's nginx-light: one worker, no connection kept)
gives the same client a file as long as the desk's reply; the turns are short, so that other work on
the machine slows both alike, and the middle of all turns counts. Then a desk over a file takes
messages, beside `desk deliver` of as many to another file on the same disk: as the disk is, and
with each sync lasting a millisecond at least, as on a drive that keeps what it says it has written.
Then 100,000 exchanges, before and behind which the memory of the desk's process is read; and a
request of 24,576 bytes, read at once and one byte at a time, each counted in the program's
instructions (valgrind's callgrind), so that the machine's load does not matter; newlines before a
request, one at a time; and, by gdb, how often one request's head is looked at and parsed. And what
the count costs beside a base of 1 KiB and one of 1 MiB, and a host's file alone and behind the
count. A part whose tools are missing is left out, and said to be. All of it goes to 127.0.0.1, and
each loop is bounded.
"""

import os
import re
import shutil
import socket
import statistics
import subprocess
import sys
import tempfile
import time
from collections.abc import Callable, Sequence
from typing import NamedTuple, Self

from tests.common import desk
from tests.common.ports import free_port
from tests.common.stalls import times

NGINX = desk.found("nginx")
GRANTS = b"/v1/grants/20260105093000Z"
ROUNDS = 7
EACH = 1_500
# the turns of the desk and of nginx beside it, and the exchanges in each
TURNS, A_TURN = 75, 140
CLOSES = b"Connection: close\r\n"
MANY = 100_000
# what is asked beside a small base and a large one, and how often: for the count, for a host's
# file, and for both at once
COUNT, FILE, BOTH = b"/v1/count", b"/v1/hosts/db1/sudoers/%b", b"/v1/hosts/db1/at/%b"
SINCE = b"20260105093000Z"
ASKED = {COUNT: 1_500, FILE % SINCE: 60, BOTH % SINCE: 60}
SMALL, LARGE = 1 << 10, 1 << 20

# Gives each read of a socket one byte. Its own instructions are not counted, and it asks once what
# a descriptor is.
ONE_BYTE = """#define _GNU_SOURCE
#include <dlfcn.h>
#include <sys/socket.h>
#include <sys/stat.h>
#include <sys/uio.h>
#include <unistd.h>

static int is_socket(int fd) {
    static int known[1024];
    struct stat found;
    if (!known[fd % 1024])
        known[fd % 1024] = fstat(fd, &found) == 0 && S_ISSOCK(found.st_mode) ? 1 : 2;
    return known[fd % 1024] == 1;
}

ssize_t read(int fd, void *to, size_t most) {
    static ssize_t (*next)(int, void *, size_t);
    if (!next) next = dlsym(RTLD_NEXT, "read");
    return next(fd, to, most > 1 && is_socket(fd) ? 1 : most);
}

ssize_t recv(int fd, void *to, size_t most, int flags) {
    static ssize_t (*next)(int, void *, size_t, int);
    if (!next) next = dlsym(RTLD_NEXT, "recv");
    return next(fd, to, most > 1 ? 1 : most, flags);
}
"""

# Lets each sync of a file last a millisecond at least.
SLOW_SYNC = """#define _GNU_SOURCE
#include <dlfcn.h>
#include <time.h>
#include <unistd.h>

static int slowly(const char *name, int fd) {
    struct timespec until;
    int (*sync)(int) = dlsym(RTLD_NEXT, name);
    clock_gettime(CLOCK_MONOTONIC, &until);
    until.tv_nsec += 1000000;
    if (until.tv_nsec >= 1000000000) { until.tv_sec += 1; until.tv_nsec -= 1000000000; }
    int answer = sync(fd);
    while (clock_nanosleep(CLOCK_MONOTONIC, TIMER_ABSTIME, &until, NULL)) {}
    return answer;
}

int fsync(int fd) { return slowly("fsync", fd); }
int fdatasync(int fd) { return slowly("fdatasync", fd); }
"""


def request(number: int) -> bytes:
    return desk.request(number).encode()


def get(target: bytes) -> bytes:
    return desk.asked(b"GET", target, CLOSES)


def post(body: bytes) -> bytes:
    return desk.posted(b"web", body, more=CLOSES)


def files_of(folder: str) -> tuple[str, str]:
    """The files of a roster and of a base."""
    ceiling = desk.ceiling("db-care", ask="ask", approve="approve", commands=["/usr/bin/id"])
    people = {"ann": ["ask"], "bob": ["approve"]}
    roster = desk.roster(people, [ceiling], ["approve", "ask"])
    base = "root ALL = (ALL) ALL\n"
    return desk.write(folder, "roster.toml", roster), desk.write(folder, "base.sudo", base)


def serving(
    folder: str,
    *more: str,
    store: str = "-",
    before: Sequence[str] = (),
    preloaded: str | None = None,
) -> desk.Server:
    """A desk over these files; with `preloaded`, a library is put before its own."""
    roster, base = files_of(folder)
    environment = dict(os.environ, LD_PRELOAD=preloaded) if preloaded else None
    return desk.Server(
        store, *more, roster=roster, base=base, before=before, environment=environment
    )


def body_of(reply: bytes) -> bytes:
    head, _, body = reply.partition(b"\r\n\r\n")
    assert head.startswith(b"HTTP/1.1 200 "), head
    return body


def rate(port: int, requests: Sequence[bytes]) -> float:
    """Exchanges a second."""
    begun = time.perf_counter()
    for given in requests:
        assert desk.exchange(port, given)[9:12] == b"200"
    return len(requests) / (time.perf_counter() - begun)


class Asked(NamedTuple):
    """A server's port and process, and what it is asked in a turn."""

    port: int
    process: int
    given: Callable[[int], Sequence[bytes]]

    def turn(self, number: int) -> tuple[float, float]:
        """Exchanges a second, and the seconds of a processor that the server has for each."""
        given = self.given(number)
        begun, _ = times(self.process)
        found = rate(self.port, given)
        return found, (times(self.process)[0] - begun) / len(given)


def always(given: bytes) -> Callable[[int], Sequence[bytes]]:
    """The same in each turn."""
    return lambda _: [given] * A_TURN


class Files:
    """nginx with one worker, which serves a folder's files and keeps no connection."""

    def __init__(self, folder: str) -> None:
        self.folder = folder

    def __enter__(self) -> Self:
        self.port = free_port()
        place = os.path.join(self.folder, "nginx.conf")
        os.chmod(self.folder, 0o755)
        with open(place, "w") as file:
            file.write(
                f"worker_processes 1;\ndaemon off;\npid {self.folder}/nginx.pid;\nerror_log"
                f" {self.folder}/error.log;\nevents {{ worker_connections 64; }}\nhttp {{"
                f" access_log off; keepalive_timeout 0; client_body_temp_path {self.folder}/b;"
                f" proxy_temp_path {self.folder}/p; fastcgi_temp_path {self.folder}/f;"
                f" uwsgi_temp_path {self.folder}/u; scgi_temp_path {self.folder}/s; server {{"
                f" listen 127.0.0.1:{self.port}; root {self.folder}; }} }}\n"
            )
        self.server = subprocess.Popen(
            [desk.tool("nginx"), "-c", place], stdout=subprocess.DEVNULL, stderr=subprocess.DEVNULL
        )
        for _ in range(100):
            with socket.socket() as probe:
                if probe.connect_ex(("127.0.0.1", self.port)) == 0:
                    return self
            time.sleep(0.05)
        raise RuntimeError("nginx does not listen")

    def __exit__(self, *_: object) -> None:
        self.server.terminate()
        self.server.wait(20)

    def worker(self) -> int:
        """The process that serves."""
        pid = self.server.pid
        return int(desk.read(f"/proc/{pid}/task/{pid}/children").split()[0])


def judged(what: str, figure: float, least: float) -> int:
    holds = figure >= least
    print(f"{what}: {figure:.2f}, at least {least:g}: {'holds' if holds else 'FAILS'}")
    return int(not holds)


def in_turn(name: str, ours: Asked, theirs: Asked) -> float:
    """Asks the desk and nginx in turn, prints the middle of what is found of each, and returns the
    middle of how many times as fast as nginx the desk is."""
    turns = [(ours.turn(number), theirs.turn(number)) for number in range(TURNS)]
    served, used = (statistics.median(it) for it in zip(*(mine for mine, _ in turns)))
    beside, took = (statistics.median(it) for it in zip(*(other for _, other in turns)))
    print(
        f"{name}: {served:,.0f} exchanges a second, and {used * 1e6:.1f} us of a processor for"
        f" each; nginx {beside:,.0f} of a file as long, and {took * 1e6:.1f} us"
    )
    return statistics.median(mine[0] / other[0] for mine, other in turns)


def beside_nginx(folder: str) -> int:
    """The rates of the desk beside nginx; how many rows do not hold."""
    if not NGINX:
        print("rates beside nginx: left out, for nginx is not there (Debian's nginx-light)")
        return 0
    wrong = 0
    with serving(folder) as asked, serving(folder) as told, Files(folder) as files:
        for number in range(20):
            desk.exchange(asked.port, post(request(number)))
            desk.exchange(asked.port, post(desk.approval(number).encode()))
        for name, body in (
            ("grants", body_of(desk.exchange(asked.port, get(GRANTS)))),
            ("ack", b"ack\n"),
        ):
            desk.write(folder, name, body)
        rows = (
            ("a GET of 20 grants", asked, always(get(GRANTS)), b"grants"),
            (
                "a POST of a new message",
                told,
                lambda turn: [post(request(turn * A_TURN + n)) for n in range(A_TURN)],
                b"ack",
            ),
        )
        for name, server, given, file in rows:
            ours = Asked(server.port, server.process.pid, given)
            theirs = Asked(files.port, files.worker(), always(get(b"/" + file)))
            wrong += judged(f"{name}, beside nginx", in_turn(name, ours, theirs), 1.1)
        print(f"serve, {TURNS * A_TURN:,} messages: peak {told.memory()[1]:,} KiB")
    return wrong


def compiled(folder: str, name: str, source: str) -> str | None:
    """A library of this C source that is put before the program's own; None where there is no
    compiler."""
    if not shutil.which("cc"):
        return None
    path, library = os.path.join(folder, f"{name}.c"), os.path.join(folder, f"{name}.so")
    with open(path, "w") as file:
        file.write(source)
    subprocess.run(["cc", "-shared", "-fPIC", "-O1", "-o", library, path, "-ldl"], check=True)
    return library


def beside(folder: str, name: str, library: str | None) -> tuple[float, float]:
    """The seconds that a message costs that is posted to a desk over a file, and one that is
    delivered to such a file."""
    bodies = [request(number) for number in range(EACH)]
    given = os.path.join(folder, "given")
    with open(given, "wb") as file:
        file.writelines(body + b"\n" for body in bodies)
    environment = dict(os.environ, LD_PRELOAD=library) if library else None
    posted, delivered = [], []
    for turn in range(3 if library else ROUNDS):
        with serving(
            folder, store=os.path.join(folder, f"{name}posted{turn}.db"), preloaded=library
        ) as server:
            posted.append(1 / rate(server.port, [post(body) for body in bodies]))
        words = [
            *desk.PROGRAM,
            "deliver",
            *files_of(folder),
            os.path.join(folder, f"{name}delivered{turn}.db"),
            "web",
        ]
        with open(given, "rb") as file:
            begun = time.perf_counter()
            subprocess.run(
                words, stdin=file, stdout=subprocess.DEVNULL, check=True, env=environment
            )
            delivered.append((time.perf_counter() - begun) / EACH)
    return min(posted), min(delivered)


def beside_deliver(folder: str) -> int:
    """What a message costs that is posted to a desk over a file, beside one that is delivered to
    such a file; 1 where it is more than 1.3 times as much.

    On a disk whose sync takes some hundredths of a millisecond the exchange is what costs, of any
    server, and not the commit: what is compared is what they cost where a sync takes a millisecond.
    """
    posted, delivered = beside(folder, "own", None)
    print(
        f"a message to a file: {posted * 1e6:.0f} us posted, {delivered * 1e6:.0f} us delivered, as"
        f" the disk is: {posted / delivered:.2f}"
    )
    library = compiled(folder, "slow_sync", SLOW_SYNC)
    if not library:
        print(
            "a POST to a file where a sync takes a millisecond: left out, for a C compiler is not"
            " there"
        )
        return 0
    posted, delivered = beside(folder, "slow", library)
    print(
        f"a message to a file: {posted * 1e6:.0f} us posted, {delivered * 1e6:.0f} us delivered,"
        " where a sync takes a millisecond at least"
    )
    holds = posted <= 1.3 * delivered
    print(
        f"a POST to a file, beside `deliver`: {posted / delivered:.2f}, at most 1.3:"
        f" {'holds' if holds else 'FAILS'}"
    )
    return int(not holds)


def many(folder: str) -> int:
    """What memory the desk has after a thousand exchanges, and after a hundred thousand; 1 where it
    has more."""
    with serving(folder) as server:
        given = [
            post(request(1)),
            post(desk.approval(1).encode()),
            get(GRANTS),
            get(b"/v1/hosts/db1/sudoers"),
            get(b"/none"),
            get(b"/v1/parked"),
        ]
        for number in range(MANY):
            desk.exchange(server.port, given[number % len(given)])
            if number == 1_000:
                before = server.memory()[0]
        after = server.memory()[0]
    print(
        f"serve, {MANY:,} exchanges: {before:,} KiB after a thousand, {after:,} KiB at the end:"
        f" {'holds' if after <= before else 'FAILS'}"
    )
    return int(after > before)


def base_of(size: int) -> str:
    """A base of nearly so many bytes, as it is printed."""
    first, end = "root ALL = (ALL) ALL\n", " " + " ".join(["a" * 63] * 15)
    longest = f"u0000 ALL = (root) /bin/ls{end}\n"
    lines = range((size - len(first)) // len(longest))
    return first + "".join(f"u{n:04} ALL = (root) /bin/ls{end}\n" for n in lines)


def costs_beside(folder: str, size: int) -> dict[bytes, float]:
    """The seconds of a processor that the desk has for each question, beside a base of this size.
    (It is asked each once before: the first time it makes what it keeps.)"""
    roster, _ = files_of(folder)
    base, costs = desk.write(folder, "large.sudo", base_of(size)), dict[bytes, float]()
    with desk.Server(roster=roster, base=base) as server:
        for target, often in ASKED.items():
            body_of(desk.exchange(server.port, get(target)))
            begun, _ = times(server.process.pid)
            rate(server.port, [get(target)] * often)
            costs[target] = (times(server.process.pid)[0] - begun) / often
    return costs


def counts(folder: str) -> int:
    """The count costs little more beside a large base than beside a small one, and a host's file
    behind it little more than the file alone; how many of the two do not hold."""
    small, large = (costs_beside(folder, size) for size in (SMALL, LARGE))
    for name, costs in (("1 KiB", small), ("1 MiB", large)):
        told = ", ".join(f"{target.decode()} {it * 1e6:,.0f} us" for target, it in costs.items())
        print(f"beside a base of {name}: {told}")
    wrong = 0
    for what, figure, most in (
        ("the count beside 1 MiB", large[COUNT] / small[COUNT], 2),
        ("the file behind it", large[BOTH % SINCE] / large[FILE % SINCE], 1.5),
    ):
        holds = figure <= most
        print(f"{what}: {figure:.2f}, at most {most:g}: {'holds' if holds else 'FAILS'}")
        wrong += not holds
    return wrong


def largest() -> bytes:
    """A POST with a head of 8,192 bytes, in 32 fields, and a message of nearly 16,384."""
    body = request(7).replace(
        b'"/usr/bin/id"',
        b",".join(
            b'"/bin/ls %s %s%03d"' % (b" ".join([b"a" * 63] * 15), b"b" * 39, n) for n in range(16)
        ),
    )
    assert 16_000 < len(body) <= 16_384
    head, _, rest = post(body).partition(b"\r\n\r\n")
    room = 8_192 - len(head) - 4
    fields = [b"\r\nA: " + b"b" * (room // 29 - 5)] * 28
    fields.append(b"\r\nA: " + b"b" * (room - sum(map(len, fields)) - 5))
    given = head + b"".join(fields) + b"\r\n\r\n" + rest
    assert given.index(b"\r\n\r\n") == 8_188
    return given


def own_instructions(path: str, left_out: str) -> int:
    """The instructions of callgrind's file, without those of the libraries whose names end so."""
    total, names, counts, is_called = 0, {}, True, False
    with open(path) as file:
        for line in file:
            if line.startswith(("ob=", "cob=")):
                # (a name stands where its mark comes first, which may be that of a called object)
                mark, _, name = line.partition("=")[2].strip().partition(" ")
                if name:
                    names[mark] = name
                if line.startswith("ob="):
                    counts = not names[mark].endswith(left_out)
            elif line.startswith("calls="):
                is_called = True
            elif line[:1].isdigit() or line[:1] in "+-*":
                # the line behind a call says what the called one cost, which stands with that one
                # too
                total += int(line.split()[1]) if counts and not is_called else 0
                is_called = False
    return total


def counted(
    folder: str, given: bytes | None, preloaded: str | None, status: bytes = b"200"
) -> int:
    """The instructions of a server that answers one peer who sends this with this status, without
    those of the library that is put before its own."""
    out = os.path.join(folder, "counts")
    words = [
        "valgrind",
        "--tool=callgrind",
        f"--callgrind-out-file={out}",
    ]
    with serving(folder, "--requests", "1", before=words, preloaded=preloaded) as server:
        if given:
            assert desk.exchange(server.port, given).startswith(b"HTTP/1.1 %b " % status)
        else:
            socket.create_connection(("127.0.0.1", server.port), timeout=20).close()
        server.wait(600)
    return own_instructions(out, "one_byte.so")


def bytewise(folder: str) -> int:
    """What 24,576 bytes cost that are read one by one, beside the same bytes read at once; 1 where
    it is more than twice as much."""
    if not (shutil.which("valgrind") and shutil.which("cc")):
        print("reads of one byte: left out, for valgrind or a C compiler is not there")
        return 0
    shim = compiled(folder, "one_byte", ONE_BYTE)
    given = largest()
    least = counted(folder, None, None)
    # the ceiling has no such commands: the message is read whole, and denied
    whole, single = (
        counted(folder, given, preloaded, b"403") - least for preloaded in (None, shim)
    )
    print(
        f"a message in {len(given):,} bytes: {whole / 1e6:.2f} million instructions where they are"
        f" read at once, {single / 1e6:.2f} one by one"
    )
    holds = single <= 2 * whole
    print(f"reads of one byte: {single / whole:.2f}, at most 2: {'holds' if holds else 'FAILS'}")
    return int(not holds)


def newlines(folder: str) -> int:
    """What leading newlines cost that come one at a time: twice as many may cost little more than
    twice as much; 1 where they cost more."""
    shim = compiled(folder, "one_byte", ONE_BYTE) if shutil.which("valgrind") else None
    if shim is None:
        print("newlines one by one: left out, for valgrind or a C compiler is not there")
        return 0
    least, *found = (
        counted(folder, b"\n" * count + post(request(7)), shim) for count in (0, 2_000, 4_000)
    )
    few, many = (it - least for it in found)
    print(f"newlines one by one: {few / 1e6:.2f} million instructions for 2,000, {many / 1e6:.2f}")
    holds = many <= 2.2 * few
    print(f"twice as many: {many / few:.2f}, at most 2.2: {'holds' if holds else 'FAILS'}")
    return int(not holds)


def looks(folder: str) -> int:
    """How often a head is looked at and parsed for one POST that comes at once, by gdb: once each.
    The compiler may make one part of the other: what has a symbol is counted, `look_again` always;
    1 where one is called oftener, or none has a symbol."""
    if not (shutil.which("gdb") and shutil.which("nm")):
        print("looks at a head: left out, for gdb or nm is not there")
        return 0
    symbols = subprocess.run(
        ["nm", "-C", desk.PROGRAM[0]], stdout=subprocess.PIPE, text=True, check=True
    ).stdout
    wrong = 0
    names = [
        name
        for name in (
            "relay_http::exchange::look_again",
            "relay_http::head::look",
            "httparse::spans::parse_request",
        )
        if re.search(rf" {name}(::<.*>)?$", symbols, re.MULTILINE)
    ]
    if not names:
        print("looks at a head: the program has no symbol to count them by: FAILS")
        return 1
    for name in names:
        with serving(folder, "--requests", "1") as server:
            words = ["gdb", "--batch", "--quiet", "--pid", str(server.process.pid)]
            for said in (f"break '{name}'", "ignore 1 1000000", "continue", "info breakpoints"):
                words += ["--eval-command", said]
            with subprocess.Popen(
                words, stdout=subprocess.PIPE, stderr=subprocess.STDOUT, text=True
            ) as gdb:
                assert gdb.stdout is not None
                for line in gdb.stdout:
                    if line.startswith("Breakpoint 1 at"):
                        break
                time.sleep(1)
                desk.exchange(server.port, post(request(7)))
                server.wait(60)
                ended = gdb.stdout.read()
        found = re.search(r"already hit (\d+) time", ended)
        hits = int(found[1]) if found else 0
        wrong += hits != 1
        print(f"{name}: {hits} for a POST, 1 is wanted: {'holds' if hits == 1 else 'FAILS'}")
    return wrong


def main() -> int:
    with tempfile.TemporaryDirectory() as folder:
        wrong = beside_nginx(folder) + many(folder) + bytewise(folder)
        wrong += newlines(folder) + looks(folder) + counts(folder)
    # (a temporary folder may lie in memory)
    with tempfile.TemporaryDirectory(dir=desk.BUILD) as folder:
        wrong += beside_deliver(folder)
    return 1 if wrong else 0


if __name__ == "__main__":
    sys.exit(main())
