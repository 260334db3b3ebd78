#!/usr/bin/env python3
"""Times `desk check` and `desk decide` beside `visudo -c`.

The policies: 1,601 and 16,001 rules with dates; 8,000 aliases of the four kinds, each of which uses
another, with 8,000 rules that use them; and one whose weight is just below the limit, by aliases
that double. Then times `desk print` on 800 and 8,000 requests, each with an approval, in shuffled
order and all for one host, over a roster of 501 people. Then rosters of 1 MiB (big_roster.py):
reading one beside Python's `tomllib`, and printing over one from 8,000 messages; what it costs to
admit a request of 16 commands under a ceiling of 256; and what it costs to say what a request comes
to that thousands of people approved, or one person 100,000 times. Then `desk deliver` of 1,000,
10,000 and 100,000 shuffled messages, with the memory of a message, beside what it costs to read
them alone; and a host's file of 8,000 grants beside what it costs to print that policy alone. No
command does one of these two alone: `deliver` over a roster that lists nobody reads each message
whole and keeps none (both also split the input into lines), and `check` of the file costs what
printing costs beyond a desk over it as a base, which is read whole and refused then. Then `desk
review` of 8,000 grants beside a base of 100 rules, and `desk print` of the same. Then `desk beyond`
on two policies with 1,000,000 cases, all of which are tried. Prints of each the instructions that
it executes (counted by valgrind's callgrind, so that the machine's load does not matter; none where
valgrind is missing), the best wall time of a few runs and the peak memory, and then the ratios that
the desk promises. Where GNU time is missing, a peak below that of this script's own process, some
14 MiB, is not seen.
"""

import os
import random
import re
import shutil
import subprocess
import sys
import tempfile
import time
import tomllib
from collections.abc import Sequence

from tests.bench import big_roster
from tests.common import desk

RUNS = 21
# the instructions of a run, its seconds, its peak memory and the bytes of its input
Figure = tuple[int, float, int, int]


def policy(rules: int) -> str:
    """Rules of many users and hosts, each with both dates."""
    lines = []
    for n in range(rules):
        lines.append(
            f"user{n % 1000} host{n % 97} = (op{n % 13}) "
            f"NOTBEFORE=2026{n % 12 + 1:02}0109Z NOTAFTER=2027{n % 12 + 1:02}011100Z "
            f"/usr/bin/tool{n}\n"
        )
    return "".join(lines)


def aliases(count: int) -> str:
    """So many aliases of the four kinds, and as many rules that use them."""
    kinds = (
        ("User_Alias", "U", "user{}"),
        ("Host_Alias", "H", "host{}"),
        ("Runas_Alias", "R", "op{}"),
        ("Cmnd_Alias", "C", "/usr/bin/tool{} -v, /usr/lib/tools{}/"),
    )
    lines = []
    each = count // 4
    for n in range(each):
        for kind, letter, item in kinds:
            # every 4th begins a chain anew, so that the rules' weight stays below its limit
            more = f", !{letter}{n - 1}" if n % 4 else ""
            lines.append(f"{kind} {letter}{n} = {item.format(n, n)}{more}\n")
    for n in range(count):
        k = n % each
        lines.append(f"U{k} H{k} = (R{k}) NOPASSWD: C{k}\n")
    return "".join(lines)


def heavy() -> str:
    """A weight of 131,069: an alias that doubles to 8,192 in 15 rules, and plain rules."""
    lines = ["User_Alias X1 = user0, user1\n"]
    lines += [f"User_Alias X{n} = X{n - 1}, X{n - 1}\n" for n in range(2, 14)]
    lines += [f"X13 host{n} = /usr/bin/tool{n}\n" for n in range(15)]
    lines += [f"user{n} host{n} = /usr/bin/tool{n}\n" for n in range(2_036)]
    return "".join(lines)


def messages(requests: int) -> str:
    """So many requests for one host, each with an approval, shuffled."""
    lines = []
    for n in range(requests):
        asker = f"user{n % 500}"
        lines.append(request(n, [f"/bin/tool{n}"], asker) + "\n")
        lines.append(approval(n, "boss", asker=asker) + "\n")
    random.Random(7).shuffle(lines)
    return "".join(lines)


def roster() -> str:
    """A roster under which the askers of the messages may ask for what they ask for, and the boss
    may approve it."""
    people = {"boss": ["approve-db"]} | {f"user{n}": ["operate-db"] for n in range(500)}
    return desk.roster(people, [desk.ceiling("db-root", commands=["/bin/"])])


def rules_roster(people: int, commands: list[str]) -> str:
    """A roster of so many people who may all approve, and of one ceiling with these commands under
    which `ann` may ask."""
    held = {"ann": ["ask"]} | {f"p{n}": ["approve"] for n in range(people)}
    ceiling = desk.ceiling("db-root", ask="ask", approve="approve", needs=3, commands=commands)
    return desk.roster(held, [ceiling], ["approve", "ask"])


def request(
    no: int, commands: list[str], asker: str = "ann", ceiling: str = "db-root", host: str = "db1"
) -> str:
    return desk.request(no, cmnds=sorted(commands), by=asker, ceiling=ceiling, hosts=[host])


def approval(no: int, by: str, at: str = "20260105083000Z", asker: str = "ann") -> str:
    return desk.approval(no, by=by, at=at, of=asker)


def alike(kind: str, count: int) -> list[str]:
    """So many commands that are long and differ late, in their paths or in the 15th of 16
    arguments; or one directory again and again, and last another far below it."""
    if kind == "paths":
        return [f"/usr/bin/{'a' * 242}{n:03}" for n in range(count)]
    if kind == "arguments":
        return [f"/bin/ls {' '.join(['a' * 60] * 14)} {'b' * 57}{n:03} c" for n in range(count)]
    above = f"/{'a' * 120}/{'b' * 118}/"
    return [above] * (count - 1) + [f"{above}c/c/"]


def wanted(kind: str) -> list[str]:
    """16 commands that lie inside the last ones of a ceiling of 256."""
    if kind == "directories":
        return [f"{alike(kind, 1)[0]}t{n:02}" for n in range(16)]
    return alike(kind, 256)[-16:]


def run(
    words: Sequence[str], given: str | None = None, runs: int = RUNS, most: int = 1
) -> tuple[float, int]:
    """The best wall time in seconds and the peak memory in bytes of a few runs, whose exit status
    is this at most. Where GNU time is there it starts the program for the peak, so that this
    script's own memory does not count."""
    best, peak = float("inf"), 0
    timer = shutil.which("time")
    for _ in range(runs):
        with open(given or os.devnull, "rb") as source:
            start = time.perf_counter()
            child = subprocess.Popen(
                words, stdin=source, stdout=subprocess.DEVNULL, stderr=subprocess.DEVNULL
            )
            _, status, usage = os.wait4(child.pid, 0)
            best = min(best, time.perf_counter() - start)
        # the time of a refused run says nothing
        if os.waitstatus_to_exitcode(status) > most:
            sys.exit(f"bench: refused: {' '.join(words)}")
        peak = max(peak, usage.ru_maxrss * 1024)
    if timer:
        with open(given or os.devnull, "rb") as source:
            done = subprocess.run(
                [timer, "-f", "%M", *words],
                stdin=source,
                stdout=subprocess.DEVNULL,
                stderr=subprocess.PIPE,
                text=True,
            )
        peak = int(done.stderr.split()[-1]) * 1024
    return best, peak


def shown(figure: Figure) -> str:
    """The figures of a run as a line."""
    counted, seconds, memory, size = figure
    millions = f"{counted / 1e6:8.1f} million instructions, " if counted else ""
    return (
        f"{size:9,} bytes: {millions}{seconds * 1000:8.1f} ms, "
        f"{memory / 1024:8,.0f} KiB ({memory / size:5.1f} times the text)"
    )


def judged(what: str, ratio: float, most: float) -> bool:
    """Prints a figure beside the promised one; returns whether it is more."""
    print(f"{what}: {ratio:,.2f}, at most {most:,g}: {'holds' if ratio <= most else 'FAILS'}")
    return ratio > most


def best_of_tomllib(text: str) -> float:
    best = float("inf")
    for _ in range(5):
        start = time.perf_counter()
        tomllib.loads(text)
        best = min(best, time.perf_counter() - start)
    return best


def rosters(folder: str) -> int:
    """The rows on rosters; how many of them do not hold."""
    wrong, none, base = 0, desk.write(folder, "none", ""), desk.write(folder, "empty.sudo", "")
    for what, most in (("commands", 1.0), ("hosts", 1.0), ("duties", 1.0), ("days", 0.5)):
        text = big_roster.roster(what)
        words = [*desk.PROGRAM, "print", desk.write(folder, "large.toml", text), base, "-", "h0"]
        figure = (desk.instructions(words, none), *run(words, none), len(text))
        print(f"roster of many {what:8}, {shown(figure)}")
        wrong += judged(
            f"roster of many {what} against tomllib", figure[1] / best_of_tomllib(text), most
        )
    # 8,000 messages over the largest roster: requests and approvals, one after the other, in any
    # order
    lines = []
    for n in range(4_000):
        ceiling = n % 1_024
        # who holds the duties that the ceiling's asking and approving want
        asker, approver = f"p{ceiling % 256}", f"p{(ceiling + 1) % 256}"
        lines.append(request(n, [f"/bin/t{ceiling}"], asker, f"c{ceiling}", f"h{ceiling}"))
        lines.append(approval(n, approver, asker=asker))
    random.Random(7).shuffle(lines)
    given = desk.write(folder, "many.messages", "\n".join(lines) + "\n")
    words = [
        *desk.PROGRAM,
        "print",
        desk.write(folder, "large.toml", big_roster.roster("hosts")),
        base,
        "-",
        "h0",
    ]
    print(
        "print over it, 8,000 messages,"
        f" {shown((desk.instructions(words, given), *run(words, given), os.path.getsize(given)))}"
    )
    wrong += admission(folder, base)
    return wrong + statuses(folder, base)


def admission(folder: str, base: str) -> int:
    """What one request costs with a ceiling of 256 commands, beyond what it costs with a ceiling of
    `ALL` alone."""
    wrong = 0
    for kind in ("paths", "arguments", "directories"):
        costs = []
        for commands in (alike(kind, 256), ["ALL"]):
            words = [
                *desk.PROGRAM,
                "deliver",
                desk.write(folder, "ceiling.toml", rules_roster(1, commands)),
                base,
                "-",
                "web",
            ]
            counts = []
            for requests in (1, 101):
                lines = "".join(request(n, wanted(kind)) + "\n" for n in range(requests))
                counts.append(desk.instructions(words, desk.write(folder, "asked", lines)))
            if 0 in counts:
                return 0
            costs.append((counts[1] - counts[0]) / 100)
        wrong += judged(
            f"admit: 16 commands against 256, {kind} alike, instructions",
            costs[0] - costs[1],
            500_000,
        )
    return wrong


def statuses(folder: str, base: str) -> int:
    """What a request costs that so many people approve, of whom three are needed, by twice as many
    people."""
    counts = []
    for people in (2_048, 4_095):
        lines = [request(7, ["/bin/ls"])]
        lines += [
            approval(7, f"p{n}", f"2026010507{n // 60 % 60:02}{n % 60:02}Z") for n in range(people)
        ]
        words = [
            *desk.PROGRAM,
            "print",
            desk.write(folder, "people.toml", rules_roster(people, ["/bin/ls"])),
            base,
            "-",
            "db1",
        ]
        given = desk.write(folder, "approved", "\n".join(lines) + "\n")
        figure = (desk.instructions(words, given), *run(words, given), os.path.getsize(given))
        counts.append(figure[0] or figure[1])
        print(f"print, {people:,} people who approve one request, {shown(figure)}")
    wrong = judged("statuses: twice the people", counts[1] / counts[0], 2.2)
    return wrong + approved_often(folder, base, 1) + approved_often(folder, base, 4_095)


def approved_often(folder: str, base: str, people: int) -> bool:
    """What one request costs that 100,000 approvals of so many people stand for, against ten
    requests of 10,000 each."""
    words = [
        *desk.PROGRAM,
        "print",
        desk.write(folder, "people.toml", rules_roster(people, ["/bin/ls"])),
        base,
        "-",
        "db1",
    ]
    costs = []
    for requests in (1, 10):
        lines = [request(no, ["/bin/ls"]) for no in range(requests)]
        for n in range(100_000):
            # a moment for each approval, from midnight of the second on
            day, second = divmod(n, 86_400)
            at = f"202601{day + 2:02}{second // 3600:02}{second // 60 % 60:02}{second % 60:02}Z"
            lines.append(approval(n % requests, f"p{n // requests % people}", at))
        random.Random(7).shuffle(lines)
        given = desk.write(folder, "approved", "\n".join(lines) + "\n")
        figure = (desk.instructions(words, given), *run(words, given, 3, 2), os.path.getsize(given))
        costs.append(figure[0] or figure[1])
        print(
            f"print, 100,000 approvals of {people:,} people for {requests} requests,"
            f" {shown(figure)}"
        )
    return judged(
        f"statuses: 100,000 approvals of {people:,} people for one request against ten",
        costs[0] / costs[1],
        3.0,
    )


def deliveries(folder: str, base: str) -> int:
    """The rows on deliveries; how many of them do not hold."""
    wrong, counts = 0, []
    people = desk.write(folder, "people.toml", roster())
    nobody = desk.write(
        folder,
        "nobody.toml",
        re.sub(r"\[people\].*?(?=\[ceilings)", "[people]\n", roster(), flags=re.DOTALL),
    )
    for requests in (500, 5_000, 50_000):
        given = desk.write(folder, "delivered", messages(requests))
        figures = []
        # a message by a person who is not listed is read whole, and denied then
        for place in (people, nobody):
            words = [*desk.PROGRAM, "deliver", place, base, "-", "web"]
            figures.append(
                (desk.instructions(words, given), *run(words, given, 5, 2), os.path.getsize(given))
            )
        count = 2 * requests
        for what, figure in zip(("deliver", "read   "), figures):
            print(
                f"{what} {count:7,} messages, {shown(figure)}, {figure[2] / count:,.0f} bytes a"
                " message"
            )
        counts.append(figures[0][0] or figures[0][1])
        wrong += judged(
            f"deliver: {count:,} messages against reading them alone",
            counts[-1] / (figures[1][0] or figures[1][1]),
            2.0,
        )
    for small, large in zip(counts, counts[1:]):
        wrong += judged("deliver: ten times the messages", large / small, 15.0)
    return wrong


def grants(folder: str, base: str) -> int:
    """What a host's file of 8,000 grants costs beside printing that policy alone; 1 where that does
    not hold."""
    people = desk.write(folder, "people.toml", roster())
    given = desk.write(folder, "granted", messages(8_000))
    with open(given, "rb") as source:
        done = subprocess.run(
            [*desk.PROGRAM, "print", people, base, "-", "db1"],
            stdin=source,
            stdout=subprocess.PIPE,
            check=True,
            text=True,
        )
    file = desk.write(folder, "host.sudo", done.stdout)
    empty = desk.write(folder, "empty.sudo", "")
    # reading alone: without aliases `decide` does little else, and it frees no more than `check`
    asked = ["user1", "host1", "op1", "20260601120000Z", "/usr/bin/tool1"]
    costs = [
        desk.instructions([*desk.PROGRAM, "print", people, base, "-", "db1"], given),
        desk.instructions([*desk.PROGRAM, "deliver", people, base, "-", "web"], given),
        *(desk.instructions([*desk.PROGRAM, "check", policy]) for policy in (file, empty)),
        *(desk.instructions([*desk.PROGRAM, "decide", policy, *asked]) for policy in (file, empty)),
    ]
    if 0 in costs:
        return 0
    made, printed = costs[0] - costs[1], (costs[2] - costs[3]) - (costs[4] - costs[5])
    print(
        f"host's file of 8,000 grants: {made / 1e6:.1f} million instructions, and to print it alone"
        f" {printed / 1e6:.1f}"
    )
    return judged("host's file: 8,000 grants against printing it alone", made / printed, 2.0)


def comparing(folder: str) -> int:
    """What it costs to try all of 1,000,000 cases of two policies of two rules; how many rows do
    not hold."""
    names = {
        letter: ", ".join(f"{letter}{n}" for n in range(count))
        for letter, count in (("u", 24), ("h", 19), ("r", 19))
    }
    directories = ", ".join(f"/d{n}/" for n in range(19))

    def text(start: int, end: int) -> str:
        # with one other name each 25 users, 20 hosts and 20 targets, 20 paths, and 5 moments at
        # which a window begins or has ended
        window = f"NOTBEFORE=20260105{start:02}Z NOTAFTER=20260105{end:02}Z"
        return (
            f"Cmnd_Alias C = {directories}\n{names['u']} {names['h']} = ({names['r']})"
            f" {window} C\nu0 h0 = (r0) {window} C\n"
        )

    new, old = text(10, 11), text(9, 12)
    words = [
        *desk.PROGRAM,
        "beyond",
        desk.write(folder, "new.sudo", new),
        desk.write(folder, "old.sudo", old),
    ]
    figure = (desk.instructions(words), *run(words), len(new) + len(old))
    print(f"beyond, 1,000,000 cases, {shown(figure)}")
    wrong = (
        judged("beyond: 1,000,000 cases, million instructions", figure[0] / 1e6, 550)
        if figure[0]
        else 0
    )
    return wrong + growing(folder)


def growing(folder: str) -> int:
    """What a case costs on policies of ten times as many rules, which deciding looks at one after
    the other; 1 where that grows faster than they do."""
    costs = []
    for rules in (40, 400):

        def text(start: int, end: int) -> str:
            return "".join(
                f"u h = (r) NOTBEFORE=20260105{start:02}Z NOTAFTER=20260105{end:02}Z /c{n}\n"
                for n in range(rules)
            )

        words = [
            *desk.PROGRAM,
            "beyond",
            desk.write(folder, "new.sudo", text(10, 11)),
            desk.write(folder, "old.sudo", text(9, 12)),
        ]
        # two users, hosts and targets each, a path for each rule and one more, and five moments;
        # and the same with one user, host and target
        counts = [
            desk.instructions(words),
            desk.instructions([*words, "--user", "x", "--host", "x", "--runas", "x"]),
        ]
        if 0 in counts:
            return 0
        costs.append((counts[0] - counts[1]) / ((8 - 1) * (rules + 1) * 5))
    return judged("beyond: a case on ten times the rules, instructions", costs[1] / costs[0], 7)


def reports(folder: str) -> int:
    """What the report of 8,000 grants costs, against a base of 100 rules, beside printing their
    host's file; 1 where that does not hold."""
    people, base = desk.write(folder, "people.toml", roster()), desk.write(
        folder, "hundred.sudo", policy(100)
    )
    given = desk.write(folder, "granted", messages(8_000))
    figures = []
    for words in (
        ["review", people, base, "-", "20260105093000Z"],
        ["print", people, base, "-", "db1"],
    ):
        figures.append(
            (
                desk.instructions([*desk.PROGRAM, *words], given),
                *run([*desk.PROGRAM, *words], given, 5),
                os.path.getsize(given),
            )
        )
        print(f"{words[0]:7} 8,000 grants beside 100 rules, {shown(figures[-1])}")
    counted, other = figures[0][0] or figures[0][1], figures[1][0] or figures[1][1]
    return judged("review: 8,000 grants against printing their host's file", counted / other, 3.0)


def main() -> None:
    visudo = desk.tool("visudo")
    desk.check_built()
    figures: dict[tuple[str, str | int], Figure] = {}
    with tempfile.TemporaryDirectory() as folder:
        policies = {
            "1601 rules": policy(1_601),
            "16001 rules": policy(16_001),
            "8000 aliases": aliases(8_000),
            "most weight": heavy(),
        }
        for what, text in policies.items():
            path = desk.write(folder, "policy.sudo", text)
            size = os.path.getsize(path)
            commands = {
                "check": [*desk.PROGRAM, "check", path],
                "decide": [
                    *desk.PROGRAM,
                    "decide",
                    path,
                    "user1",
                    "host1",
                    "op1",
                    "20260601120000Z",
                    "/usr/bin/tool1",
                ],
                "visudo": [visudo, "-c", "-f", path],
            }
            for name, words in commands.items():
                figures[name, what] = (desk.instructions(words), *run(words), size)
                print(f"{name:7} {what:12}, {shown(figures[name, what])}")
        base = desk.write(folder, "base.sudo", "bob db1 = ALL\n")
        people = desk.write(folder, "roster.toml", roster())
        for requests in (800, 8_000):
            path = desk.write(folder, f"{requests}.messages", messages(requests))
            size = os.path.getsize(path)
            words = [*desk.PROGRAM, "print", people, base, "-", "db1"]
            figures["print", requests] = (desk.instructions(words, path), *run(words, path), size)
            print(f"print   {requests:6} requests, {shown(figures['print', requests])}")
        wrong = (
            rosters(folder)
            + deliveries(folder, base)
            + grants(folder, base)
            + reports(folder)
            + comparing(folder)
        )
    ratio = figures["print", 8_000][1] / figures["print", 800][1]
    wrong += ratio > 15
    print(
        f"print: ten times the messages: {ratio:.2f}, at most 15:"
        f" {'holds' if ratio <= 15 else 'FAILS'}"
    )
    for name in ("check", "decide"):
        large, small = figures[name, "16001 rules"], figures[name, "1601 rules"]
        checks = [
            (
                f"{name}: {what} against visudo",
                figures[name, what][1] / figures["visudo", what][1],
                1.0,
            )
            for what in ("16001 rules", "8000 aliases", "most weight")
        ]
        checks += [
            (f"{name}: ten times the rules", large[1] / small[1], 12.0),
            # `decide` gives the policy back as it is compiled, and `check` as it is printed
            (f"{name}: memory against the text", large[2] / large[3], 8.0),
        ]
        for what, ratio, most in checks:
            holds = ratio <= most
            wrong += not holds
            print(f"{what}: {ratio:.2f}, at most {most:g}: {'holds' if holds else 'FAILS'}")
        for what in ("16001 rules", "8000 aliases", "most weight"):
            counted, other = figures[name, what][0], figures["visudo", what][0]
            if counted and other:
                wrong += judged(
                    f"{name}: {what}, instructions against visudo's",
                    counted / other,
                    0.35 if what == "16001 rules" else 0.29,
                )
    sys.exit(1 if wrong else 0)


main()
