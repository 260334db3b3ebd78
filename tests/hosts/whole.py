"""A revocation takes everything, whatever is open: for hosts.py, over two desks."""

from __future__ import annotations

import contextlib
import os
import subprocess
import time

from tests.common import desk
from tests.hosts.prompt import RAN, Terminal, prepare
from tests.hosts.root import Host
from tests.hosts.sessions import there

GRACE = 5
# What the signals, and a machine with some other work, may take besides, in seconds; and where that
# is busier, in what `desk-host check` takes, which is a quarter of a second on an idle one.
SLACK, CHECKS = 15, 30
HOUR = 3600
COMMANDS = ["/bin/bash", "/usr/bin/sleep", "/usr/local/sbin/granted"]


def texts(folder: str) -> tuple[str, str]:
    """The paths of a roster and a base: ann may ask for commands on db1, and bob approves."""
    people = {"ann": ["operate-db"], "bob": ["approve-db"]}
    roster = desk.roster(people, [desk.ceiling("db-care")], relays=("chat",))
    base = "dba ALL = (root) /usr/bin/id\n"
    return desk.write(folder, "roster.toml", roster), desk.write(folder, "base.sudo", base)


def post(server: desk.Server, *messages: str) -> list[bytes]:
    """What a desk answers to messages."""
    answers = []
    for message in messages:
        reply = desk.exchange(server.port, desk.posted(b"chat", message.encode()))
        answers.append(reply.partition(b"\r\n\r\n")[2])
    return answers


def granted() -> tuple[str, str, str]:
    """A request of ann's for this hour, its approval, and its revocation now."""
    now = time.time()
    asked = desk.request(
        at=desk.stamp(now - 600),
        cmnds=COMMANDS,
        **{"from": desk.stamp(now - 300), "until": desk.stamp(now + HOUR)},
    )
    revoked = desk.approval(kind="revoke", at=desk.stamp(now))
    return asked, desk.approval(at=desk.stamp(now - 500)), revoked


def opened(stack: contextlib.ExitStack, host: Host) -> list[Terminal]:
    """A prompt that waits, a shell, and a job that is stopped, all of ann's."""
    prompt, shell, job = (stack.enter_context(Terminal(host, "ann")) for _ in range(3))
    for terminal, words in (
        (prompt, "sudo -k; sudo /usr/local/sbin/granted"),
        (shell, "sudo -i"),
        (job, "sudo sleep 7901"),
    ):
        terminal.send(words)
        host.check(f"{words} asks", terminal.asks())
    for terminal in (shell, job):
        terminal.send("ann")
    shell.send("sleep 7902")
    host.check("the shell runs", there(host, "7902"))
    host.check("the job runs", there(host, "7901"))
    job.child.send("\x1a")
    job.child.expect("READY> ")
    return [prompt, shell, job]


def revocation(host: Host) -> None:
    """Revoked at the first desk; the second lags, and the first goes away. One fetch and the grace
    after the revocation nothing is left of the right."""
    if not host.is_fit:
        return
    prepare(host)
    host.drop("/var/lib/desk-host", *os.listdir(host.path("/etc/sudoers.d")))
    asked, approved, revoked = granted()
    with contextlib.ExitStack() as stack:
        program = [os.environ.get("DESK", desk.PROGRAM[0])]
        roster, base = texts(host.folder)
        first, second = (
            stack.enter_context(desk.Server(program=program, roster=roster, base=base))
            for _ in range(2)
        )
        for server in (first, second):
            answers = post(server, asked, approved)
            host.check("the desks take it", answers == [b"ack\n"] * 2, str(answers))
        # (PROMPT: what refuses the prompt is to be the revocation, also where all is slow)
        desks = [f"http://{it.address}" for it in (first, second)]
        host.conf(*desks, GRACE=str(GRACE), PROMPT="900")
        status, said = host.fetch()
        # (a sudo that starts in the moment of the change is taken for one before it)
        time.sleep(0.2)
        host.check("ann's right comes", status == 0 and host.may("ann", "/bin/bash"), said)
        terminals = opened(stack, host)
        before = time.monotonic()
        host.run("desk-host", "check")
        began = time.monotonic()
        slack = max(SLACK, CHECKS * (began - before))
        answers = post(first, revoked)
        host.check("it is revoked at the first", answers == [b"ack\n"], str(answers))
        status, said = host.fetch()
        fetched = time.monotonic()
        host.check("the fetch", status == 0 and not host.may("ann", "/bin/bash"), said)
        # (as desk-fetch@.service starts it, with each fetch)
        with host.running("desk-host", "end-sessions") as ending:
            first.end()
            status, said = host.fetch()
            is_told = "it holds 2 messages, and this host's file is made of 3" in said
            host.check("the second brings nothing back", status == 1 and is_told, said)
            prompt_is_refused(host, terminals[0])
            sessions_are_ended(host, ending, began, fetched, slack)
        nothing_comes_back(host, *terminals[1:])


def prompt_is_refused(host: Host, prompt: Terminal) -> None:
    prompt.send("ann")
    said = prompt.said()
    host.check("the prompt starts nothing", RAN not in said and "have changed since" in said, said)


def sessions_are_ended(
    host: Host, ending: subprocess.Popen[str], began: float, fetched: float, slack: float
) -> None:
    """One fetch and the grace after the revocation."""
    ended, _ = ending.communicate()
    over = time.monotonic()
    took = f"{over - began:.1f} s, of which the fetch took {fetched - began:.1f}"
    is_right = GRACE <= over - fetched < GRACE + slack
    host.check(f"within the grace, and {slack:.0f} s", is_right, took)
    print(f"{host.name}: nothing of it was left after a revocation and {took}")
    is_right = ending.returncode == 0 and ended.count("was ended") == 2
    host.check("end-sessions", is_right, f"{ending.returncode}: {ended}")
    for what, mark in (("the shell", "7902"), ("the job", "7901")):
        host.check(f"{what} is gone", there(host, mark, False, 0), ended)


def nothing_comes_back(host: Host, shell: Terminal, job: Terminal) -> None:
    """The job is continued, and the shell's terminal used."""
    job.send("fg")
    job.said(5)
    host.check("the job does not come back", there(host, "7901", False, 2))
    shell.said(5)
    shell.send("id -un")
    said = shell.said(10)
    host.check("the shell's terminal is ann's again", "ann" in said.split(), said)
    shell.send("sudo -n /usr/local/sbin/granted")
    said = shell.said()
    host.check("and she may not any longer", RAN not in said, said)


PARTS = (revocation,)
