"""What is kept of each start, and what becomes of records that are gone: for hosts.py."""

from __future__ import annotations

import contextlib
import json
import os
import re
import subprocess
import time
from typing import Any

from tests.hosts.plugged import nothing_is_kept
from tests.hosts.prompt import Terminal, line
from tests.hosts.root import STARTS, STATE, Host
from tests.hosts.sessions import ended, stop, there


def kept_lines(host: Host, user: str = "ann") -> list[dict[str, Any]]:
    """What `desk-host starts` prints of a user."""
    said = host.does("desk-host starts", "desk-host", "starts")
    return [it for it in map(json.loads, said.splitlines()) if it.get("user") == user]


def kept(host: Host) -> None:
    """Each start is one line with what sudo resolved, whatever its words are; what root starts and
    what sudo refuses is none. Two commands of one second are two lines."""
    if not host.is_fit:
        return
    host.put("password", "Defaults:ann !authenticate\n")
    host.put("desk", line("ann", 3600, "/usr/bin/echo") + line("ann", 3600, "/usr/bin/true"))
    host.drop(f"{STATE}/starts", "/run/desk-host/kept")
    odd = 'a"b\\ \n{"form": 1, "at": 7} \x01é'
    host.as_user("ann", "sudo", "-n", "echo", odd)
    for _ in range(2):
        host.as_user("ann", "sudo", "-n", "true", "x" * 5000)
    host.as_user("ann", "sudo", "-n", "id")
    host.run("sudo", "-n", "true")
    found = kept_lines(host)
    host.check("three starts", len(found) == 3, str(found))
    first = found[0] if found else {}
    words = [it.encode("latin-1").decode() for it in first.get("words", [])]
    is_right = words == ["echo", odd] and first["command"] == "/usr/bin/echo"
    host.check("its words, and its file", is_right and first["runas"] == "root", str(first))
    is_cut = [it.get("cut", False) for it in found] == [False, True, True]
    host.check("long words are cut", is_cut and len(str(found)) < 9000, str(found)[:300])
    host.check("each start once", len({it["name"] for it in found}) == 3, str(found)[:300])
    host.check("and again", kept_lines(host) == found)
    is_roots = os.stat(host.path(f"{STATE}/starts")).st_mode & 0o777 == 0o700
    host.check("the folder is root's alone", is_roots)
    old = host.path(f"{STATE}/starts/20200101.jsonl")
    host.write(f"{STATE}/starts/20200101.jsonl", json.dumps(first) + "\n")
    ended(host)
    host.check("what is older than 90 days goes", not os.path.exists(old))
    host.write("/run/desk-host/kept", '\n{"form":1,"at":7,"wo\n')
    said = host.does("a line that a full disk cut", "desk-host", "starts", says='"lost"')
    host.check("the others stay", len(kept_lines(host)) == 3, said)
    host.drop("password", f"{STATE}/starts")


def full(host: Host) -> None:
    """Where /var is full, sudo goes on, the log says what to do, `check` names it, and nothing is
    lost; where /run is full, sudo starts nothing for others than root."""
    if not host.is_fit:
        return
    host.put("password", "Defaults:ann !authenticate\n")
    host.put("desk", line("ann", 3600, "/usr/bin/true"))
    ended(host)
    small = ["mount", "-t", "tmpfs", "-o", "size=16k,mode=0700", "tmpfs", host.path(STATE)]
    subprocess.run(small, check=True)
    try:
        host.run("sh", "-c", f"head -c 20000 /dev/zero > {STATE}/filled")
        ran = host.as_user("ann", "sudo", "-n", "true")
        host.check("sudo goes on", ran.returncode == 0, ran.stdout)
        with Terminal(host, "ann") as terminal:
            host.put("bash", line("ann", 3600, "ALL"))
            terminal.send("sudo sleep 7695")
            host.check("also for long", there(host, "7695"))
            host.drop("bash")
            said = ended(host)
            host.check("what has lost its right is ended", there(host, "7695", False, 20), said)
        says = "the starts cannot be kept for desk-used: .*No space left.* is the disk full?"
        host.does("the log says so", "desk-host", "end-sessions", says=says)
        taken = host.path("/run/desk-host/kept.taken")
        os.utime(taken, (time.time() - 1000, time.time() - 1000))
        said = host.run("desk-host", "check").stdout
        host.check("check says so", "the starts are not kept" in said, said)
        host.drop(f"{STATE}/filled")
        host.check("it comes behind", len(kept_lines(host)) == 2)
    finally:
        subprocess.run(["umount", host.path(STATE)], check=True)
    small[-1] = host.path("/run/desk-host/starts")
    subprocess.run(small, check=True)
    try:
        host.run("sh", "-c", "head -c 20000 /dev/zero > /run/desk-host/starts/filled")
        ran = host.as_user("ann", "sudo", "-n", "true")
        is_refused = ran.returncode != 0 and "cannot write it down" in ran.stdout
        host.check("a full /run: it is refused", is_refused, ran.stdout)
        host.check("but not root's", host.run("sudo", "-n", "true").returncode == 0)
    finally:
        subprocess.run(["umount", host.path("/run/desk-host/starts")], check=True)
    host.drop("password")


def records_gone(host: Host) -> None:
    """Where most sudos have no record, none of these is ended, each is named, and `check` says so;
    one alone among others is ended."""
    if not host.is_fit or not host.has_groups:
        return
    host.put("password", "Defaults:ann !authenticate\n")
    host.put("desk", line("ann", 3600, "ALL"))
    time.sleep(1.1)  # (the plugin may have been put in within this second)
    marks = ("7691", "7692", "7693", "7694")
    with contextlib.ExitStack() as stack:
        for mark in marks:
            stack.enter_context(Terminal(host, "ann")).send(f"sudo sleep {mark}")
            host.check("it runs", there(host, mark, seconds=60))
        names = os.listdir(host.path(STARTS))
        names.sort(key=lambda it: int(it.partition("-")[0]))
        host.check("each has a record", len(names) == 4, str(names))
        host.drop(*(f"{STARTS}/{it}" for it in names[:3]))
        host.conf("http://127.0.0.1:1", GRACE="1", PROMPT="0")
        said = host.does("end-sessions", "desk-host", "end-sessions", status=1)
        told = re.findall("is left alone: of 3 of 4 sudos nothing is written", said)
        is_right = len(told) == 3 and all(there(host, it, seconds=0) for it in marks)
        host.check("none is ended, and each is named", is_right, said)
        said = host.run("desk-host", "check").stdout
        says = "of 3 of 4 sudos nothing is written down"
        host.check("check says so", "CRITICAL" in said and says in said, said)
        for mark in marks[:2]:
            stop(host, mark)
        said = host.does("end-sessions", "desk-host", "end-sessions")
        is_told = "it cannot be judged (sudo wrote nothing down of it)" in said
        host.check("one of two is ended", is_told and there(host, marks[3], seconds=0), said)
        host.check("the other is not", sum(there(host, it, seconds=0) for it in marks) == 1, said)
        for mark in marks[2:]:
            stop(host, mark)
    host.drop("password")
    nothing_is_kept(host)


PARTS = (kept, full, records_gone)
