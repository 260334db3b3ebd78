"""What sudo wrote down as it started a command (packaging/host/desk_host.c)."""

from __future__ import annotations

import contextlib
import os
import re
from collections.abc import Iterator
from typing import NamedTuple, Optional

from steelnewt_host.faults import Unclear
from steelnewt_host.groups import is_of, lives
from steelnewt_host.processes import Process, name_of, read_process
from steelnewt_host.session import Session, told_words
from steelnewt_host.settings import Settings
from steelnewt_host.state import read_some
from steelnewt_host.telling import log

RECORD = 2 * 1024 * 1024  # the bytes that a record may have
END = b"\0end=true\0"
HEAD = 64 * 1024  # those that are read to find what it is of


class Start(NamedTuple):
    """What sudo resolved as it started a command."""

    held: dict[str, str]
    words: tuple[str, ...]


def fields_of(text: bytes) -> Start:
    """The fields of a record, which its plugin ends by a zero each."""
    held, words = {}, []
    for field in os.fsdecode(text).split("\0")[:-1]:
        name, _, value = field.partition("=")
        if name == "word":
            words.append(value)
        else:
            held[name] = value
    return Start(held, tuple(words))


def starts(settings: Settings) -> Iterator[Session]:
    """What sudo wrote down that has not ended; what has is cleared away."""
    folder = os.path.join(settings.run, "starts")
    with contextlib.suppress(FileNotFoundError):
        for name in os.listdir(folder):
            found = re.fullmatch(r"([0-9]{1,10})-([0-9]{1,20})(\.new)?", name)
            if not found:
                continue
            pid, start, path = int(found[1]), int(found[2]), os.path.join(folder, name)
            process = read_process(pid)
            if process is not None and (process.start != start or not process.is_there):
                process = None
            if process is not None and 0 not in (process.user, process.power):
                log(f"{path} names a process that is no sudo: who else writes there?")
                process = None
            session = None if found[3] else recorded(path, (pid, start), process)
            if session is not None and (process or lives(session.group)):
                yield session
            elif process is None:
                clear(path, session.group if session else "")


def recorded(path: str, name: tuple[int, int], process: Optional[Process]) -> Optional[Session]:
    """What a record is of; nothing where it is gone meanwhile. One that names another start says
    nothing, and its group is none of this one's."""
    try:
        with open(path, "rb") as file:
            text = file.read(HEAD)
    except OSError:
        return None
    held, words = fields_of(text[: text.rfind(b"\0") + 1])
    group, own = held.get("cgroup", ""), f"{name[0]}-{name[1]}"
    if held.get("form") != "1" or held.get("name") != own or group and not is_of(group, own):
        user = name_of(process.user) if process else "?"
        why = "its record is of another start"
        return Session(name, user, f"sudo, by {path},", process, path, unclear=why)
    told = (held.get("command", ""), *words[1:])
    if "sudoedit" in held:
        told = ("sudoedit", *words[words.index("--") + 1 if "--" in words else 0 :])
    said = told_words(told, held.get("runas_user", ""))
    return Session(name, held.get("user", ""), said, process, path, group)


def clear(record: str, group: str) -> None:
    """Takes away what is left of a start that has ended."""
    if group:
        for path, _, _ in os.walk(group, topdown=False):
            with contextlib.suppress(OSError):
                os.rmdir(path)
    if not group or not os.path.exists(group):
        with contextlib.suppress(OSError):
            os.unlink(record)


def question_of(record: str) -> tuple[str, ...]:
    """The words in which sudo is asked whether it still allows what it wrote down."""
    text = read_some(record, RECORD)
    if text is None:
        raise Unclear("its record is gone, or too long")
    held, words = fields_of(text)
    if not text.endswith(END) or text.count(END) != 1:
        raise Unclear("its record was cut off, or put together")
    if "cut" in held:
        raise Unclear("it has more words than sudo wrote down")
    if "given_root" in held:
        raise Unclear("a root of its own (-R)")
    if "sudoedit" in held:
        command = ["sudoedit", *words[words.index("--") + 1 :]] if "--" in words else []
    else:
        rest = words[1:]
        if "is_shell" in held:  # (sudo put a \ before what is special to a shell)
            rest = tuple(re.sub(r"\\([^ \t\n\v\f\r])", r"\1", it, flags=re.S) for it in rest)
        path = os.path.join(held.get("cwd", ""), held.get("command", ""))
        command = [path, *rest] if path.startswith("/") else []
    if not command:
        raise Unclear("its record names no command")
    target = []
    if "given_user" in held or "given_group" not in held:
        target += ["-u", held.get("runas_user", "root")]
    if "given_group" in held:
        target += ["-g", held["given_group"]]
    if "--" in target:
        raise Unclear("its target has the name --")
    return (*target, "--", *command)
