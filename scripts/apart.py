#!/usr/bin/env python3
"""Runs words that inherit nothing but what is said here, and leaves none of their processes behind.

    apart.py [--minutes N] [--folder DIR] [--grace SECONDS] WORDS..

Whoever starts a test may have had a signal ignored (`nohup`), a descriptor closed or left open, a
umask, a language, a folder for temporary files or variables of an outer make: what the test then
does would hang on that. So the words run in a session of their own, with no terminal and an empty
input, with each signal as it is by default, with the umask 022, with a home that is there, in
English, with temporary files in DIR or /tmp, and with those variables alone that PASSED_ON names.
After N minutes, or at a signal that ends this, all that was started is told to end, and what has
not ended five SECONDS later is killed; so is what the words have left at their end. The status is
that of the words, 124 where their time was up.
"""

from __future__ import annotations

import argparse
import contextlib
import ctypes
import os
import pwd
import re
import signal
import subprocess
import sys
import time
from collections.abc import Iterator
from types import FrameType

# What a site may have to say to all of its programs, and what the gate's own scripts are told.
PASSED_ON = re.compile(
    r"PATH|\w+_proxy|\w+_PROXY|SSL_CERT_\w+|PYENV_VERSION|MIRROR|HOSTS|WHOLE|PATIENCE|CORES|RT_JOBS"
)
ADMINISTRATORS = ("/usr/sbin", "/sbin")
TIME_IS_UP = 124
ENDED = 128  # and the signal, as a shell has it
# prctl(2)
PR_SET_PDEATHSIG, PR_SET_CHILD_SUBREAPER = 1, 36
# how long what is killed may take to go, in seconds
TO_GO = 10.0


class Ended(Exception):
    """This program was told to end, by a signal."""


def environment(folder: str) -> dict[str, str]:
    """The variables that the words see."""
    held = {name: value for name, value in os.environ.items() if PASSED_ON.fullmatch(name)}
    path = held.get("PATH", os.defpath).split(os.pathsep)
    path += [it for it in ADMINISTRATORS if it not in path]
    account = pwd.getpwuid(os.getuid())
    return held | {
        "PATH": os.pathsep.join(path),
        "HOME": account.pw_dir if os.path.isdir(account.pw_dir) else folder,
        "USER": account.pw_name,
        "LOGNAME": account.pw_name,
        "LANG": "C.UTF-8",
        "LC_ALL": "C.UTF-8",
        "TMPDIR": folder,
    }


def open_descriptors() -> None:
    """Opens those of the first three descriptors that are closed, so that no file takes their
    place; the input is empty."""
    while (found := os.open(os.devnull, os.O_RDWR)) < 3:
        pass
    os.dup2(found, 0)
    os.close(found)
    for number in (1, 2):
        os.set_inheritable(number, True)


def control(option: int, value: int) -> None:
    """prctl(2) of this process. Where it is refused, what is left behind is not killed."""
    ctypes.CDLL(None).prctl(option, value, 0, 0, 0)


def defaults() -> None:
    """In the child, before its words: each signal as it is by default, and the umask."""
    for number in signal.valid_signals() - {signal.SIGKILL, signal.SIGSTOP}:
        # (the C library keeps two signals for itself)
        with contextlib.suppress(OSError):
            signal.signal(number, signal.SIG_DFL)
    signal.pthread_sigmask(signal.SIG_SETMASK, ())
    os.umask(0o022)


def below() -> Iterator[tuple[int, str]]:
    """The processes that this one started, directly or not: their ids and names."""
    children: dict[int, list[tuple[int, str]]] = {}
    for pid in filter(str.isdigit, os.listdir("/proc")):
        with contextlib.suppress(OSError), open(f"/proc/{pid}/stat", encoding="utf-8") as file:
            name, _, fields = file.read().partition("(")[2].rpartition(")")
            state, parent = fields.split()[:2]
            if state != "Z":
                children.setdefault(int(parent), []).append((int(pid), name))
    found = [os.getpid()]
    for pid in found:
        for child, name in children.get(pid, []):
            found.append(child)
            yield child, name


def reap() -> None:
    with contextlib.suppress(ChildProcessError):
        while os.waitpid(-1, os.WNOHANG)[0]:
            pass


def waited(child: subprocess.Popen[bytes], seconds: float | None) -> int:
    """The status of the words, once they have ended. What is left to this process meanwhile is
    reaped when it ends, as a machine's first process does, or it would look as if it still ran."""
    begun = time.monotonic()
    while (status := child.poll()) is None:
        while (ended := os.waitid(os.P_ALL, 0, os.WEXITED | os.WNOHANG | os.WNOWAIT)) is not None:
            if ended.si_pid == child.pid:
                break
            os.waitpid(ended.si_pid, 0)
        if seconds is not None and time.monotonic() - begun > seconds:
            raise subprocess.TimeoutExpired(child.args, seconds)
        time.sleep(0.02)
    return status


def end_all(grace: float) -> list[str]:
    """Ends all that was started and still runs, and kills what does not end in these seconds: the
    names of what there was."""
    names = [name for _, name in below()]
    begun = time.monotonic()
    told: set[int] = set()
    # (what is ended may have started others meanwhile)
    while (lasts := time.monotonic() - begun) < grace + TO_GO and (running := list(below())):
        for pid, _ in running:
            with contextlib.suppress(ProcessLookupError):
                if lasts > grace:
                    os.kill(pid, signal.SIGKILL)
                elif pid not in told:
                    os.kill(pid, signal.SIGTERM)
        told |= {pid for pid, _ in running}
        time.sleep(0.02)
        reap()
    return names


def end(number: int, _: FrameType | None) -> None:
    signal.signal(number, signal.SIG_IGN)
    raise Ended(number)


def finished(given: argparse.Namespace) -> int:
    """Runs the words, and ends all that they started: their status."""
    seconds = given.minutes and given.minutes * 60
    try:
        child = subprocess.Popen(
            given.words,
            env=environment(given.folder),
            start_new_session=True,
            preexec_fn=defaults,
        )
        status = waited(child, seconds)
        left = end_all(given.grace)
        if left:
            # (the last line of the gate's output is its count)
            names = ", ".join(sorted(set(left)))
            print(f"(left behind, and ended: {names})", file=sys.stderr, flush=True)
        return status if status >= 0 else ENDED - status
    except OSError as fault:
        print(f"cannot run {given.words[0]}: {fault.strerror}", flush=True)
        return 127
    except subprocess.TimeoutExpired:
        names = end_all(given.grace)
        print(f"no end after {given.minutes:g} minutes: ended {', '.join(names)}", flush=True)
        return TIME_IS_UP
    except Ended as fault:
        end_all(given.grace)
        return ENDED + int(fault.args[0])


def main() -> int:
    open_descriptors()
    parser = argparse.ArgumentParser()
    parser.add_argument("--minutes", type=float)
    parser.add_argument("--folder", default="/tmp")
    parser.add_argument("--grace", type=float, default=5.0)
    parser.add_argument("words", nargs=argparse.REMAINDER)
    given = parser.parse_args()
    # a run that ignores its terminal's end (`nohup`) goes on ignoring it; only its words do not
    is_held = signal.getsignal(signal.SIGHUP) == signal.SIG_IGN
    for number in {signal.SIGINT, signal.SIGTERM, *(() if is_held else (signal.SIGHUP,))}:
        signal.signal(number, end)
    # (where the ends of children are ignored, their status is lost)
    signal.signal(signal.SIGCHLD, signal.SIG_DFL)
    signal.pthread_sigmask(signal.SIG_SETMASK, ())
    control(PR_SET_CHILD_SUBREAPER, 1)
    control(PR_SET_PDEATHSIG, signal.SIGTERM)
    return finished(given)


if __name__ == "__main__":
    sys.exit(main())
