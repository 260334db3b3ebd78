#!/usr/bin/env python3
"""What a part of the gate sees hangs on nothing that the shell that began the run has ignored,
closed or set (scripts/apart.py).

A hostile start ignores and blocks signals, closes the first descriptors, leaves others open, and
sets the umask, the home, the language, the folder for temporary files and variables of an outer
make; the words that run apart see none of it, also under `nohup` and `setsid`. Then the parts that
send signals run under `nohup` with a closed input: they end as they do at a terminal.
"""

from __future__ import annotations

import ctypes
import json
import os
import pwd
import signal
import struct
import subprocess
import sys
import tempfile
import time
from collections.abc import Iterable, Sequence

from tests.common import desk
from tests.common.tally import Count

APART = [sys.executable, "-I", "-S", os.path.join(desk.ROOT, "scripts", "apart.py")]
# prints what a program inherits
SEEN = """
import json, os, sys
with open("/proc/self/status", encoding="utf-8") as status:
    held = dict(line.split(":", 1) for line in status)
umask = os.umask(0)
try:
    os.close(os.open("/dev/tty", os.O_RDWR))
    terminal = True
except OSError:
    terminal = False
listed = os.listdir("/proc/self/fd")  # and the one of the list, which is closed behind it
print(json.dumps({
    "ignored": int(held["SigIgn"], 16), "blocked": int(held["SigBlk"], 16), "umask": umask,
    "descriptors": [it for it in listed if os.path.lexists(f"/proc/self/fd/{it}")],
    "input": os.read(0, 9).decode(), "environment": dict(os.environ), "terminal": terminal,
    "leads": os.getsid(0) == os.getpid(),
}))
"""
# what Python itself ignores once it runs
PYTHONS = {signal.SIGPIPE, signal.SIGXFSZ}
# The C library keeps two signals for its threads, and lets no program set either (nptl(7)). A
# runner that ignores all signals by system calls hands these two on, and they do no harm: the C
# library sets its handlers whatever was there.
C_LIBRARYS = {32, 33}
# rt_sigaction(2) on x86-64, and the size of its sets
RT_SIGACTION, SET_BYTES = 13, 8
HOSTILE = {
    "HOME": "/nonexistent",
    "TMPDIR": "/nonexistent",
    "LANG": "tr_TR.UTF-8",
    "LC_ALL": "tr_TR.UTF-8",
    "LANGUAGE": "tr",
    "MAKEFLAGS": " -j --jobserver-auth=3,4",
    "MAKELEVEL": "1",
    "DESK": "/bin/false",
    "PYTHONPATH": "/nonexistent",
    "IFS": "x",
    "BASH_ENV": "/nonexistent",
}
# leaves a process behind that ends by itself, and waits until it is gone
ORPHAN = """
import os, time
reading, writing = os.pipe()
if (child := os.fork()) == 0:
    if (orphan := os.fork()):
        os.write(writing, str(orphan).encode())
    os._exit(0)
os.waitpid(child, 0)
orphan = int(os.read(reading, 20))
until = time.monotonic() + 20
while os.path.exists(f"/proc/{orphan}") and time.monotonic() < until:
    time.sleep(0.02)
raise SystemExit(os.path.exists(f"/proc/{orphan}"))
"""
STARTS = {
    "as it is": (),
    "under nohup": ("nohup",),
    "under setsid": ("setsid", "--wait"),
    "without its input": ("bash", "-c", 'exec "$@" <&-', "bash"),
    "without its input and errors": ("bash", "-c", 'exec "$@" <&- 2>&-', "bash"),
}
# the tests of these words send signals, and hang or fail where they are ignored
SIGNALLED = (
    "python3 -m tests.peers.peers_site --only reloads",
    "env RUNS=4 HELD=60 SENT=20 python3 -m tests.soak.kills",
)


def signals(numbers: Iterable[int]) -> int:
    """A set of signals as /proc/PID/status shows it."""
    return sum(1 << (number - 1) for number in numbers)


def hostile() -> None:
    """In the child, before its words."""
    for number in signal.valid_signals() - {signal.SIGKILL, signal.SIGSTOP}:
        if number < signal.SIGRTMIN:
            signal.signal(number, signal.SIG_IGN)
    for number in C_LIBRARYS:
        action = struct.pack("@4Q", signal.SIG_IGN, 0, 0, 0)  # its handler, flags, restorer, mask
        ctypes.CDLL(None).syscall(RT_SIGACTION, number, action, None, SET_BYTES)
    signal.pthread_sigmask(signal.SIG_SETMASK, {signal.SIGTERM, signal.SIGCHLD, signal.SIGUSR1})
    os.umask(0o077)
    os.chdir(desk.ROOT)


def started(before: Sequence[str], words: Sequence[str], seconds: float) -> tuple[int, str]:
    """The status and the output of words after a hostile start."""
    reading, writing = os.pipe()
    try:
        done = subprocess.run(
            [*before, *words],
            input="given",
            stdout=subprocess.PIPE,
            stderr=subprocess.STDOUT,
            text=True,
            timeout=seconds,
            env={**os.environ, **HOSTILE},
            pass_fds=(reading, writing),
            preexec_fn=hostile,
            check=False,
        )
    finally:
        os.close(reading)
        os.close(writing)
    return done.returncode, done.stdout


def inherits(count: Count) -> None:
    account = pwd.getpwuid(os.getuid())
    for title, before in STARTS.items():
        with tempfile.TemporaryDirectory() as folder:
            words = [*APART, "--folder", folder, sys.executable, "-c", SEEN]
            status, said = started(before, words, 60)
            if not count.same(f"{title}: it runs", status, 0):
                print(said)
                continue
            seen = json.loads(said.splitlines()[-1])
            environment = seen.pop("environment")
            seen["ignored"] &= ~signals(C_LIBRARYS)
            wanted = {
                "ignored": signals(PYTHONS),
                "blocked": 0,
                "umask": 0o022,
                "descriptors": ["0", "1", "2"],
                "input": "",
                "terminal": False,
                "leads": True,
            }
            count.same(title, seen, wanted)
            home = account.pw_dir if os.path.isdir(account.pw_dir) else folder
            count.same(f"{title}: its home", environment["HOME"], home)
            count.same(f"{title}: its folder", environment["TMPDIR"], folder)
            language = {environment["LANG"], environment["LC_ALL"]}
            count.same(f"{title}: its language", language, {"C.UTF-8"})
            more = sorted(HOSTILE.keys() & environment.keys())
            count.same(f"{title}: what else is set", more, ["HOME", "LANG", "LC_ALL", "TMPDIR"])


def ends(count: Count) -> None:
    """What apart.py started ends with it: at its time, at a signal, and where it ends itself."""
    script = "sleep 931.5 & setsid sleep 931.5 & "
    status, said = started((), [*APART, "--minutes", "0.02", "bash", "-c", f"{script} wait"], 60)
    count.same("its time is up", status, 124)
    count.holds("it says so", "no end after 0.02 minutes: ended" in said, said)
    status, said = started((), [*APART, "bash", "-c", f"{script} disown -a; exit 7"], 60)
    count.same("its own status", status, 7)
    count.holds("what it left", "left behind, and ended: " in said and "sleep" in said, said)
    status, _ = started((), [*APART, sys.executable, "-c", ORPHAN], 60)
    count.same("what it left and has ended is gone", status, 0)
    status, _ = started((), [*APART, "bash", "-c", "kill -HUP $$"], 60)
    count.same("a signal ends it", status, 128 + signal.SIGHUP)
    with subprocess.Popen([*APART, "bash", "-c", f"{script} echo; wait"], stdout=-1) as process:
        assert process.stdout is not None
        process.stdout.readline()
        process.terminate()
        count.same("told to end", process.wait(30), 128 + signal.SIGTERM)
    found = desk.run(["pgrep", "-cf", "^sleep 931[.]5$"]).stdout.strip()
    count.same("nothing is left", found, "0")


def signalled(count: Count) -> None:
    """Tests that send signals, under nohup and without an input."""
    for words in SIGNALLED:
        begun = time.monotonic()
        whole = ["bash", "-c", 'exec nohup "$@" <&-', "bash", *APART]
        status, said = started((), [*whole, *words.split()], 300)
        count.holds(words, status == 0, said[-1500:])
        print(f"{words}: {time.monotonic() - begun:.0f} seconds", flush=True)


def main() -> int:
    count = Count()
    for part in (inherits, ends, signalled):
        part(count)
    print(f"what a part inherits: {count.tried} checks, {count.wrong} wrong")
    return 1 if count.wrong else 0


if __name__ == "__main__":
    sys.exit(main())
