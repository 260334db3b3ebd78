#!/usr/bin/python3
"""Asks the sudo of its own root many questions, each with /etc/sudoers as it says, and the clock at
a moment of its own: for beside.py.

It reads a list of [text, user, host, target, moment, path, arguments ..] as JSON, and writes a list
of [status, what sudo wrote to standard error]. It stands alone, since a root has it and no more.
"""

import calendar
import json
import subprocess
import sys
import time


def clock() -> str:
    """The library by which `faketime` sets a program's clock."""
    words = ["faketime", "-f", "2026-01-05 09:30:00", "printenv", "LD_PRELOAD"]
    return subprocess.run(words, stdout=subprocess.PIPE, check=True, text=True).stdout.strip()


def answer(library: str, text: str, *words: str) -> tuple[int, str]:
    user, host, target, moment, path, *args = words
    with open("/etc/sudoers", "w", encoding="ascii") as file:
        file.write(text)
    seconds = calendar.timegm(time.strptime(moment, "%Y%m%d%H%M%SZ"))
    ran = subprocess.run(
        ["sudo", "-n", "-l", "-U", user, "-h", host, "-u", target, "--", path, *args],
        stdin=subprocess.DEVNULL,
        stdout=subprocess.DEVNULL,
        stderr=subprocess.PIPE,
        text=True,
        check=False,
        env={
            "PATH": "/usr/sbin:/usr/bin:/sbin:/bin",
            "TZ": "UTC",
            "LC_ALL": "C",
            "LD_PRELOAD": library,
            "FAKETIME_FMT": "%s",
            "FAKETIME": str(seconds),
        },
    )
    return ran.returncode, ran.stderr


if __name__ == "__main__":
    preloaded = clock()
    json.dump([answer(preloaded, *each) for each in json.load(sys.stdin)], sys.stdout)
