"""Whether sudo still allows a session, by its own answer."""

from __future__ import annotations

import contextlib
import errno
import os
import pwd
import re
import secrets
import stat
import subprocess
from collections.abc import Sequence
from typing import Optional

from steelnewt_host.faults import Unanswered, Unclear
from steelnewt_host.processes import Process, environment, words_of
from steelnewt_host.records import question_of
from steelnewt_host.session import Session
from steelnewt_host.settings import PATH, Settings
from steelnewt_host.sudo import program
from steelnewt_host.sudo_words import folders_of, question

NOT_ENTERED = 125  # the status of `env -C` where it cannot enter the folder


def sudo_says(
    user: str, asked: Sequence[str], path: str, before: Sequence[str]
) -> subprocess.CompletedProcess[str]:
    """What sudo answers about words of a user."""
    return subprocess.run(
        [*before, program("sudo"), "-n", "-l", "-U", user, *asked],
        stdin=subprocess.DEVNULL,
        stdout=subprocess.PIPE,
        stderr=subprocess.PIPE,
        text=True,
        errors="replace",
        check=False,
        timeout=60,
        cwd="/",
        env={"PATH": path, "LC_ALL": "C"},
    )


def sudo_itself(it: Session) -> Process:
    if it.process is None:
        raise Unclear("its sudo has ended")
    return it.process


def question_of_words(it: Session) -> tuple[str, ...]:
    """The same of a sudo that wrote nothing down."""
    sudo = sudo_itself(it)
    return question(sudo, words_of(sudo), it.user)


def of_words(it: Session) -> subprocess.CompletedProcess[str]:
    """What sudo says of a sudo's words. `env` enters the folder, so that one that never answers
    ends after a minute too."""
    asked, sudo = question_of_words(it), sudo_itself(it)
    path = environment(sudo).get("PATH", PATH)
    for folder in folders_of(asked, path, sudo):
        ran = sudo_says(it.user, asked, path, (program("env"), "-C", folder))
        if ran.returncode != NOT_ENTERED:
            break
    return ran


def way_to(path: str) -> Optional[tuple[str, str]]:
    """A path without the links that are root's, and the first folder on it that is not root's
    alone, or none. Nothing where only its user's process knows where it leads: through what a
    process sees of itself in /proc, or by dots behind what its user may change."""
    here, rest = "/", [it for it in path.split("/") if it not in ("", ".")]
    for _ in range(4096):
        if len(rest) < 2 and rest != [".."]:
            return os.path.join(here, *rest), ""
        name = rest.pop(0)
        if name == "..":
            here = os.path.dirname(here)
            continue
        here_too = os.path.join(here, name)
        if here_too == "/proc":
            return None
        try:
            seen = os.lstat(here_too)
        except FileNotFoundError:
            return None
        except OSError:
            seen = None
        if seen and seen.st_uid == 0 and stat.S_ISLNK(seen.st_mode):
            to = os.readlink(here_too)
            here = "/" if to.startswith("/") else here
            rest = [*(it for it in to.split("/") if it not in ("", ".")), *rest]
        elif seen and seen.st_uid == 0 and stat.S_ISDIR(seen.st_mode) and not seen.st_mode & 0o022:
            here = here_too
        else:
            return None if ".." in rest else (os.path.join(here_too, *rest), here_too)
    return None


# What stands where a user may put anything is looked at by nobody: sudo is asked in a view of its
# own, in which a program of root's stands there.
STAND_IN = """\
mount -t tmpfs -o mode=0755,size=64k tmpfs "$1" && mkdir -p "${2%/*}" && : > "$2" &&
chmod 755 "$2" || exit 125
shift 2; exec "$@"
"""


def of_record(it: Session, settings: Settings) -> subprocess.CompletedProcess[str]:
    """What sudo says of what it wrote down. Its command may be gone meanwhile, or this host gives
    no view of its own: then it is asked of one that no line names, which whoever may run everything
    may run too."""
    asked = list(question_of(it.record))
    at = asked.index("--") + 1
    view = (program("unshare"), "--mount", "--propagation", "private", "/bin/sh", "-c", STAND_IN)
    way = way_to(asked[at])
    if way is not None:
        asked[at], loose = way
        ran = sudo_says(it.user, asked, PATH, (*view, "sh", loose, asked[at]) if loose else ())
        if not is_not_found(ran) and not ran.stderr.startswith("unshare: "):
            return ran
    asked[at] = canary_of(settings)
    ran = sudo_says(it.user, asked, PATH, ())
    if ran.returncode != 0:
        raise Unclear("its command is gone, or lies where its user may put another")
    return ran


def is_edit(line: str, files: str) -> bool:
    """Whether what sudo lists of sudoedit speaks for these files: to the letter, or by stars."""
    _, is_bound, pattern = line.partition(" ")
    stars = re.escape(re.sub(r"\\([,:=\\])", r"\1", pattern)).replace(r"\*", "[^/]*")
    return not is_bound or re.fullmatch(stars, files) is not None


def may_edit(it: Session, asked: Sequence[str], settings: Settings) -> bool:
    """Whether sudo still allows an edit. sudo answers no question about sudoedit, which it takes
    for the program of that name; it lists its lines about sudoedit in their order, as its own
    reader does, and does not say whether the date of a line is over."""
    at = asked.index("--")
    everything = (*asked[: at + 1], canary_of(settings))
    if sudo_says(it.user, everything, PATH, ()).returncode == 0:
        return True
    ran = sudo_says(it.user, ("-l",), PATH, ())
    if ran.returncode != 0:
        raise Unanswered(f"sudo does not say: {(ran.stderr.splitlines() or ['nothing'])[0]}")
    target, is_it = dict(zip(asked[:at:2], asked[1:at:2])).get("-u", it.user), False
    for entry in ran.stdout.split("\nSudoers entry")[1:]:
        users = re.findall(r"^    RunAsUsers: (.*)$", entry, re.M) or ["root"]
        if not {target, "ALL"} & set(users[0].split(", ")):
            continue
        for denied, line in re.findall(r"^\t(!?)(sudoedit(?: .*)?)$", entry, re.M):
            if is_edit(line, " ".join(asked[at + 2 :])):
                is_it = not denied and not re.search("^    Not(Before|After): ", entry, re.M)
    return is_it


def is_not_found(ran: subprocess.CompletedProcess[str]) -> bool:
    """Whether sudo finds no such command, or could not be asked in its place."""
    is_none = ran.returncode == 1 and ran.stderr.rstrip().endswith("command not found")
    return is_none or ran.returncode == NOT_ENTERED


def canary_of(settings: Settings) -> str:
    """A program of a name that no line has: one for each start of the machine."""
    for name in sorted(os.listdir(settings.run)):
        if re.fullmatch("canary-[0-9a-f]{16}", name):
            return os.path.join(settings.run, name)
    path = os.path.join(settings.run, f"canary-{secrets.token_hex(8)}")
    with open(path, "x", encoding="ascii") as file:
        os.fchmod(file.fileno(), 0o755)
    return path


def is_allowed(it: Session, settings: Settings) -> bool:
    """Whether sudo still allows it, by its own answer."""
    if it.unclear:
        raise Unclear(it.unclear)
    try:
        asked = question_of(it.record) if it.record else question_of_words(it)
        if asked[asked.index("--") + 1] == "sudoedit":
            return may_edit(it, asked, settings)
        ran = of_record(it, settings) if it.record else of_words(it)
    except (KeyError, IndexError, ValueError) as why:
        raise Unclear(f"sudo cannot be asked: {why}") from why
    except (OSError, subprocess.SubprocessError) as why:
        if isinstance(why, OSError) and why.errno == errno.E2BIG:
            raise Unclear("it has more words than sudo can be asked about") from why
        raise Unanswered(f"sudo cannot be asked: {why}") from why
    said = [line for line in ran.stderr.splitlines() if "unable to resolve host" not in line]
    if ran.returncode == 0 and ran.stdout.strip():
        return True
    if ran.returncode == 1 and not said and not ran.stdout.strip():
        return False
    told = f"sudo does not say: {(said or ['nothing'])[0]}"
    names = (it.user, *asked[: asked.index("--")])
    is_lost = any(f"unknown user {name}" in told and is_gone(name) for name in names)
    if is_not_found(ran) or is_lost:
        raise Unclear(told)
    raise Unanswered(told)


def is_gone(user: str) -> bool:
    """Whether an account is surely gone: no directory is asked that may be away for a while."""
    kinds = set("files compat systemd".split())
    with contextlib.suppress(OSError), open("/etc/nsswitch.conf", encoding="latin-1") as file:
        for line in file:
            words = line.partition("#")[0].split()
            if words[:1] == ["passwd:"] and not kinds.issuperset(words[1:]):
                return False
    try:
        return not pwd.getpwnam(user)
    except KeyError:
        return True
