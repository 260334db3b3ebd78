"""What the desk decides about the runs of sudo's logs: `desk decide`, which is proved, is asked
once for each case that a policy can tell apart.

A policy tells two names apart only where it has one of them, and two commands only by the paths,
folders and arguments in it. So a word that does not stand in a policy's text is asked about as any
other such word; and so is one that no policy could have.
"""

import os
import re
import subprocess
from bisect import bisect_right
from collections.abc import Iterable
from concurrent.futures import ThreadPoolExecutor
from typing import NamedTuple

from desk_tools.judge import NoDesk

NAME = re.compile(r"[a-z_][a-z0-9._-]{0,31}")
HOST = re.compile(r"[a-z][a-z0-9-]{0,31}")
PATH = re.compile(r"(?:/(?!\.{1,2}(?:/|$))[A-Za-z0-9._+-]+)+")
ARGUMENT = re.compile(r"[A-Za-z0-9._/+@%,:=-]{1,64}")
ESCAPES = str.maketrans({it: f"\\{it}" for it in ",:="})
UNKNOWN = re.compile(r"B[12] ")
DATES = re.compile(r"NOT(BEFORE|AFTER)=(\d{14}Z)")
MOST_PATH, MOST_ARGUMENTS = 255, 64


class Invocation(NamedTuple):
    """A run, as a policy is asked about it."""

    user: str
    host: str
    target: str
    path: str
    args: tuple[str, ...]


class Policy:
    """A policy's canonical text, which has each name that it depends on, in a file."""

    def __init__(self, path: str, text: str) -> None:
        self.path, self.text = path, text
        self.words = set(re.findall(r"[A-Za-z0-9._-]+", text))
        self.other = next(it for it in map("other{}".format, range(1 << 20)) if it not in text)
        # the first moments at which it may decide otherwise
        self.bounds = sorted({first_moment(*it) for it in DATES.findall(text)})

    def general(self, asked: Invocation) -> Invocation:
        """The same for the policy, in words that it has or that stand for all others."""
        is_user = asked.user in self.words and NAME.fullmatch(asked.user)
        is_host = asked.host in self.words and HOST.fullmatch(asked.host)
        is_target = asked.target in self.words and NAME.fullmatch(asked.target)
        return Invocation(
            asked.user if is_user else self.other,
            asked.host if is_host else self.other,
            asked.target if is_target else self.other,
            self.path_of(asked.path),
            self.args_of(asked.args),
        )

    def path_of(self, path: str) -> str:
        if path in self.text and PATH.fullmatch(path) and len(path) <= MOST_PATH:
            return path
        folder = path.rpartition("/")[0] + "/"
        is_folder = folder in self.text and PATH.fullmatch(folder[:-1])
        return f"{folder if is_folder else '/'}{self.other}"

    def args_of(self, args: tuple[str, ...]) -> tuple[str, ...]:
        """sudo joins the arguments, and compares the text."""
        if not args:
            return ()
        text = " ".join(args)
        if text.translate(ESCAPES) in self.text:
            words = tuple(text.split(" "))
            if len(words) <= MOST_ARGUMENTS and all(map(ARGUMENT.fullmatch, words)):
                return words
        return (self.other,)

    def period(self, at: str) -> int:
        """Between which bounds a moment lies: all of one period are decided alike."""
        return bisect_right(self.bounds, at)


def first_moment(kind: str, moment: str) -> str:
    """The first moment that lies on the bound's other side; a moment and a letter comes after it,
    and before the next one."""
    return moment if kind == "BEFORE" else f"{moment}~"


class Question(NamedTuple):
    policy: Policy
    at: str
    asked: Invocation


class Desk:
    """The program, and what it answered."""

    def __init__(self, program: str, folder: str) -> None:
        self.program, self.folder = program, folder
        self.policies: dict[str, Policy] = {}
        self.known: dict[tuple[str, int, Invocation], bool] = {}

    def policy(self, text: str) -> Policy:
        found = self.policies.get(text)
        if found is None:
            path = os.path.join(self.folder, str(len(self.policies)))
            with open(path, "w", encoding="ascii") as file:
                file.write(text)
            found = self.policies[text] = Policy(path, text)
        return found

    def run(self, *words: str) -> "subprocess.CompletedProcess[str]":
        asked = [self.program, *words]
        try:
            return subprocess.run(asked, capture_output=True, text=True, check=False)
        except OSError as fault:
            raise NoDesk(f"{self.program}: {fault.strerror}") from None

    def decide(self, question: Question) -> bool:
        asked = question.asked
        words = [asked.user, asked.host, asked.target, question.at, asked.path, "--", *asked.args]
        ran = self.run("decide", question.policy.path, *words)
        if ran.returncode not in (0, 1):
            raise NoDesk(f"desk decide: {ran.stderr.strip()}")
        return ran.returncode == 0

    def answers(self, questions: Iterable[Question]) -> list[bool]:
        """What it decides about each: it is asked what is not known yet, some at a time."""
        keys, new = [], dict[tuple[str, int, Invocation], Question]()
        for it in questions:
            general = it.policy.general(it.asked)
            key = (it.policy.path, it.policy.period(it.at), general)
            keys.append(key)
            if key not in self.known:
                new.setdefault(key, it._replace(asked=general))
        with ThreadPoolExecutor(os.cpu_count()) as pool:
            self.known |= zip(new, pool.map(self.decide, new.values()), strict=True)
        return [self.known[key] for key in keys]

    def canonical(self, path: str) -> str:
        """A policy's canonical text."""
        ran = self.run("check", path)
        if ran.returncode:
            raise NoDesk(f"{path}: {ran.stderr.strip()}")
        return ran.stdout

    def beyond(self, policy: str, baseline: str, user: str) -> dict[str, str]:
        """One case that the policy allows the user and the baseline does not, if there is one; or
        the code of why that is not known."""
        ran = self.run("beyond", policy, baseline, "--user", user)
        if ran.returncode == 2 and UNKNOWN.match(ran.stderr):
            return {"code": ran.stderr.strip()}
        if ran.returncode not in (0, 1):
            raise NoDesk(f"{baseline}: {ran.stderr.strip()}")
        return {"witness": ran.stdout.strip()} if ran.returncode else {}
