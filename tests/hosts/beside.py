"""What the desk reads, decides and prints, beside the sudo of each root: 500 random policies, the
bounds of moments, texts of odd words, and 200 hosts' files of odd words: for hosts.py.

The questions are those of `make peers`. The desk answers them once, before any root is entered;
then a root's visudo reads all texts in one run, its cvtsudoers all hosts' files in another, and its
sudo is asked the rest by one program in the root (sudo_answers.py).
"""

from __future__ import annotations

import concurrent.futures
import json
import os
import random
import shutil
import tempfile
from typing import NamedTuple

from tests.common import desk
from tests.common.random_policies import FILES, TARGETS, USERS, alias_policy
from tests.common.sudo_peer import passwd_of, put_commands
from tests.hosts.root import SUDOERS, Host
from tests.peers import peers_requests
from tests.peers.policies import dated, invocation
from tests.peers.sudo import odd_text

POLICIES, BOUNDS, ODD, SITES, ASKED = 500, 50, 400, 20, 125
ANSWERS = os.path.join(os.path.dirname(__file__), "sudo_answers.py")
Asked = tuple[str, list[str]]  # a text, and the words of an invocation


class Gathered(peers_requests.Run):
    """The hosts' files that the desk makes, and the questions about them to sudo."""

    def __init__(self, folder: str) -> None:
        super().__init__(folder, {})
        self.texts: list[str] = []
        self.wanted: list[peers_requests.Line] = []
        self.questions: list[Asked] = []
        self.text = ""

    def site(self, site: peers_requests.Site) -> None:
        """One served desk is told all, and asked for each file: it reads each message once."""
        roster, base = desk.write(self.folder, "roster", site.roster()), desk.write(
            self.folder, "base", ""
        )
        with desk.Server(program=desk.PROGRAM, roster=roster, base=base) as server:
            for message in site.messages():
                posted = desk.posted(b"r", message.encode())
                self.accepted += desk.exchange(server.port, posted).endswith(b"\r\n\r\nack\n")
            for host in sorted({q.host for q in site.requests}):
                asked = desk.asked(b"GET", f"/v1/hosts/{host}/sudoers".encode())
                reply = desk.exchange(server.port, asked)
                self.host(site, host, reply.partition(b"\r\n\r\n")[2].decode())

    def host(self, site: peers_requests.Site, host: str, text: str) -> None:
        self.texts.append(text)
        self.wanted += site.lines(host)
        self.asks.append((text, [q for q in site.requests if q.host == host]))

    def compare(
        self,
        policy: str,
        q: peers_requests.Request,
        moment: int,
        command: peers_requests.Command,
        wanted: bool,
    ) -> None:
        path, args = command
        words = [q.by, q.host, q.runas, desk.stamp(moment), path, *(args or [])]
        self.questions.append((desk.read(policy), words))


class Questions(NamedTuple):
    """All questions to a root's sudo, and the desk's answers."""

    users: list[str]
    commands: list[str]  # by their paths below /srv
    texts: list[str]  # which visudo has to accept
    files: list[str]  # which cvtsudoers has to read as these lines
    lines: list[peers_requests.Line]
    asked: list[Asked]
    answers: list[bool]
    taken: int  # how many messages the desk took


def policies() -> list[Asked]:
    """Policies of nested aliases, each with an invocation, and a second around each bound."""
    rng = random.Random(1)
    found = [(alias_policy(rng), invocation(rng)) for _ in range(POLICIES)]
    for _ in range(BOUNDS):
        text, moment = dated(rng)
        stamps = [desk.stamp(at) for at in (moment - 1, moment, moment + 1)]
        found += [(text, ["ann", "db1", "root", stamp, FILES[0]]) for stamp in stamps]
    return found


def odd_texts() -> list[str]:
    """The canonical texts of the random texts of odd words that the desk reads. Each alias has
    another name, since they are to stand beside one another."""
    rng = random.Random(1)
    found = []
    with tempfile.TemporaryDirectory() as folder:
        for number in range(ODD):
            path = desk.write(folder, "odd", odd_text(rng))
            canonical = desk.run([*desk.PROGRAM, "check", path]).stdout
            found.append(canonical.replace("_Alias X = ", f"_Alias X{number} = "))
    return [text for text in found if text]


def decided(asked: Asked) -> bool:
    """What the desk answers."""
    text, words = asked
    with tempfile.TemporaryDirectory() as folder:
        policy = desk.write(folder, "policy", text)
        answer = desk.run([*desk.PROGRAM, "decide", policy, *words[:5], "--", *words[5:]])
    if answer.returncode not in (0, 1):
        raise ValueError(f"the desk fails: {text}{words}: {answer.stdout}{answer.stderr}")
    return answer.returncode == 0


def gathered() -> Questions:
    words = peers_requests.Words(1)
    sites = [peers_requests.Site(words, number) for number in range(SITES)]
    commands = peers_requests.lie_below_srv(sites)
    with tempfile.TemporaryDirectory() as folder:
        ran = Gathered(folder)
        for site in sites:
            ran.site(site)
        ran.asks = peers_requests.only_there(ran.asks, commands)
        ran.ask_some(random.Random(2), os.path.join(folder, "asked"), ASKED)
    people = {name for site in sites for name in [*site.people, *site.targets]}
    asked = policies() + ran.questions
    with concurrent.futures.ThreadPoolExecutor(os.cpu_count()) as pool:
        answers = list(pool.map(decided, asked))
    return Questions(
        users=sorted(people | {*USERS, *TARGETS}),
        commands=[*commands, *(it.removeprefix("/srv/") for it in FILES)],
        texts=odd_texts() + ran.texts,
        files=ran.texts,
        lines=ran.wanted,
        asked=asked,
        answers=answers,
        taken=ran.accepted,
    )


def written(folder: str) -> str:
    """The path of the questions, with the desk's answers."""
    desk.PROGRAM[:] = [os.environ.get("DESK", desk.PROGRAM[0])]
    return desk.write(folder, "questions", json.dumps(gathered()))


def beside(host: Host) -> None:
    """What the desk reads, decides and prints, by this root's sudo."""
    if not host.is_fit:
        return
    questions = Questions(*json.loads(desk.read(os.environ["QUESTIONS"])))
    wanted = SITES * peers_requests.REQUESTS * 2
    host.check("the desk takes every message", questions.taken == wanted, str(questions.taken))
    host.drop(*os.listdir(host.path("/etc/sudoers.d")))
    accepted(host, questions)
    read_alike(host, questions)
    put_commands(host.path("/srv"), questions.commands)
    host.write("/etc/passwd", passwd_of(questions.users))
    host.write("/etc/nsswitch.conf", "passwd: files\ngroup: files\nhosts: files\n")
    decided_alike(host, questions)


def accepted(host: Host, questions: Questions) -> None:
    """One visudo reads all texts, each in a file of its own."""
    for number, text in enumerate(questions.texts):
        host.put(f"text{number}", text)
    ran = host.run("visudo", "-c")
    fine = [line for line in ran.stdout.splitlines() if line.endswith(": parsed OK")]
    wrong = "\n".join(sorted({*ran.stdout.splitlines()} - {*fine})[:20])
    is_right = ran.returncode == 0 and len(fine) == len(questions.texts) + 1
    host.check(f"visudo accepts {len(questions.texts)} texts", is_right, wrong)
    host.drop(*os.listdir(host.path("/etc/sudoers.d")))


def read_alike(host: Host, questions: Questions) -> None:
    """cvtsudoers reads the hosts' files, line by line, as they were asked for."""
    ran = host.run("env", "TZ=UTC", "cvtsudoers", "-f", "json", given="".join(questions.files))
    wanted = [tuple(it) for it in questions.lines]
    found = peers_requests.specified(ran.stdout) if ran.returncode == 0 else ran.stdout
    difference = peers_requests.first_difference(wanted, found)
    host.check(f"{len(wanted)} lines of hosts' files", not difference, str(difference))


def decided_alike(host: Host, questions: Questions) -> None:
    """The host's sudo allows what the desk allows."""
    shutil.copy(ANSWERS, host.path("/tmp/sudo_answers.py"))
    given = json.dumps([[text, *words] for text, words in questions.asked])
    said = host.run("python3", "/tmp/sudo_answers.py", given=given).stdout
    host.write("/etc/sudoers", SUDOERS)
    answers = json.loads(said) if said.startswith("[") else []
    host.check("all are answered", len(answers) == len(questions.asked), said[:600])
    for (text, words), (status, said), is_allowed in zip(
        questions.asked, answers, questions.answers
    ):
        is_right = status == (0 if is_allowed else 1) and "error" not in said
        host.check(f"{text}{' '.join(words)}", is_right, f"{status} {said}, the desk {is_allowed}")
    allowed = questions.answers.count(True)
    print(f"{host.name}: its sudo answers {len(answers)} questions, {allowed} of them allowed")


PARTS = (beside,)
