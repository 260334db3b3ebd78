"""mydesk on a person's own machine, the relay, the door and the desk: whole, and with a relay
that lies."""

import json
import os
import shlex
import subprocess
import sys
from pathlib import Path

import pytest

from door.tests.doors import MYDESK, TOP, Doored, keygen
from door.tests.people import Person, behind_door, script
from steelnewt_client.signed import reason_digest

ASK = ("ask", "db-care", "--on", "db1", "--as", "root", "--for", "15m", "/usr/bin/id")


@pytest.fixture(scope="module")
def site(shared: Doored) -> Doored:
    behind_door(shared)
    return shared


@pytest.fixture
def signing(site: Doored) -> Doored:
    """The site, with numbers that no other test has."""
    site.block += 100
    config = site.site.config
    numbers = f"numbers = [{site.block + 1}, {site.block + 99}]"
    lines = [it for it in config.read_text().splitlines() if not it.startswith("numbers")]
    config.write_text("\n".join([numbers, *lines, ""]))
    for end in ("", "-wal", "-shm"):
        (site.folder / f"outbox.db{end}").unlink(missing_ok=True)
    return site


def named(signing: Doored, no: int = 1) -> tuple[str, str]:
    """Whose request, and its number, as mydesk wants them."""
    return "ann", str(signing.block + no)


def test_a_grants_life(signing: Doored) -> None:
    ann, bob = Person(signing, "ann"), Person(signing, "bob")
    said = ann.run(*ASK[:-1], "--why", "disk", ASK[-1])
    assert "ann as root on db1: 1 command, /usr/bin/id first, 15 minutes" in said
    name = " ".join(named(signing))
    assert f"Kept as {name}." in said and f"To approve it they write: mydesk approve {name}" in said
    said = bob.run("approve", *named(signing))
    assert "why       | disk" in said and "may run   /usr/bin/id" in said
    assert "The desk has your approval." in said
    assert signing.in_force()
    said = bob.run("revoke", *named(signing))
    assert "The desk has your revocation." in said
    rows = signing.came()
    assert [it["how"] for it in rows] == ["signed"] * 3
    assert rows[0]["why"] == rows[1]["why"] == reason_digest("disk", "")


def test_several_with_one_signature(signing: Doored) -> None:
    """One question, one touch."""
    ann, bob = Person(signing, "ann"), Person(signing, "bob")
    for _ in range(3):
        ann.run(*ASK)
    names = [it for no in (1, 2, 3) for it in named(signing, no)]
    said = bob.run("approve", *names)
    assert said.count("may run   /usr/bin/id") == 3 and "Sign these 3 as bob" in said
    assert len(signing.in_force()) == 3
    assert len({it["signature"] for it in signing.came() if '"approve"' in it["message"]}) == 1
    assert "there twice" in bob.run("revoke", *named(signing), *named(signing), status=2)


def test_several_by_a_span_and_a_reason_that_is_signed(signing: Doored) -> None:
    """A refusal's own reason is signed as a request's is; an approval is over the request's."""
    ann, bob = Person(signing, "ann"), Person(signing, "bob")
    for _ in range(3):
        ann.run(*ASK)
    first, last = named(signing, 1)[1], named(signing, 3)[1]
    said = bob.run("refuse", "ann", f"{first}-{last}", "--why", "not now, see OPS-9")
    assert said.count("| not now, see OPS-9") == 3 and "Sign these 3 as bob" in said
    rows = [it for it in signing.came() if '"refuse"' in it["message"]]
    assert {it["why"] for it in rows} == {reason_digest("not now, see OPS-9", "")}
    found = signing.site.data("ann", "mine")
    assert isinstance(found, list)
    ours = [it for it in found if not it["elsewhere"]]
    assert {it["verdicts"][0]["why"] for it in ours} == {"not now, see OPS-9"}
    ann.run(*ASK)
    whose, waits = named(signing, 4)
    assert "leave --why" in bob.run("approve", whose, waits, "--why", "yes", status=2)
    lying(signing, bob, 'told["why"] = "all is well"')
    said = bob.run("refuse", whose, waits, "--why", "not now", status=2)
    assert "another reason than you typed" in said


def test_the_words_of_the_night(signing: Doored) -> None:
    """What the relay chooses is shown; what is typed is what is signed."""
    ann = Person(signing, "ann")
    said = ann.run("ask", "/usr/bin/id", "--on", "db*", "--for", "9m", "--why", "disk of /var full")
    assert "on        db1" in said and "on        db2" in said and "under     db-care" in said
    said = ann.run("ask", "db-care", "--on", "db1", "--for", "8m", "--why", "disk /var", "--",
                   "/usr/bin/id", "--why", "x")  # fmt: skip
    assert "may run   /usr/bin/id --why x" in said and "| disk /var" in said
    assert "an option of yours" in ann.run("ask", "db-care", "--on", "db1", "--for", "8m",
                                           "/usr/bin/id", "--why", "x", status=2)  # fmt: skip
    assert "db9 is outside db-care" in ann.run(*[*ASK[:3], "db9", *ASK[4:]], status=2)
    ann.run("save", "pg", named(signing, 1)[1])
    assert "Kept as ann" in ann.run("ask", "pg")
    assert "The desk has your revocation." in ann.run("withdraw", named(signing, 1)[1])


def test_at_a_terminal(signing: Doored) -> None:
    """ssh has a terminal where the person has one, and data are never mixed with words."""
    ann = Person(signing, "ann")
    (ann.home / ".config" / "mydesk").write_text("desk = desk\n")
    (ann.home / "bin" / "ssh").write_text('#!/bin/sh\necho "$TERM" "$@"\n')
    for words, way in (((), "-t"), (("mine",), "-t"), (("mine", "--json"), "-T")):
        assert ann.typed(*words).startswith(f"dumb {way} -- desk"), words
    assert ann.run("mine").startswith("dumb -T -- desk mine")


def test_completions_ask_the_relay(signing: Doored) -> None:
    ann = Person(signing, "ann")
    assert ann.run("complete", "ask", "db-care", "--on", "").split() == ["all", "db1", "db2"]
    # in a real bash, by what the package installs
    pages = signing.folder / "pages"
    pages.mkdir()
    make = [sys.executable, str(TOP.parent / "scripts" / "make_pages.py"), str(pages)]
    subprocess.run(make, check=True, env=os.environ | {"PREFIX": "/usr"})
    (ann.home / "bin" / "mydesk").symlink_to(MYDESK)
    typed = "COMP_WORDS=(mydesk ask db-care --on d) COMP_CWORD=4; _mydesk; echo ${COMPREPLY[@]}"
    path = f"{ann.home}/bin:/usr/bin:/bin"
    ran = subprocess.run(
        ["bash", "-c", f"source {pages}/mydesk.bash; {typed}"],
        env={"HOME": str(ann.home), "PATH": path}, capture_output=True, text=True, check=True,
    )  # fmt: skip
    assert ran.stdout.split() == ["db1", "db2"], ran


def test_where_the_site_signs_nothing(signing: Doored) -> None:
    """Then it is ssh, with each word as it was typed, and nothing raw."""
    ann = Person(signing, "ann")
    (ann.home / ".config" / "mydesk").write_text("desk = desk\n")
    assert "at most 2 hours" in " ".join(ann.run("ceilings").split())
    odd = 'printf "%s\\033[2J\\342\\200\\256" "$SSH_ORIGINAL_COMMAND"'
    ann.relay(script(ann.home / "says", odd))
    said = ann.run("ask", "db-care", "--why", "it can't wait: /var", "--from", "tomorrow 09:00")
    quoted = """ask db-care --why 'it can'"'"'t wait: /var' --from 'tomorrow 09:00'"""
    assert said.startswith(quoted)
    assert said.endswith("\\x1b[2J\\u202e")


def test_a_key_is_enrolled(signing: Doored) -> None:
    """From a word that desk-signer makes to a message."""
    signing.new_key("nora")
    nora = Person(signing, "nora")
    word = signing.signer("enrol", "nora").splitlines()[0]
    (signing.folder / "line").write_text(nora.run("enrol", word))
    signing.signer("add", "nora", str(signing.folder / "line"))
    assert "say the word" in nora.run("enrol", "what", status=2)
    verdict = signing.verdict(by="nora", kind="revoke")
    assert signing.post(signing.sign("nora", verdict)) == "ack"


def test_a_yes_to_a_change(signing: Doored) -> None:
    text = signing.signer("agree", "roster", "0" * 64, status=3)
    path = signing.folder / "to-sign"
    path.write_text(text)
    bob = Person(signing, "bob")
    assert "Say yes to it as bob?" in bob.run("agree", str(path), given="n\n", status=1)
    said = bob.run("agree", str(path))
    assert text in said and "bob ssh:" in said
    path.write_text(text.replace("desk.example", "trial.example"))
    assert "another site" in bob.run("agree", str(path), status=2)
    path.write_text(f"{text}more\n")
    assert "no change that desk-signer wrote" in bob.run("agree", str(path), status=2)


def test_nothing_without_a_yes(signing: Doored) -> None:
    ann = Person(signing, "ann")
    for given in ("", "n\n", "\n"):
        assert "Nothing was signed" in ann.run(*ASK, given=given, status=1)
    assert signing.held() == []


def test_the_relay_takes_nothing_unsigned(signing: Doored) -> None:
    line = shlex.join(ASK)
    assert signing.site.run("ann", "mine").returncode == 0
    for words in (line, "approve ann 1 --yes", "revoke ann 1 --yes", "again --yes"):
        ran = signing.site.run("ann", words, given="y\n")
        assert ran.returncode == 2 and "write mydesk" in ran.stderr, ran
    assert signing.site.kept() == []


def test_only_what_was_prepared_for_oneself_is_sent(signing: Doored) -> None:
    ran = signing.site.run("ann", f"prepare {shlex.join(ASK)}")
    signed = signing.sign("ann", json.loads(ran.stdout)["items"][0]["message"])
    for person, line in (("bob", signed.line()), ("ann", signing.sign("ann", "{}").line())):
        ran = signing.site.run(person, "send", given=f"{line}\n")
        assert ran.returncode == 2 and "not prepared for you" in ran.stderr, ran
    odd = signing.sign("ann", signed.message, why="0" * 64)
    ran = signing.site.run("ann", "send", given=f"{odd.line()}\n")
    assert ran.returncode == 2 and "another reason" in ran.stderr, ran
    for line in (signed.message, "", f"{signed.line()}\t\t\tx"):
        ran = signing.site.run("ann", "send", given=f"{line}\n")
        assert ran.returncode == 2 and "no message with a signature" in ran.stderr, ran
    assert signing.site.run("ann", "send", given=f"{signed.line()}\n").returncode == 0
    assert signing.site.run("ann", "send", given=f"{signed.line()}\n").returncode == 0
    assert len(signing.held()) == 1


def test_with_an_agent_that_has_the_key_alone(signing: Doored) -> None:
    folder = signing.folder
    public = str(folder / "ann.pub")
    agent = subprocess.run(["ssh-agent", "-s"], capture_output=True, text=True, check=True).stdout
    socket = agent.partition("SSH_AUTH_SOCK=")[2].partition(";")[0]
    number = agent.partition("SSH_AGENT_PID=")[2].partition(";")[0]
    try:
        environment = {"SSH_AUTH_SOCK": socket, "PATH": "/usr/bin:/bin"}
        words = ["ssh-add", "-q", str(folder / "ann")]
        subprocess.run(words, env=environment, check=True, capture_output=True)
        (folder / "ann").rename(folder / "ann.away")
        ann = Person(signing, "ann", key=public)
        assert "Kept as ann " in ann.run(*ASK, SSH_AUTH_SOCK=socket)
        subprocess.run(["kill", number], check=True)
        assert "ssh-keygen did not sign it" in ann.run(*ASK, SSH_AUTH_SOCK=socket, status=2)
    finally:
        (folder / "ann.away").rename(folder / "ann")


def lying(signing: Doored, person: Person, change: str) -> None:
    """A relay that was taken over: it changes what it prepared, by a line of Python."""
    true = person.doored.site.config
    inside = f"""
import json, os, subprocess, sys
from steelnewt_relay.program import main
words = os.environ["SSH_ORIGINAL_COMMAND"]
if words.startswith("prepare"):
    ran = subprocess.run({signing.site.words(person.name)!r}, capture_output=True, text=True)
    whole = json.loads(ran.stdout)
    told = whole["items"][0]
    {change}
    whole["items"][0] = told
    print(json.dumps(whole))
    sys.exit(0)
sys.argv = {signing.site.words(person.name)!r}
sys.exit(main(sys.argv[1:]))
"""
    path = signing.folder / f"lying-{person.name}.py"
    path.write_text(inside)
    top = Path(__file__).resolve().parents[2]
    person.relay(f"env PYTHONPATH={top} /usr/bin/python3 -B {path}")
    assert true.exists()


@pytest.mark.parametrize(
    ("change", "said"),
    [
        ('told["message"] = told["message"].replace("ann", "bob")', "you are not that person"),
        ('told["message"] = told["message"].replace(",", ", ", 1)', "something that is no message"),
        ('told["message"] = told["message"].replace("db1", "db\\u202e1")', "cannot be shown"),
        ('told["message"] = told["message"].replace("root", "r\\u043eot")', "whose 'runas' is"),
        ('told["message"] = "7"', "something that is no message"),
        ('told["message"] = told["message"].replace("db1", "db2")', "another host"),
        ('told["message"] = told["message"].replace("db-care", "db-any")', "another ceiling"),
        ('told["message"] = told["message"].replace("root", "postgres")', "another target"),
        ('told["message"] = told["message"].replace("/usr/bin/id", "ALL")', "another command"),
        ('told["message"] = told["message"].replace("in/id", "in/id a")', "another command"),
        ('told["message"] = told["message"].replace(\'til":"20\', \'til":"21\')', "another window"),
        ('told["message"] = told["message"].replace(\'m":"202\', \'m":"203\')', "another window"),
        ('told["message"] = told["message"].replace(\'{"at":"202\', \'{"at":"201\')', "is not now"),
        ('told["message"] = told["message"].replace(\'{"at":"2\', \'{"at":"2999\')', "whose 'at'"),
        ('told["message"] = told["message"][:9] + "99" + told["message"][11:]', "is not now"),
        ('told = []', "something that is no message"),
        ('told["why"] = "all is well"', "another reason"),
        ('told["ticket"] = "OPS-1"', "another ticket"),
        ('print("x" * 100)', "something else"),
    ],
)  # fmt: skip
def test_a_relay_that_lies_to_the_asker(signing: Doored, change: str, said: str) -> None:
    ann = Person(signing, "ann")
    lying(signing, ann, change)
    assert said in ann.run(*ASK, status=2)
    assert signing.held() == []


@pytest.mark.parametrize(
    ("change", "said"),
    [
        # bob sees the harmless one, and signs it: at the desk is the other
        ('told["request"] = told["request"].replace("/usr/bin/id", "/usr/bin/w")', "OtherRequest"),
        ('told["message"] = told["message"].replace(\'"no":\', \'"no":9\')', "other verdicts"),
        ('told["why"] = "all is well"', "another reason or ticket"),
        ('whole["items"].append(told)', "other verdicts"),
        ('whole["items"] *= 65', "sent 65 messages"),
        ('told["message"] = told["message"].replace("revoke", "approve")', ""),
        ('told["request"] = None', "did not bring the request"),
        ('told["request"] = told["request"].replace(\'"no":\', \'"no":9\')', "another request"),
    ],
)  # fmt: skip
def test_a_relay_that_lies_to_the_approver(signing: Doored, change: str, said: str) -> None:
    ann, bob = Person(signing, "ann"), Person(signing, "bob")
    ann.run(*ASK)
    lying(signing, bob, change)
    told = bob.run("approve", *named(signing), status=2 if said else 0)
    assert said in told
    assert bool(signing.in_force()) == (not said)


def test_a_verdict_is_never_turned_round(signing: Doored) -> None:
    """Who types `revoke` never signs an approval."""
    ann, bob = Person(signing, "ann"), Person(signing, "bob")
    ann.run(*ASK)
    lying(signing, bob, 'told["message"] = told["message"].replace("revoke", "approve")')
    assert "other verdicts than you typed" in bob.run("revoke", *named(signing), status=2)


def test_a_relay_that_writes_to_the_terminal(signing: Doored) -> None:
    """No escape of a terminal's, and no letter that is not seen, is passed on from anywhere."""
    ann, bob = Person(signing, "ann"), Person(signing, "bob")
    ann.run(*ASK)
    odd = "\\x1b[8m\\x1b[2J\\r\\u202e"
    change = f'told["notes"] = ["{odd}"]; print("{odd}", file=sys.stderr)'
    lying(signing, bob, change)
    said = bob.run("approve", *named(signing))
    assert said.isprintable() or all(it.isprintable() for it in said.splitlines())
    assert "\\x1b[8m" in said
    lying(signing, bob, f'print("{odd}"); sys.exit(1)')
    said = bob.run("revoke", *named(signing), status=2)
    assert all(it.isprintable() for it in said.splitlines()) and "\\x1b[8m" in said


def test_what_is_typed_is_what_is_signed(signing: Doored) -> None:
    ann = Person(signing, "ann")
    for words in (
        ("--on", "db1,db2", "--as", "root", "--for", "1h30m", "/usr/bin/id"),
        ("--on=db1", "--on", "db2", "--as=root", "--until", "+1h", "/usr/bin/id", "--and",
         "/usr/local/sbin/a", "x=1", "b,c", "--and", "/usr/local/sbin/b", ""),
        ("--why", "/var", "and", "ALL", "is", "down", "--on", "db1", "--as", "root", "--for", "9m",
         "/usr/bin/id"),
        ("--why", "all", "is", "down", "--on", "db1", "--as", "postgres", "--for", "10m",
         "/usr/bin/systemctl", "restart", "postgresql"),
    ):  # fmt: skip
        assert "Kept as ann" in ann.run("ask", "db-care", *words)


def test_a_number_is_signed_once(signing: Doored) -> None:
    """A relay that gives a number twice could have two requests dispute each other at will."""
    ann = Person(signing, "ann")
    ann.run(*ASK)
    _, no = named(signing)
    inside = f"told[\"message\"] = re.sub('\"no\":[0-9]+', '\"no\":{no}', told[\"message\"])"
    lying(signing, ann, f"import re; {inside}")
    other = (*ASK[:-2], "16m", ASK[-1])  # the same words in the same second are the same message
    assert f"you signed another request ann {no} before" in ann.run(*other, status=2)


def test_words_are_passed_on_whole(signing: Doored) -> None:
    """What a person types reaches the relay as it was typed, whatever a shell would make of it."""
    ann = Person(signing, "ann")
    said = ann.run(*ASK[:-1], "--why", "it's $(id) `id` \"down\"", "/usr/local/sbin/w", "a:b")
    assert "may run   /usr/local/sbin/w a:b" in said
    kept = signing.site.data("ann", "mine")
    assert isinstance(kept, list) and kept[0]["why"] == "it's $(id) `id` \"down\""


def test_settings(signing: Doored) -> None:
    ann = Person(signing, "ann")
    file = ann.home / ".config" / "mydesk"
    file.write_text("desk = desk\nsite = desk.example\n")
    assert "say person, key" in ann.run(*ASK, status=2)
    file.write_text("nonsense\n")
    assert "is no setting" in ann.run(*ASK, status=2)
    file.unlink()
    words = ("--site", "desk.example", "--person", "ann", "--key", str(signing.folder / "ann"))
    assert "Kept as ann " in ann.run(*words, *ASK)
    said = ann.run(*words, "key")
    assert " ".join((signing.folder / "ann.pub").read_text().split()[:2]) in said
    assert "SHA256:" in said
    assert "prepared nothing" in ann.run(*words, *ASK, status=2, PATH=away(ann))


def away(person: Person) -> str:
    """A path on which ssh fails."""
    folder = person.home / "away"
    folder.mkdir()
    script(folder / "ssh", "exit 255")
    return f"{folder}:/usr/bin:/bin"


def test_a_sealed_key(signing: Doored) -> None:
    """A key for break-glass: it needs words, which lie in an envelope of their own."""
    sealed = signing.folder / "sealed"
    words = "horse battery staple seven old boats"
    keygen("-t", "ed25519", "-N", words, "-C", "sealed", "-f", str(sealed))
    signing.add("carol", f"{sealed}.pub")
    carol = Person(signing, "carol", key=str(sealed))
    asks = script(carol.home / "asks", f"echo {words}")
    more = {"SSH_ASKPASS": asks, "SSH_ASKPASS_REQUIRE": "force"}
    said = carol.run("revoke", *named(signing), status=0, **more)
    assert "The desk has your revocation." in said
    more["SSH_ASKPASS"] = script(carol.home / "asks-else", "echo no")
    assert "did not sign it" in carol.run("revoke", *named(signing, 2), status=2, **more)
    sealed.unlink()
