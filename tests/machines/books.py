"""docs/RUNBOOKS.md on machines that boot: a desk with a relay and a front, and a host.
`python3 -m tests.machines.books [FOLDER [NAME ..]]` takes the packages of a folder (build/deb).
Each heading of the page has the function of its name here, or in team.py.

apt, systemd, ssh with an agent, nginx, sudo and full disks are real. What is stood in for: whoever
edits a file (`editor` puts the new text there), whoever says yes, and a mailbox (`sendmail`). What
the pages' own test tries of a copy, a key or an authority is left to it
(tests/documents/check_runbooks.py).
"""

from __future__ import annotations

import calendar
import os
import re
import sys
import tempfile
import time
from collections.abc import Callable

from tests.common import desk
from tests.documents.check_runbooks import PREAMBLE, granted_now, near, section, with_lines
from tests.documents.check_runbooks import blocks as blocks_of
from tests.machines import sites
from tests.machines.lives import ASK, DEBS, EXAMPLES, Life, in_a_room, later
from tests.machines.machine import Site, lacks

CA = f"sh {EXAMPLES}/front-ca.sh /etc/desk/front"
SSH = f"Host desk\n    HostName localhost\n    User desk-relay\nHost *\n{sites.QUICK}"
MAY = "sudo -n -l -U ann -u root --"
SERVED = ("desk.service", "desk-relay-post.service")
FULL = "head -c 99M /dev/zero > /mnt/small/filler"
ASKS = "ask db-care --on db1 --as root --for 1h --yes --again /usr/bin/id"
PEOPLE = ("ann", "bob", "carol", "dave")


class Books:
    """The machines, and what was tried on them."""

    def __init__(self, site: Site, source: str) -> None:
        self.desk, self.host = site.machine("desk.example"), site.machine("db1")
        self.life = Life(self.desk)
        for it in (self.desk, self.host):
            it.boot()
            sites.bring(it, source, "/root/now")
        sites.names(site)
        later(source, self.desk.path(sites.DEBS))
        self.furnish()

    def furnish(self) -> None:
        """What OPERATING and RELAYS have an administrator do."""
        on, at = self.desk, self.host
        self.does("the packages", "cd /root/now && apt install ./*.deb")
        on.run("rm -f /usr/sbin/sendmail; mkdir -p /usr/local/bin")
        on.write("/usr/sbin/sendmail", sites.SENDMAIL, 0o755)
        on.write("/usr/local/bin/editor", sites.EDITOR, 0o755)
        on.run(f"cd {EXAMPLES} && cp roster.toml /etc/desk/ && cp site.sudo /etc/desk/base.sudo")
        # (ann 7 of the page comes past the relay, whose own numbers begin behind it)
        on.run("sed -i '/^.page/,$d; s/^numbers = .1,/numbers = [21,/' /etc/desk/relay.toml")
        on.run(f"cp {EXAMPLES}/nginx/desk.conf /etc/nginx/conf.d/")
        made = f"{CA} init && {CA} server desk.example && {CA} host db1 && {CA} auditor carol"
        made += f" && {CA} relay chat"
        self.does("the front", f"{made} && systemctl enable --now nginx")
        self.does("the desk and its relay", f"systemctl enable --now {' '.join(SERVED)}")
        sites.sshd(on)
        sites.sshd(at)
        sites.trust(at, sites.key_of(on))
        on.write("/root/.ssh/config", SSH)
        for person in PEOPLE:
            on.run(f"ssh-keygen -q -t ed25519 -N '' -f /root/{person}")
            self.does(f"{person}'s key", f"desk-relay-person add {person} /root/{person}.pub")
        ran = at.run("cd /root/now && apt install ./steelnewt-host_*.deb; useradd ann; useradd dba")
        self.life.holds("the host's package", ran.returncode == 0, ran)
        self.does("the host's files", "cd /etc/desk/front && scp ca.pem db1:/etc/desk/ca.pem &&"
                  " scp host-db1.pem db1:/etc/desk/host.pem &&"
                  " scp -p host-db1.key db1:/etc/desk/host.key")
        ran = at.run("systemctl enable --now desk-fetch@db1.timer; systemctl start desk-fetch@db1")
        self.life.holds("it fetches", ran.returncode == 0, ran)

    def does(self, what: str, script: str, says: str = "") -> str:
        return self.life.does(what, script, says)

    def holds(self, what: str, is_right: bool, found: object = "") -> None:
        self.life.holds(what, is_right, found)

    def follow(
        self, heading: str, at: int, before: str = "", given: str = "", number: str = "1"
    ) -> desk.Run:
        """Runs a block of the page behind its first lines, with the number that ann was given."""
        block = blocks_of(section(heading), "sh")[at].replace(" ann 1 ", f" ann {number} ")
        return self.desk.run(f"{PREAMBLE}{before}\n{block}", given=given)

    def post(self, *messages: str) -> None:
        for message in messages:
            said = self.desk.out(f"{ASK}/v1/relays/chat/messages --data-binary '{message}'")
            self.holds("the desk takes it", said == "ack", said)

    def as_person(self, person: str, words: str) -> desk.Run:
        """What a person says to the relay by ssh, with their own key alone."""
        own = f"-o IdentitiesOnly=yes -o IdentityAgent=none -i /root/{person}"
        return self.desk.run(f"ssh {own} desk {words}")

    def may(self, command: str) -> bool:
        return self.host.holds(f"{MAY} {command}")

    def number(self, said: str) -> str:
        found = re.search(r"Kept as \w+ (\d+)\.", said)
        return found[1] if found else "0"


ROSTER = "/etc/desk/roster.toml"
HISTORY = "/var/lib/desk/history"


def change(books: Books, text: str) -> None:
    """The runbook's one command, and whoever edits the file and says yes: the desk serves on."""
    before = books.life.pid("desk.service")
    books.desk.write("/root/edited", text)
    done = books.follow("A roster is changed", 0, given="y\n")
    books.holds("it is changed", "serves the new roster" in done.stdout, done)
    books.holds("the desk serves on", books.life.pid("desk.service") == before != "0", before)


def a_roster_is_changed(books: Books) -> None:
    """And back, by the earlier roster and one line more: the host takes a file of each."""
    before = books.desk.read(ROSTER)
    change(books, before.replace('["db1", "db2", "web1"]', '["db1", "db2"]', 1))
    books.holds("the host fetches", books.host.holds("systemctl start desk-fetch@db1"))
    earlier = books.desk.out(f"cat $(ls -d {HISTORY}/*Z | tail -n 2 | head -n 1)/roster.toml")
    books.holds("the history has the earlier one", earlier == before.rstrip("\n"), earlier)
    change(books, f"{earlier}\n# as before\n")
    done = books.host.run("systemctl start desk-fetch@db1")
    books.holds("the host goes along", done.returncode == 0, done)


def day(after: int) -> str:
    return time.strftime("%Y%m%d", time.gmtime(time.time() + after * 86_400))


def moved(block: str, first: str) -> str:
    """The lines of a page with other days, of which `first` is today."""
    begin = calendar.timegm(time.strptime(first, "%Y%m%d"))

    def other(found: re.Match[str]) -> str:
        return day((calendar.timegm(time.strptime(found[0], "%Y%m%d")) - begin) // 86_400)

    return re.sub(r"20261\d{3}", other, block)


def somebody_leaves(books: Books) -> None:
    """At once, the logins and the key; and from the last day on, the duties. (The next change of
    the roster has them back.)"""
    at = books.host
    at.run("install -d -m 0700 -o ann /home/ann /home/ann/.ssh")
    at.write("/home/ann/.ssh/authorized_keys", books.desk.read("/root/ann.pub"))
    at.run("chown -R ann: /home/ann; chsh -s /bin/bash ann")
    books.desk.run("setsid ssh -i /root/ann ann@db1 sleep 600 > /dev/null 2>&1 < /dev/null &")
    books.holds("ann has a login", at.wait("pgrep -u ann sleep", 60))
    (word,) = re.findall(r"`(loginctl [^`]*)`", section("Somebody leaves"))
    at.run(word)
    books.holds("it is ended", at.wait("! pgrep -u ann sleep", 30), at.out("loginctl"))
    (line,) = blocks_of(section("Somebody leaves"), "toml")
    change(books, with_lines(moved(line, "20261126")))
    done = books.as_person("ann", ASKS)
    books.holds("who left asks for nothing", "To approve it" not in done.stdout, done)
    books.does("the key is taken away", "desk-relay-person remove ann")
    done = books.as_person("ann", "mine")
    books.holds("and nobody calls by it", done.returncode == 255, done)
    books.does("it is given again", "desk-relay-person add ann /root/ann.pub")


def on_call_rotation(books: Books) -> None:
    """Whose week it is approves, and whoever had the duty before does not."""
    (lines,) = blocks_of(section("On-call rotation"), "toml")
    change(books, with_lines(moved(lines, "20261130")))
    number = books.number(books.as_person("ann", ASKS).stdout)
    done = books.as_person("carol", f"approve ann {number} --yes")
    books.holds("next week's approves nothing", "It is in force from" not in done.stdout, done)
    done = books.as_person("bob", f"approve ann {number} --yes")
    books.holds("this week's approves", "It is in force from" in done.stdout, done)
    books.as_person("bob", f"revoke ann {number} --yes")


def a_right_has_to_end_now(books: Books) -> None:
    books.post(*granted_now())
    books.host.run("systemctl start desk-fetch@db1")
    books.holds("ann may before it", books.may("/usr/bin/id"))
    done = books.follow("A right has to end now", 0)
    lines = done.stdout.splitlines()
    books.holds("the desk takes it", lines[:1] == ["ack"], done)
    books.holds("sudo on the host says 1", lines[-1:] == ["1"], done)


def people_are_told(books: Books) -> None:
    """Who acts is told what hosts know, and may ask again for what was taken away."""
    ask = ASKS.replace(" --again", "")
    number = granted(books)
    done = books.as_person("bob", f"revoke ann {number} --yes")
    told = "Each host takes it away with its next fetch, within 5 minutes" in done.stdout
    books.holds("who revokes is told of the hosts", told, done)
    done = books.as_person("ann", ask)
    books.holds("what was revoked is asked for again", "Kept as ann" in done.stdout, done)
    done = books.as_person("ann", ask)
    books.holds("and twice is a slip", "the same just now" in done.stdout, done)
    books.desk.run("ssh-keygen -q -t ed25519 -N '' -f /root/zed")
    done = books.desk.run("desk-relay-person add zed /root/zed.pub")
    books.holds("a name that the roster lacks", "nobody whose name is zed" in done.stderr, done)


def the_desk_is_down_and_a_right_is_needed(books: Books) -> None:
    """The line for the night is a host's, whose sudo asks nobody."""
    books.desk.run("systemctl stop desk")
    block = blocks_of(section("The desk is down and a right is needed"), "sh")[0]
    done = books.host.run(block)
    books.holds("visudo takes the line", "parsed OK" in done.stdout, done)
    books.holds("the right is there", books.may("/usr/bin/systemctl restart postgresql"), done)
    books.host.run("rm /etc/sudoers.d/zz-break-glass")
    books.does("the desk is back", "systemctl start desk")


def nobody_can_approve(books: Books) -> None:
    """An envelope, whose key approves though an agent offers one's own first."""
    heading, on = "Nobody can approve", books.desk
    envelope = on.read(f"{EXAMPLES}/break-glass.toml").replace(
        "[people]\n", '[people]\nann = ["on-call"]\n'
    )
    on.write("/root/edited", envelope)
    done = books.follow(heading, 0, given="y\n")
    books.holds("the envelope is added", "serves the new roster" in done.stdout, done)
    (notify,) = blocks_of(section(heading), "toml")
    on.write("/etc/desk/relay.toml", f"{on.read('/etc/desk/relay.toml')}\n{notify}")
    on.write("/etc/desk/bells", "bob robert@site\ndave dave@site\nann ann@site\n")
    done = books.follow(heading, 1)
    phrase = re.search(r"for the envelope: (\S{24})\n", done.stdout)
    books.holds("the envelope", phrase is not None, done)
    books.does("who tells people", "systemctl is-active desk-relay-notify")
    # (whoever breaks the envelope types the phrase)
    on.write("/root/types", f"#!/bin/sh\necho '{phrase[1] if phrase else ''}'\n", 0o755)
    typed = "export SSH_ASKPASS=/root/types SSH_ASKPASS_REQUIRE=force\n"
    agent = f"{typed}eval $(ssh-agent) > /dev/null; ssh-add -q /root/ann\n"
    box = "runuser -u desk-relay -- sqlite3 /var/lib/desk-relay/outbox.db"
    number = on.out(f"{box} \"SELECT coalesce(max(last), 20) + 1 FROM numbers"
                    " WHERE person = 'ann'\"")
    done = books.follow(heading, 2, agent, number=number)
    books.holds("the key approves", "You are glass." in done.stdout, done)
    other = on.run(f"{agent}ssh -i /root/glass desk approve ann {number} --yes")
    books.holds("whom an agent makes of one is named", "You are ann." in other.stdout, other)
    books.holds("what hosts know", "Each host has it with its next fetch" in done.stdout, done)
    books.holds("everything on the host", books.may("/usr/bin/env"), done)
    # (what follows the request itself)
    on.wait(f"grep -q 'Re: .desk. BREAK-GLASS: ann: root on db1' {sites.MAILS}", 60)
    rung = on.out(f"cat {sites.MAILS}")
    books.holds("the bells", all(f"{it}@site" in rung for it in ("robert", "dave", "ann")), rung)
    done = books.follow(heading, 3, agent, number=number)
    books.holds("it ends", not books.may("/usr/bin/env"), done)
    done = books.follow(heading, 4)
    told = "glass counts" in done.stdout and "nobody answers" in done.stdout
    books.holds("it is reviewed", done.returncode == 0 and told, done)


def a_key_is_lost(books: Books) -> None:
    """A host's key; and a relay that has none, since it posts at the desk's socket."""
    heading = "A key is lost"
    done = books.follow(heading, 0)
    books.holds("the old key reads no more", done.stdout.startswith("403\n"), done)
    late = books.host.run("systemctl start desk-fetch@db1")
    books.holds("the host's is the old one", late.returncode != 0, late)
    books.does("a new one", "cd /etc/desk/front && scp host-db1.pem db1:/etc/desk/host.pem &&"
               " scp -p host-db1.key db1:/etc/desk/host.key && nginx -t && systemctl restart nginx"
               " && ssh db1 systemctl start desk-fetch@db1")
    a_relays_key(books)
    the_authority(books)
    page = " ".join(section(heading).split())
    ends = re.findall(r"`((?:systemctl disable|usermod|deluser) [^`]*desk-[^`]*)`", page)
    books.holds("what ends a relay's account", len(ends) == 3, ends)
    books.does("the relay is stopped", " && ".join(ends))
    done = books.as_person("ann", "mine")
    books.holds("nobody calls", done.returncode != 0 and "ann" not in done.stdout, done)
    past = books.desk.run(f"runuser -u desk-relay -- {ASK}/v1/count")
    books.holds("nor opens the desk's socket", past.returncode != 0, past)
    books.desk.run("chage -E -1 desk-relay; adduser desk-relay desk-front;"
                   " systemctl enable --now desk-relay-post")
    books.does("it is let in again", "systemctl is-active desk-relay-post")


def a_relays_key(books: Books) -> None:
    """What was forged by the key alone is found."""
    on, forged = books.desk, desk.approval(60, at=near(0))
    post = "curl -sS --cert relay-chat.pem --key relay-chat.key --cacert ca.pem --data-binary"
    target = "https://desk.example/v1/relays/chat/messages"
    said = on.out(f"cd /etc/desk/front && {post} '{forged}' {target}")
    books.holds("the desk takes what is forged", said == "ack", said)
    on.run("cp /etc/desk/front/relay-chat.* /root")
    done = books.follow("A key is lost", 1)
    books.holds("what is forged is found", forged in done.stdout.splitlines(), done)
    said = on.out(f"cd /root && cp /etc/desk/front/ca.pem . && {post} '{forged}' {target}")
    books.holds("the old key posts no more", said != "ack", said)


def the_authority(books: Books) -> None:
    """Everybody has a new certificate, and the host fetches by its own."""
    done = books.follow("A key is lost", 2)
    books.holds("the authority is replaced", done.returncode == 0, done)
    late = books.host.run("systemctl start desk-fetch@db1")
    books.holds("the host's is of the old one", late.returncode != 0, late)
    books.does("what the host gets", "cd /etc/desk/front && scp ca.pem db1:/etc/desk/ca.pem && scp"
               " host-db1.pem db1:/etc/desk/host.pem && scp -p host-db1.key db1:/etc/desk/host.key"
               " && ssh db1 systemctl start desk-fetch@db1")


def small_disk(books: Books, folders: tuple[str, ...]) -> None:
    """Puts folders onto one small disk, as a site of one disk has them."""
    script = "systemctl stop desk desk-relay-post desk-relay-notify; mkdir -p /mnt/small;"
    script += " mount -t tmpfs -o size=40m,mode=755 none /mnt/small;"
    for it in folders:
        name = os.path.basename(it)
        script += f" cp -a {it} /mnt/small/ && mount --bind /mnt/small/{name} {it};"
    books.desk.run(f"{script} systemctl start desk desk-relay-post")
    books.desk.wait("test -s /mnt/small/desk/reserve", 30)


def large_disk(books: Books, folders: tuple[str, ...]) -> None:
    script = "systemctl stop desk desk-relay-post desk-reserve.socket;"
    for it in folders:
        name = os.path.basename(it)
        script += f" umount {it}; cp -a /mnt/small/{name}/. {it}/;"
    books.desk.run(f"{script} umount -l /mnt/small; systemctl start desk desk-relay-post")


def granted(books: Books) -> str:
    """A request of ann's by ssh that is granted: its number."""
    asked = books.as_person("ann", ASKS)
    number = books.number(asked.stdout)
    done = books.as_person("bob", f"approve ann {number} --yes")
    books.holds("it is granted", "It is in force from" in done.stdout, (asked, done))
    return number


def use_up(books: Books, is_shared: bool) -> None:
    """Fills the disk, and then what the logs of the desk and of the relay have left in them."""
    books.desk.run(FULL)
    said = ""
    for no in range(100, 400):
        message = desk.approval(no, at=near(0))
        said = books.desk.out(f"{ASK}/v1/relays/chat/messages --data-binary '{message}'")
        if said != "ack":
            break
    books.holds("the desk's disk is full", said == "K4 Storage", said)
    asked = books.as_person("ann", ASKS)
    for _ in range(40):
        if "Kept" not in asked.stdout or not is_shared:
            break
        asked = books.as_person("ann", ASKS)
    is_kept = "not yet at the desk" in asked.stdout
    books.holds("a request meanwhile", is_kept != is_shared, asked)


def ends_on_a_full_disk(books: Books, number: str, what: str) -> None:
    """Nothing is kept but what takes a right away, and people read."""
    on = books.desk
    done = books.as_person("ann", "mine")
    books.holds(f"{what}: people read", f"ann {number}" in done.stdout, done)
    done = books.as_person("bob", f"revoke ann {number} --yes")
    is_kept = "The desk has your revocation." in done.stdout or "It is kept here" in done.stdout
    books.holds(f"{what}: it is kept", is_kept, done)
    # (the desk may just be opening its store again)
    grants = f"{ASK}/v1/grants/$(date -u +%Y%m%d%H%M%SZ) > /tmp/g && ! grep '^ann {number} ' /tmp/g"
    books.holds(f"{what}: it is over", on.wait(grants, 30), done)
    late = books.as_person("carol", ASKS)
    books.holds(f"{what}: nothing else comes in", "To approve it" not in late.stdout, late)


def the_disk_is_full(books: Books) -> None:
    """One disk of the desk and its relay, whose units start anew on it; then the desk's alone."""
    on, folders = books.desk, ("/var/lib/desk", "/var/lib/desk-relay")
    small_disk(books, folders)
    number = granted(books)
    use_up(books, True)
    done = books.follow("The disk is full", 0)
    books.holds("what is seen", "100%" in done.stdout, done)
    on.run("systemctl restart desk-relay-post")
    ends_on_a_full_disk(books, number, "one disk")
    # (whichever of the two reserves was given up)
    watch = "/usr/lib/nagios/plugins/check_desk --outbox /var/lib/desk-relay/outbox.db"
    watch += " --store /var/lib/desk/desk.db"
    found = on.run(watch)
    told = found.returncode == 2 and "refusals and revocations alone" in found.stdout
    books.holds("check_desk sees it", told, found)
    on.run("rm /mnt/small/filler")
    on.wait("test -s /mnt/small/desk-relay/reserve && test -s /mnt/small/desk/reserve", 60)
    found = on.run(watch)
    books.holds("once there is room", "refusals and revocations" not in found.stdout, found)
    large_disk(books, folders)
    small_disk(books, folders[:1])
    number = granted(books)
    use_up(books, False)
    ends_on_a_full_disk(books, number, "the desk's own")
    books.holds("its reserve is given up", on.holds("test -e /run/desk-reserve/free"))
    door = "curl -sS -m 9 --unix-socket /run/desk-reserve/socket http://desk"
    shut = on.run(f"runuser -u nobody -- {door}")
    books.holds("nobody has it given up", shut.returncode == 7, shut)
    on.run("rm /mnt/small/filler")
    is_posted = on.wait("runuser -u desk-relay -- sqlite3 /var/lib/desk-relay/outbox.db"
                        " \"SELECT count(*) FROM messages WHERE state = 'kept'\" | grep -qx 0", 60)
    books.holds("what waited is posted", is_posted)
    books.holds("and the reserve is there", on.holds("test ! -e /run/desk-reserve/free"))
    large_disk(books, folders[:1])


def memory_or_history_ends(books: Books) -> None:
    """The page's one command. Where nothing is a month old that is said, and the desk serves on;
    else its history is cut, and what was asked for is told and fetched as before."""
    before, page = books.life.pid("desk.service"), section("Memory or history ends")
    words = re.search(r"^desk-change-roster --cut .*$", page, re.MULTILINE)
    done = books.desk.run(words[0] if words else "false", given="y\n")
    is_said = done.returncode == 2 and "0 messages would be taken out" in done.stdout + done.stderr
    books.holds("nothing is that old", is_said, done)
    books.holds("the desk serves on", books.life.pid("desk.service") == before != "0", before)
    grow_old(books)
    held, told = books.desk.out(f"{ASK}/v1/messages"), audited(books)
    done = books.desk.run(words[0] if words else "false", given="y\n")
    is_cut = done.returncode == 0 and f"and its archive has {VERDICTS}." in done.stdout
    books.holds("the history is cut", is_cut, done)
    is_cut_out(books, held, told)


VERDICTS = 200
ARCHIVES = "/var/lib/desk/archives"
OLD_MESSAGES = "/root/old.messages"


def grow_old(books: Books) -> None:
    """A request of forty days ago, and many verdicts on it."""
    hours = -40 * 24.0
    asked = {"at": near(hours - 1), "from": near(hours), "until": near(hours + 1)}
    verdicts = (desk.approval(9_000, at=near(hours - 2 - it)) for it in range(VERDICTS))
    old = [desk.request(9_000, **asked), *verdicts]
    books.desk.write(OLD_MESSAGES, "".join(f"{it}\n" for it in old))
    post = f'{ASK}/v1/relays/chat/messages --data-binary "$line"'
    said = books.desk.out(f"while read -r line; do {post}; done < {OLD_MESSAGES} | sort | uniq -c")
    books.holds("old messages", said.split() == [str(len(old)), "ack"], said)


def audited(books: Books, *archives: str) -> str:
    """What desk-audit tells of the store, with archives."""
    words = ["desk-audit", ROSTER, "/etc/desk/base.sudo", "/var/lib/desk/desk.db", *archives]
    return books.desk.out(f"cd /tmp && {' '.join(words)}")


def is_cut_out(books: Books, held: str, told: str) -> None:
    """The store and its archive are the whole; desk, host and audit go on."""
    on = books.desk
    kept, out = on.out(f"{ASK}/v1/messages"), on.out(f"cat {ARCHIVES}/*.messages")
    whole = sorted([*kept.splitlines(), *out.splitlines()])
    books.holds("nothing is lost", whole == held.splitlines(), len(whole))
    is_there = len(out.splitlines()) == VERDICTS
    books.holds("the archive has what ended", is_there, out[:200])
    mode = on.out(f"stat -c '%U %a' {ARCHIVES}/*.messages")
    books.holds("it is the account's alone", mode.strip() == "desk 400", mode)
    books.holds("the audit is the same", audited(books, f"{ARCHIVES}/*.messages") == told != "")
    books.life.is_state("cut", "desk.service", "active, enabled")
    ran = books.host.run("systemctl start desk-fetch@db1")
    books.holds("the host fetches on", ran.returncode == 0, ran)


def an_upgrade(books: Books) -> None:
    before = {it: books.life.pid(it) for it in SERVED}
    done = books.follow("An upgrade", 0)
    tail = done.stdout.splitlines()[-1:]
    is_silent = not any(it.startswith(("<", ">", "cmp")) for it in done.stdout.splitlines())
    is_silent = is_silent and "cmp: " not in done.stderr and "differ" not in done.stdout
    books.holds("both print nothing", is_silent, (tail, done.stderr))
    for unit in SERVED:
        books.life.is_state("upgraded", unit, "active, enabled")
        books.holds(f"{unit} is another", books.life.pid(unit) not in ("0", before[unit]))
    shown = "dpkg-query -W -f '${Version}\\n' 'steelnewt*' python3-steelnewt-client"
    versions = {it for it in books.desk.out(shown).splitlines() if it}
    books.holds("all packages", len(versions) == 1, versions)
    books.holds("the host fetches", books.host.holds("systemctl start desk-fetch@db1"))
    books.desk.run("mv /root/now /root/old")
    words = re.search(r"`(apt install --allow-downgrades [^`]*)`", section("An upgrade"))
    books.does("and back", words[1] if words else "false")
    books.life.is_state("back again", "desk.service", "active, enabled")
    books.desk.wait(f"{ASK}/v1/count", 60)


def a_backup(books: Books) -> None:
    """The messages are copied while the desk serves, and the file while it is stopped."""
    on = books.desk
    done = on.run(f"{PREAMBLE}backup")
    held = on.out(f"{ASK}/v1/messages")
    books.holds("a copy of the messages", on.out("cat /root/messages.txt") == held != "", done)
    on.run("systemctl stop desk")
    done = books.follow("A backup", 0)
    books.holds("a copy of the file", done.returncode == 0, done)
    on.run("systemctl start desk")


def a_restore(books: Books) -> None:
    """From the copies that were made: of the messages, and of the file."""
    on = books.desk
    books.desk.wait(f"{ASK}/v1/count", 60)
    before = on.out(f"{ASK}/v1/messages")
    out = on.out(f"cat {ARCHIVES}/*.messages 2> /dev/null").splitlines()
    whole = sorted([*before.splitlines(), *out])
    done = books.follow("A restore", 0)
    books.holds("each is acknowledged", done.stdout.split() == [str(len(whole)), "ack"], done)
    held = on.out(f"{ASK}/v1/messages")
    books.holds("the same messages, and what was cut out", held.splitlines() == whole)
    done = books.follow("A restore", 1)
    books.holds("the same from the file", on.out(f"{ASK}/v1/messages") == before != "", done)
    said = books.does("each relay posts again",
                      "runuser -u desk-relay -- desk-relay post-again", "messages are posted again")
    books.holds("some", not said.startswith("0 "), said)
    on.run("touch /root/revoked.txt")
    books.host.run("systemctl start desk-fetch@db1")
    done = books.follow("A restore", 2)
    posted = on.out("wc -l < /root/revoked.txt")
    books.holds("what was revoked by hand", done.stdout.count("ack\n") == int(posted), done)
    ends = re.findall(r"^< ann .*NOTAFTER=(\d{14}Z)", done.stdout, re.MULTILINE)
    is_over = all(it <= near(0) for it in ends) and "\n> ann" not in done.stdout
    books.holds("the host has what is over, and lacks nothing", is_over, done)


BOOKS: tuple[Callable[[Books], None], ...] = (
    a_roster_is_changed,
    somebody_leaves,
    on_call_rotation,
    a_right_has_to_end_now,
    people_are_told,
    the_desk_is_down_and_a_right_is_needed,
    nobody_can_approve,
    a_key_is_lost,
    the_disk_is_full,
    memory_or_history_ends,
    an_upgrade,
    a_backup,
    a_restore,
)
# behind a door: team.py
ELSEWHERE = ("signers_cannot_be_read",)


def unnamed() -> list[str]:
    """The headings of the page that have no function of their name."""
    had = {*ELSEWHERE, *(it.__name__ for it in BOOKS)}
    found = re.findall(r"^## (.*)$", sites.page("RUNBOOKS.md"), re.MULTILINE)
    return [it for it in found if re.sub(r"\W+", "_", it.lower()) not in had]


def inside(source: str, *chosen: str) -> None:
    began = time.monotonic()
    with tempfile.TemporaryDirectory() as folder:
        site = Site(folder)
        try:
            books = Books(site, source)
            books.holds("each heading has its function here", not unnamed(), unnamed())
            print(f"furnished: {time.monotonic() - began:.1f} s", flush=True)
            for book in BOOKS:
                if chosen and book.__name__ not in chosen:
                    continue
                start = time.monotonic()
                book(books)
                print(f"{book.__name__}: {time.monotonic() - start:.1f} s", flush=True)
        finally:
            site.close()
    life = books.life
    print(f"the runbooks on machines: {life.checks} checks, {life.wrong} wrong")
    sys.exit(1 if life.wrong else 0)


def main() -> None:
    if missing := lacks():
        sys.exit(f"no machine can be booted here: it needs {missing}")
    source, *chosen = sys.argv[1:] or [DEBS]
    sys.exit(in_a_room(os.path.abspath(source), *chosen))


if __name__ == "__main__":
    if sys.argv[1:2] == ["--inside"]:
        inside(*sys.argv[2:])
    main()
