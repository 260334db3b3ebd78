#!/usr/bin/env python3
"""Follows docs/TEAM.md line by line over build/desk, or the program that DESK names, and compares
the output with the page: from the packages to a grant on a host, its audit and a new roster. Then
people come from a table, by the lines of docs/PEOPLE.md; and what comes after that in a team's life
is in check_team_rest.py.

It is done in a root of its own, as check_runbooks.py does. `apt install` puts in place what the
packages would, by their lists of files and their scripts; with `--packages` dpkg installs those of
build/deb (package_test.py's end). `systemctl` and `ssh prod1` are stand-ins, and `prod1` is the
same machine. The people have accounts of their own, call a real sshd, and have a browser. Needs
root; what it needs of Debian it installs.
"""

from __future__ import annotations

import os
import re
import shutil
import subprocess
import sys
import tempfile
import time

from tests.common import desk
from tests.documents import check_runbooks, check_team_rest
from tests.documents.check_runbooks import BOOK, PROGRAM, SOCKET, STAND_INS, Room
from tests.packages.package_test import furnish

TEXT = desk.read("docs", "TEAM.md")
MOST = 12 * 1024
DEBIAN = os.path.join(desk.ROOT, "packaging", "debian")
TREES = "/packages"
PACKAGES = ("steelnewt", "steelnewt-host", "steelnewt-relay", "steelnewt-tools")
PACKAGES += ("steelnewt-host-plugin", "python3-steelnewt-client", "steelnewt-door")
NEEDED = "adduser curl nginx-light openssl openssh-client openssh-server python3-flask"
NEEDED += " python3-cryptography python3-fido2"
NEEDED += " python3-itsdangerous python3-jsonschema python3-pip python3-setuptools python3-wheel"
NEEDED += " python3-waitress sqlite3 sudo"
PEOPLE = ("ann", "ben", "carol")
AT_DOOR = "/run/desk-door/desk.sock"
AT_POSTS = "/run/desk-posts/desk.sock"
# (it would change nothing: what matters is whether it is taken)
REFUSE = "refuse ann 1 --yes --anyway"
MINUTES = {"two": 2, "three": 3, "five": 5, "eight": 8, "ten": 10, "thirty": 30, "forty": 40}
SSH = "Host desk\n    HostName desk.example\n    User desk-relay\n"
# what systemd does of the door's unit
DOOR = """door() {
    if [ -e /run/door.pid ]; then
        kill "$(cat /run/door.pid)"
        while runs "$(cat /run/door.pid)"; do sleep 0.1; done
    fi
    install -d -o desk-door -g desk-front -m 0750 /run/desk-door
    install -d -o desk-door -g desk-door -m 0700 /run/desk-door/root
    setsid setpriv --reuid desk-door --regid desk-front --groups desk-front,desk-door \\
        env -i PATH=/usr/bin:/bin desk-door serve > /tmp/desk-door.log 2>&1 < /dev/null &
    echo $! > /run/door.pid
    for _ in $(seq 1200); do
        grep -q listening /tmp/desk-door.log && return 0
        runs "$(cat /run/door.pid)" || break
        sleep 0.1
    done
    cat /tmp/desk-door.log >&2
    return 1
}
"""
UNITS = """case $* in
    daemon-reload) ;;
    'enable --now desk desk-door') start && door ;;
    'restart desk-door') door ;;
    'enable --now desk-relay-post') relay post ;;
    'enable --now desk-fetch@prod1.timer' | 'start desk-fetch@prod1') desk-host fetch prod1 ;;
    'start desk-sessions') ;;
"""
UNITS += check_team_rest.UNITS
APT = f"""#!/bin/bash
# each package's files, and its script; what is Debian's is there
for word; do
    case $word in ./steelnewt*_*.deb | ./python3-steelnewt*_*.deb) ;; *) continue ;; esac
    name=${{word#./}} name=${{name%%_*}}
    tar -C {TREES}/$name -c . | tar -C / -x --keep-directory-symlink
    [ ! -e {TREES}/$name.postinst ] || sh {TREES}/$name.postinst configure ''
done
"""
# (prod1 is this machine)
SCP = """#!/bin/bash
[ "$1" = -p ] && shift
cp --preserve=mode "$1" "${2#prod1:}"
"""
# the packages themselves; what they need of Debian is there
DPKG = """#!/bin/bash
for word; do
    case $word in ./steelnewt*_*.deb | ./python3-steelnewt*_*.deb) files+=("$word") ;; esac
done
[ -z "$files" ] || dpkg --force-unsafe-io --no-triggers -i "${files[@]}"
"""


def built(room: Room) -> None:
    """The packages of build/deb, where their administrator has them."""
    folder = os.path.join(desk.BUILD, "deb")
    found = [it for it in os.listdir(folder) if it.endswith(".deb")]
    room.holds("the packages are built: bash scripts/deb.sh", len(found) == 10, found)
    for name in found:
        shutil.copy(os.path.join(folder, name), room.path("/root"))


def packages(room: Room) -> None:
    """What each package has, by the list of its files, in a folder of its own."""
    tree = room.path("/tree")
    words = ["bash", os.path.join(desk.ROOT, "scripts", "install.sh")]
    environment = {**os.environ, "PREFIX": "/usr", "DESTDIR": tree}
    subprocess.run(words, env=environment, stdout=subprocess.DEVNULL, check=True)
    shutil.copy(PROGRAM, f"{tree}/usr/bin/desk")
    for name in PACKAGES:
        os.makedirs(room.path(f"{TREES}/{name}"))
        with open(f"{DEBIAN}/{name}.install", encoding="utf-8") as file:
            listed = " ".join(file.read().split())
        room.run(f"cd /tree && tar -c {listed} | tar -C {TREES}/{name} -x --no-same-owner")
        if os.path.exists(f"{DEBIAN}/{name}.postinst"):
            shutil.copy(f"{DEBIAN}/{name}.postinst", room.path(TREES))


def prepare(room: Room, is_built: bool) -> None:
    """A machine on which nothing of the desk is installed, and the accounts of its people."""
    os.mkdir(room.path(BOOK))
    units = STAND_INS["systemctl"].replace("case $* in\n", DOOR + UNITS)
    units = units.replace("/usr/local/bin/desk-serve", "/usr/libexec/steelnewt/desk-serve")
    stand_ins = {"systemctl": units, "ssh": STAND_INS["ssh"].replace("db1", "prod1"), "scp": SCP}
    if is_built:
        stand_ins["apt"] = DPKG
    else:
        stand_ins |= {"apt": APT, "pam-auth-update": "#!/bin/sh\n"}
        packages(room)
    for name, text in stand_ins.items():
        room.write(f"{BOOK}/{name}", text.replace("/usr/local/bin/desk-relay", "desk-relay"), 0o755)
    room.write("/etc/hosts", "127.0.0.1 localhost desk.example\n")
    made = room.run("ssh-keygen -A && mkdir -p /run/sshd && /usr/sbin/sshd; mkdir -p /root")
    room.holds("an sshd", made.returncode == 0, made)
    room.run("rm -rf /var/lib/desk-relay /etc/desk /etc/nginx/conf.d/* /root/*")
    if is_built:
        built(room)
    for person in PEOPLE:
        config = f"{SSH}    StrictHostKeyChecking accept-new\n    ConnectionAttempts 20\n"
        room.run(f"id {person} || useradd {person}; usermod --home /home/{person} {person}")
        home = f"/home/{person}/.ssh"
        room.run(f"install -d -m 0700 {home}; ssh-keygen -q -t ed25519 -N '' -f {home}/id_ed25519")
        room.run(f"install -d /home/{person}/.config")
        room.write(f"{home}/config", config)
        room.run(f"chown -R {person} /home/{person}; cp {home}/id_ed25519.pub /root/{person}.pub")


class Page:
    """The page, whose blocks are run one after the other."""

    def __init__(self, room: Room) -> None:
        self.room = room
        self.blocks = re.findall(r"^```(\w*)\n(.*?)^```$", TEXT, re.MULTILINE | re.DOTALL)

    def next(self, kind: str, says_yes: bool = False) -> desk.Run:
        """The next block, which is of that kind: run, or written where the page says."""
        its_kind, block = self.blocks.pop(0)
        self.room.holds(f"the next block is {kind}", its_kind == kind, block)
        if kind == "toml":
            self.room.write("/etc/desk/roster.toml", block)
            return self.room.run("true")
        given = "yes | " if says_yes else ""
        lines = f"{given}bash -euc \"$BLOCK\"" if given else block
        before = "umask 022; cd /root; set -e\n"
        return self.room.run(before + lines, BLOCK=block)

    def people(self, *words: str) -> list[desk.Run]:
        """The next block, each line of which a person types; `words` are what each is told."""
        its_kind, block = self.blocks.pop(0)
        self.room.holds("the next block is typed by people", its_kind == "", block)
        ran = []
        for at, line in enumerate(block.splitlines()):
            person, _, typed = line.partition("$ ")
            word = words[at] if words else "WORD"
            ran.append(as_person(self.room, person, typed.replace("WORD", word)))
        return ran


def as_person(room: Room, person: str, typed: str) -> desk.Run:
    """What a person types at home, by the real ssh."""
    account = f"setpriv --reuid {person} --regid {person} --init-groups"
    home = f"cd /home/{person} && {account} env HOME=/home/{person} PATH=/usr/bin:/bin"
    return room.run(f'{home} bash -c "$TYPED"', TYPED=typed)


def install(page: Page, room: Room) -> None:
    done = page.next("sh")
    room.holds("it is installed", done.returncode == 0 and "ok" not in done.stderr, done)
    page.next("toml")
    done = page.next("sh")
    linted = "nobody can get 2 approvals: only ben and carol" in done.stdout
    linted = linted and len(done.stdout.splitlines()) == 2
    room.holds("desk-lint", done.returncode == 0 and linted, done)
    minutes = [MINUTES[it] for it in re.findall(r"^## .* \((\w+) minutes\)$", TEXT, re.MULTILINE)]
    whole = re.search(r"^# A real team in (\w+) minutes$", TEXT, re.MULTILINE)
    is_said = whole is not None and 0 <= MINUTES[whole[1]] - sum(minutes) <= 3
    room.holds("how many minutes it takes", is_said, minutes)


def door(page: Page, room: Room) -> None:
    """The desk is served, and nobody but the door and root can bring it a message: who asks goes on
    at the desk, where none is taken."""
    done = page.next("sh")
    room.holds("the desk and its door", done.returncode == 0, done)
    room.holds("it answers", len(room.text("/v1/count").split()) == 3)
    for account in ("desk-relay", "www-data", "nobody"):
        may = f"setpriv --reuid {account} --regid $(id -g {account}) --init-groups curl -sS -m 60"
        past = room.run(f"{may} --unix-socket {AT_POSTS} http://desk/v1/count")
        room.holds(f"{account} where the desk takes messages", past.returncode == 7, past)
        is_open = account != "nobody"
        for place in (SOCKET, AT_DOOR):
            asked = room.run(f"{may} --unix-socket {place} http://desk/v1/count")
            room.holds(f"{account} at {place}", (asked.returncode == 0) == is_open, asked)
        posts = f"--data-binary x --unix-socket {SOCKET} http://desk/v1/relays/chat/messages"
        said = room.run(f"{may} {posts}")
        told = "T3 NoRoute\n" if is_open else ""
        room.holds(f"{account} posts past the door", said.stdout == told, said)


def host(page: Page, room: Room) -> None:
    done = page.next("sh")
    room.holds("the front", done.returncode == 0, done)
    done = page.next("sh")
    room.holds("the host's packages", done.returncode == 0, done)
    done = page.next("sh")
    mode = os.stat(room.path("/etc/desk/host.key")).st_mode & 0o077
    room.holds("the host's files", done.returncode == 0 and mode == 0, done)
    # (what `desk-host check` says of a host that boots: tests/machines/team.py)
    done = page.next("sh")
    room.holds("the host fetches", "parsed OK" in done.stdout, done)
    room.holds("its file", "dba ALL" in room.read("/etc/sudoers.d/desk"))


def enrolled(page: Page, room: Room) -> None:
    """Each person signs the word that was made for them; a word of another's is none."""
    done = page.next("sh")
    room.holds("people's keys", done.returncode == 0 and "ben may call" in done.stdout, done)
    room.holds("the lines of ~/.ssh/config", all(it.strip() in TEXT for it in SSH.splitlines()))
    words = re.findall(r"^[0-9a-f]{16}$", done.stdout, re.MULTILINE)
    room.holds("a word for each", len(words) == len(PEOPLE), done)
    _, settings = page.blocks.pop(0)
    for person in PEOPLE:
        place = f"/home/{person}/.config/mydesk"
        room.write(place, settings.replace("person = ann", f"person = {person}"))
    room.run("install -m 0755 /tree/usr/bin/mydesk /usr/bin/mydesk || dpkg -i /root/mydesk_*.deb")
    signs = page.people(*words)
    room.holds("they sign it", all(it.returncode == 0 for it in signs), signs)
    room.run("for it in ann ben carol; do cp /home/$it/$it.line /root; done; cp ben.line /root/odd")
    odd = room.run("cd /root; yes | desk-signer add ann ben.line")
    room.holds("ben's key is not ann's", "ann did not sign" in odd.stderr, odd)
    done = page.next("sh", True)
    room.holds("whose key is whose", done.stdout.count(" hold\n") == 3, done)


def asked(page: Page, room: Room) -> None:
    enrolled(page, room)
    ceilings, ask, waiting, approved = page.people()
    names = ("dev", "test", "prod", "emergency")
    may = [it for it in names if f"\n{it}\n" in f"\n{ceilings.stdout}"]
    room.holds("what ann may ask", may == ["dev", "test", "prod"], ceilings)
    room.holds("ann asks", ask.returncode == 0 and "Kept as ann 1." in ask.stdout, ask)
    room.holds("why", "ticket OPS-7" in waiting.stdout, waiting)
    room.holds("ben approves", "It is in force from" in approved.stdout, approved)
    unsigned(room)
    done = page.next("sh")
    if "start it again" in done.stdout:
        # (desk-host takes it for one from before the file, by a clock of whole seconds)
        time.sleep(3)
        done = room.run("ssh prod1 sudo -l -U ann /usr/bin/id")
    room.holds("sudo on the host", done.stdout.endswith("/usr/bin/id\n"), done)
    refused = room.run("ssh prod1 sudo -l -U ann /usr/bin/env")
    room.holds("and no more", refused.returncode == 1, refused)


def audited(page: Page, room: Room) -> None:
    done = page.next("sh")
    told = re.search(r"ann 1  granted (?s:.*)approve +\d+Z ben counts\n", done.stdout)
    room.holds("the audit", done.returncode == 0 and told is not None, done)
    live = re.search(r"\nLIVE\nann +1 +prod .* needed\n", done.stdout)
    room.holds("what is in force", live is not None, done)
    done = page.next("sh", True)
    changed = "No grant changes" in done.stdout and "serves the new roster" in done.stdout
    room.holds("the change", done.returncode == 0 and changed, done)
    room.holds("eric", '\neric = ["operate"]\n' in room.read("/etc/desk/roster.toml"))
    kept = room.run("wc -l < /var/lib/desk/history/moments")
    room.holds("both rosters are kept", kept.stdout.strip() == "2", kept)
    why = room.run("cat /var/lib/desk/history/*/change")
    room.holds("and why", "why eric joins\n" in why.stdout, why)
    room.holds("no block is left", not page.blocks, page.blocks)
    size = len(TEXT.encode())
    room.holds(f"it has at most {MOST} bytes", size <= MOST, size)


def unsigned(room: Room) -> None:
    """Whoever has a person's way in, or the relay's account, and no key that signs."""
    ask = "ask prod --on prod1 --as root --for 1h --yes /usr/bin/id"
    said = as_person(room, "ann", f"ssh desk {ask}")
    room.holds("ann without a signature", "write mydesk" in said.stdout + said.stderr, said)
    before = room.text("/v1/count")
    revoke = desk.approval(1, kind="revoke", by="ben", of="ann")
    room.write(f"{BOOK}/message", revoke)
    posts = f"curl -sS --data-binary @{BOOK}/message --unix-socket"
    relay = "setpriv --reuid desk-relay --regid desk-relay --init-groups"
    said = room.run(f"{relay} {posts} {AT_DOOR} http://desk/v1/relays/chat/messages")
    room.holds("the relay's account in ben's name", said.stdout == "P20 NotSigned\n", said)
    room.holds("the desk has nothing of it", room.text("/v1/count") == before, before)


def key_lost(_: Page, room: Room) -> None:
    """RUNBOOKS, 'A key is lost', of somebody who signs: what it signed is told, it signs no more,
    and a new one does."""
    says = "`desk-signer lost ann` ends it and prints what it signed, and when that came"
    room.says("A key is lost", says)
    done = room.run("yes | desk-signer lost ann")
    told = r"^\d{14}Z by relay chat: ann: ask ann 1 \(ack\), with SHA256:"
    is_told = re.search(told, done.stdout, re.MULTILINE) is not None
    room.holds("what it signed, and when that came", is_told, done)
    said = as_person(room, "ann", f"mydesk {REFUSE}")
    room.holds("it signs no more", "A20 BadSignature" in said.stdout, said)
    word = room.run("desk-signer enrol ann").stdout.strip()
    made = as_person(
        room, "ann",
        f"ssh-keygen -q -t ed25519 -N '' -f new && mydesk --key new enrol {word} > ann.line",
    )  # fmt: skip
    done = room.run("yes | desk-signer add ann /home/ann/ann.line")
    room.holds("a new one", (made.returncode, done.returncode) == (0, 0), (made, done))
    said = as_person(room, "ann", f"mydesk --key new {REFUSE}")
    room.holds("signs", "The desk has your refusal" in said.stdout, said)


def signers_unread(_: Page, room: Room) -> None:
    """RUNBOOKS, 'Signers cannot be read'."""
    heading = "Signers cannot be read"
    room.says(heading, "The door says `K25`, and takes nothing signed")
    newest = "$(ls -d /etc/desk/signers/*Z | tail -n 1)"
    room.run(f"cp -a {newest} /root/kept; basename {newest} > /root/name")
    room.run(f"echo odd >> {newest}/allowed_signers")
    said = as_person(room, "ben", f"mydesk {REFUSE}")
    room.holds("nothing signed is taken", "K25 NoSigners" in said.stdout, said)
    room.says(heading, "root's socket still takes refusals and revocations")
    # (of now: one from before the approval would count)
    given = desk.approval(1, kind="refuse", by="carol", of="ann", at=desk.stamp(time.time()))
    room.write(f"{BOOK}/message", given)
    root = "curl -sS --unix-socket /run/desk-door/root/desk.sock"
    posts = f"{root} --data-binary @{BOOK}/message http://desk/v1/relays/chat/messages"
    done = room.run(posts)
    room.holds("but at root's socket", done.stdout == "ack\n", done)
    room.says(heading, "`desk-door check` says why")
    check = "runuser -u desk-door -g desk-front -G desk-door -- desk-door check"
    done = room.run(check)
    is_told = "allowed_signers: line 5 is none of desk-signer's" in done.stdout
    room.holds("it says why", done.returncode == 2 and is_told, done)
    room.says(heading, "or move it away: then the one before it holds")
    room.run(f"mv {newest} /root/away")
    said = as_person(room, "ben", f"mydesk {REFUSE}")
    room.holds("the one before holds", "The desk has your refusal" in said.stdout, said)
    room.says(heading, "Bring that folder back from the backup")
    room.run("mv /root/kept /etc/desk/signers/$(cat /root/name)")
    done = room.run(check)
    said = as_person(room, "ann", f"mydesk --key new {REFUSE}")
    is_taken = "The desk has your refusal" in said.stdout
    room.holds("and then the newest", is_taken, (said, done))
    room.holds("nothing is wrong", done.stdout.startswith("nothing is wrong"), done)


def from_a_table(room: Room) -> None:
    """The lines of docs/PEOPLE.md: fred joins, and lena is not in the table any more."""
    names = ("ann", "ben", "carol", "eric", "fred")
    room.write("/etc/desk/people.csv", "person,duty\n" + "".join(f"{it},operate\n" for it in names))
    room.write("/etc/desk/people.toml", '[duties.operate]\ncsv = "/etc/desk/people.csv"\n')
    (block,) = re.findall(r"^```sh\n(.*?)^```$", desk.read("docs", "PEOPLE.md"), re.M | re.S)
    days = {check_team_rest.today()}
    done = room.run('yes | bash -c "$BLOCK"', BLOCK=block)
    days.add(check_team_rest.today())
    joined = [f'+fred = [{{ duty = "operate", from = "{it}", until = "20991231" }}]' for it in days]
    shown = any(it in done.stdout for it in joined)
    room.holds("a diff, and the grants", shown and "No grant changes" in done.stdout, done)
    served = room.read("/etc/desk/roster.toml")
    ended = [f'lena = [{{ duty = "operate", from = "20260101", until = "{it}" }}]\n' for it in days]
    left = any(it in served for it in ended)
    room.holds("who left, and who joined", left and "\nfred = " in served, served)
    room.holds("the rest", "# development: half a day of everything\n" in served, served)
    digest = room.run("sha256sum < /etc/desk/roster.toml").stdout.split()[0]
    room.holds("the desk has it", room.text("/v1/count").split()[1] == digest, done)


def inside(is_built: bool) -> None:
    subprocess.run(["ip", "link", "set", "lo", "up"], check=True)
    with tempfile.TemporaryDirectory() as folder:
        room = Room(furnish(folder, ""))
        try:
            prepare(room, is_built)
            page = Page(room)
            for part in (install, door, host, asked, audited, key_lost, signers_unread):
                began = time.monotonic()
                part(page, room)
                print(f"{part.__name__}: {time.monotonic() - began:.1f} s", flush=True)
            from_a_table(room)
            for part in check_team_rest.PARTS:
                began = time.monotonic()
                part(room)
                print(f"{part.__name__}: {time.monotonic() - began:.1f} s", flush=True)
            room.run("systemctl stop desk; systemctl stop nginx; kill $(cat /run/relay-*.pid)")
        finally:
            subprocess.run(["umount", "--lazy", folder], check=True)
    over = "the packages" if is_built else "what they have"
    pages = f"docs/TEAM.md, PEOPLE.md and RELAYS.md over {over}"
    print(f"{pages}: {room.tried} checks, {room.wrong} wrong")
    sys.exit(1 if room.wrong else 0)


def needed() -> list[str]:
    """The packages of Debian that the pages need on a machine."""
    return [*NEEDED.split(), *check_team_rest.NEEDED.split()]


def main() -> None:
    if sys.argv[1:] == ["--needs"]:
        sys.exit(print("\n".join(needed())))
    if os.geteuid() != 0:
        sys.exit("check_team.py needs root: it follows the page in a root of its own")
    install = os.path.join(desk.ROOT, "relays", "install.sh")
    subprocess.run(["bash", install, *needed()], check=True)
    sys.exit(check_runbooks.in_a_root(*sys.argv[1:]))


if __name__ == "__main__":
    if sys.argv[1:2] == ["--inside"]:
        inside(sys.argv[2:] == ["--packages"])
    main()
