"""What sudo's plugin sees of a start, whatever its user chooses, and what is done without it: for
hosts.py."""

from __future__ import annotations

import contextlib
import os
import re
import time
from collections.abc import Iterator

from tests.hosts.prompt import PROMPT, RAN, Terminal, line, prepare, sudos
from tests.hosts.root import HAS_PLUGIN, STARTS, Host, within
from tests.hosts.sessions import ended, processes, sleeping, stop, there

STANDING = "ann ALL = (root) /usr/bin/true\nann ALL = (dba) /usr/bin/true\n"
# (what is called `true` there is a sleep; three folders above `l` is `d`, and by the text the root)
HERE = "/proc/self/cwd"
FOLDERS = "cd; mkdir -p d/1/2/3 d/usr/bin; cp -n /usr/bin/sleep d/usr/bin/true; ln -sn d/1/2/3 l"
# Each is a name, what is typed under a grant of ALL, and the word by which its processes are known:
# judged by these words, or by what they were started with, each outlived the grant.
TRICKS = [
    ("a link that is gone", "cd; ln -s /usr/bin b; sudo b/sleep 7601", "7601"),
    ("a prompt of --", "cd; ln -s /usr/bin x=y; sudo -p -- x=y/sleep 7602", "7602"),
    ("two of a name", "/usr/bin/python3 /usr/local/lib/twice", "7603"),
    ("no word that is its own", "/usr/bin/python3 /usr/local/lib/named", "7604"),
    ("dots behind a link", f"{FOLDERS}; sudo l/../../../usr/bin/true 7605", "7605"),
    ("a folder of its own process's", f"{FOLDERS}; cd d; sudo {HERE}/usr/bin/true 7606", "7606"),
]
# The same of what is left where it had a control group.
REAPS = "SUDO_UID=$(id -u bob) SUDO_COMMAND=/usr/bin/true /usr/bin/python3 /usr/local/lib/reaps"
LEFT = [
    ("one with no environment", "sudo sh -c 'env -i setsid -f sleep 7611; sleep 7611'", "7611"),
    ("what a trap starts", "sudo sh /usr/local/lib/traps 7612", "7612"),
    ("what names another user", "sudo sh -c 'SUDO_UID=1 exec setsid sleep 7613'", "7613"),
    ("what is in a namespace", "sudo sh /usr/local/lib/space", "7614"),
    ("what forks for ever", "sudo sh /usr/local/lib/forks 7615", "7615"),
    ("one as another user", "sudo -u dba sh -c 'env -i setsid -f sleep 7616; sleep 7616'", "7616"),
    ("what has another parent", REAPS, "7617"),
    ("a server of terminals", "sudo tmux -L one new -d sleep 7618", "7618"),
    ("one as another user's", "sudo -u dba tmux -L two new -d sleep 7619", "7619"),
]
# The sudos that ann ends herself, and how many sleep before she does.
KILLED = {"7611": 2, "7613": 1, "7616": 2, "7617": 1}
# (getenv takes the first of two variables of a name)
TWICE = """\
import ctypes
array = lambda *them: (ctypes.c_char_p * (len(them) + 1))(*them, None)
pairs = array(b"SHELL=/usr/local/sbin/sleeps", b"SHELL=/usr/bin/true", b"TERM=dumb")
ctypes.CDLL(None).execve(b"/usr/bin/sudo", array(b"sudo", b"-s"), pairs)
"""
NAMED = """\
import os
os.execv("/usr/bin/sudo", ["sudoedit-", "/usr/bin/sleep", "7604"])
"""
TRAPS = "trap 'env -i setsid -f sleep 7612; exit' TERM\nwhile :; do sleep 1; done\n"
FORKS = "trap '' TERM HUP\nsleep 0.02\nsh /usr/local/lib/forks $1 &\n"
SPACE = """\
setsid unshare -pf sh -c 'sleep 7614; :' &
until pgrep -P $!; do sleep 0.1; done
kill -KILL $!
"""
# (prctl(2): what loses its parent below this process becomes its child)
REAPER = """\
import ctypes, subprocess, time
ctypes.CDLL(None).prctl(36, 1, 0, 0, 0)
subprocess.run(["sudo", "nohup", "sleep", "7617"], stdout=subprocess.DEVNULL)
time.sleep(3600)
"""
SCRIPTS = {"twice": TWICE, "named": NAMED, "traps": TRAPS, "forks": FORKS, "space": SPACE}
SCRIPTS |= {"reaps": REAPER}


def texts(host: Host) -> None:
    for name, text in SCRIPTS.items():
        host.write(f"/usr/local/lib/{name}", text)
    host.write("/usr/local/sbin/sleeps", "#!/bin/sh\nsleep 7603\n")
    os.chmod(host.path("/usr/local/sbin/sleeps"), 0o755)
    host.put("password", "Defaults:ann !authenticate\n")


@contextlib.contextmanager
def tricked(host: Host) -> Iterator[None]:
    """All of TRICKS run, under a grant of everything."""
    host.put("desk", STANDING + line("ann", 3600, "ALL"))
    with contextlib.ExitStack() as stack:
        for what, typed, mark in TRICKS:
            stack.enter_context(Terminal(host, "ann")).send(typed)
            host.check(f"{what} runs", there(host, mark))
        yield
        for _, _, mark in TRICKS:
            stop(host, mark)
    host.drop(*(f"/home/ann/{name}" for name in ("x=y", "b", "d", "l")))


def resolved(host: Host) -> None:
    """What sudo ran is judged, and not what its user wrote: with a standing right to another
    command beside, nothing outlives the grant."""
    if not host.is_fit:
        return
    texts(host)
    with tricked(host):
        host.drop("/home/ann/b")
        said = ended(host)
        host.check("all are left alone in their window", not said, said)
        host.put("desk", STANDING + line("ann", -1, "ALL"))
        said = ended(host)
        for what, _, mark in TRICKS:
            host.check(f"{what} is ended", there(host, mark, False, 20), said)
    with tricked(host):
        host.put("desk", STANDING + "ann ALL = (root) /usr/bin/sleep\n")
        said = ended(host)
        left = {mark for _, _, mark in TRICKS if there(host, mark, seconds=0)}
        host.check("what is the user's own is none of a line", left == {"7604"}, f"{left} {said}")
    host.drop("password")
    nothing_is_kept(host)


def gone(host: Host) -> None:
    """What whoever may run all started goes on, where its file is gone: of root's folders, and of
    its own. What a line names is told of, and ended."""
    if not host.is_fit:
        return
    host.put("password", "Defaults:ann !authenticate\n")
    own, roots = "/home/ann/own", "/usr/local/sbin/gone"
    for rule, goes_on in (("ALL", True), (roots, False)):
        host.copy(host.path("/usr/bin/sleep"), own)
        host.copy(host.path("/usr/bin/sleep"), roots)
        host.put("desk", line("ann", 3600, rule))
        with Terminal(host, "ann") as first, Terminal(host, "ann") as second:
            first.send("sudo /home/ann/own 7661" if goes_on else "sudo gone 7661")
            second.send("sudo gone 7662")
            for mark in ("7661", "7662"):
                host.check("it runs", there(host, mark, seconds=20))
            host.drop(own, roots)
            said = ended(host)
            is_there = [bool(there(host, it, goes_on, 5)) for it in ("7661", "7662")]
            host.check(f"gone, under {rule}", all(is_there) and bool(said) != goes_on, said)
            if goes_on:
                for mark in ("7661", "7662"):
                    stop(host, mark)
    host.drop("password")


def nothing_is_kept(host: Host) -> None:
    """What has ended has no record, and no control group."""
    said = ended(host)
    left = os.listdir(host.path(STARTS)) if HAS_PLUGIN else []
    host.check("no record is left", not left and not said, f"{left} {said}")
    if host.has_groups:
        groups = [it for it, _, _ in os.walk(host.path(host.group)) if "/desk-" in it]
        host.check("no group is left", not groups, str(groups))


def edits(host: Host) -> None:
    """sudoedit is judged by the files that it edits, and not by the editor."""
    if not host.is_fit:
        return
    host.put("password", "Defaults:ann !authenticate\n")
    host.write("/usr/local/lib/editor", "sleep 7667\n")
    host.write("/etc/notes", "")
    rule = "ann ALL = (root) sudoedit /etc/notes\n"
    with Terminal(host, "ann") as terminal:
        for rules, goes_on in (
            (rule, True),
            (rule.replace("/etc/notes", "/etc/n*"), True),
            (rule.replace(" /etc/notes", ""), True),
            ("ann ALL = (ALL) ALL\n", True),
            (rule.replace("notes", "other"), False),
            (rule.replace("/etc/notes", "/*"), False),
            (rule + rule.replace("sudoedit", "!sudoedit"), False),
            (rule.replace("root", "dba"), False),
            (rule.replace("sudoedit", "NOTAFTER=20000101000000Z sudoedit"), False),
        ):
            host.put("edit", rule)
            terminal.send("EDITOR='sh /usr/local/lib/editor' sudoedit /etc/notes")
            host.check("the editor runs", there(host, "7667", seconds=20))
            host.put("edit", rules)
            said = ended(host)
            is_right = there(host, "7667", goes_on, 10) and bool(said) != goes_on
            told = "ann's `sudoedit /etc/notes` as root" in said
            host.check(f"beside {rules}, goes on: {goes_on}", is_right and told != goes_on, said)
            stop(host, "7667")
    host.drop("password", "edit")


def removed(host: Host) -> None:
    """What an account started that was removed since is ended; where a directory may only be away,
    it is told of."""
    if not host.is_fit:
        return
    host.run("useradd", "--create-home", "--shell", "/bin/bash", "dan")
    host.put("password", "Defaults:dan !authenticate\n")
    host.put("desk", line("dan", 3600, "ALL"))
    names = host.read("/etc/nsswitch.conf")
    with Terminal(host, "dan") as terminal:
        terminal.send("sudo sleep 7665")
        host.check("it runs", there(host, "7665", seconds=20))
        host.run("userdel", "--force", "dan")
        host.write("/etc/nsswitch.conf", names.replace("passwd: files", "passwd: files sss"))
        says = "is left alone until sudo answers"
        said = host.does("a directory", "desk-host", "end-sessions", status=1, says=says)
        host.check("it is left alone", there(host, "7665", seconds=0), said)
        host.write("/etc/nsswitch.conf", names)
        said = ended(host)
        host.check("without one it is ended", there(host, "7665", False, 20), said)
    host.run("rm", "-rf", "/home/dan")
    host.drop("password")


@contextlib.contextmanager
def all_left(host: Host) -> Iterator[None]:
    """All of LEFT run, under a grant that is then revoked."""
    host.put("desk", STANDING + line("ann", 3600, "ALL") + line("ann", 3600).replace("root", "dba"))
    host.put("others", "ann ALL = (dba) ALL\n")
    host.put("bobs", "bob ALL = (ALL) /usr/bin/true\n")
    with contextlib.ExitStack() as stack:
        for what, typed, mark in LEFT:
            before = set(sudos(host))
            stack.enter_context(Terminal(host, "ann")).send(typed)
            host.check(f"{what} runs", there(host, mark, seconds=120))
            if mark in KILLED:
                is_there = within(lambda: len(sleeping(host, mark)) == KILLED[mark])
                host.check(f"{what} sleeps", is_there)
                own = " ".join(map(str, set(sudos(host)) - before))
                # (stopped first: one sudo of two that sees the other's end would end the command)
                host.as_user("ann", "sh", "-c", f"kill -STOP {own}; kill -KILL {own}")
                host.check(f"{what} is left", bool(sleeping(host, mark)))
        host.drop("others")
        host.put("desk", STANDING)
        yield
    host.drop("bobs")


def left_behind(host: Host) -> None:
    """Whatever a session leaves, and whoever ends its sudo, ends with it."""
    if not host.is_fit or not host.has_groups:
        return
    texts(host)
    with all_left(host):
        said = ended(host)
        for what, _, mark in LEFT:
            host.check(f"{what} is ended", there(host, mark, False, 20), said)
    host.drop("password")
    nothing_is_kept(host)


def moved(host: Host) -> None:
    """A sudo that a login of root's own took out of its group is brought back, with what is below
    it."""
    if not host.is_fit or not host.has_groups:
        return
    host.put("password", "Defaults:ann !authenticate\n")
    host.put("desk", line("ann", 3600, "ALL"))
    with Terminal(host, "ann") as terminal:
        terminal.send("sudo sh -c 'sleep 7621; :'")
        host.check("a command runs", there(host, "7621", seconds=30))
        folder = host.path(f"{host.group}/elsewhere")
        os.makedirs(folder, exist_ok=True)
        (group,) = (it for it in os.listdir(host.path(host.group)) if it.startswith("desk-"))
        path = host.path(f"{host.group}/{group}/cgroup.procs")
        with open(path, encoding="ascii") as file:
            pids = file.read().split()
        for pid in pids:
            with open(f"{folder}/cgroup.procs", "w", encoding="ascii") as file:
                file.write(pid)
        said = ended(host)
        with open(path, encoding="ascii") as file:
            again = file.read().split()
        host.check("it is brought back", not said and set(again) == set(pids) != set(), said)
        host.put("desk", line("ann", -1, "ALL"))
        said = ended(host)
        host.check("it is ended", there(host, "7621", False, 20), said)
    os.rmdir(folder)
    host.drop("password")


def unwritten(host: Host) -> None:
    """A start that cannot be written down is refused, but for root's; so is one of a host whose
    last change cannot be read."""
    if not host.is_fit:
        return
    host.put("password", "Defaults:ann !authenticate\n")
    host.put("desk", line("ann", 3600, "ALL"))
    sudo = ("sudo", "-n", "echo", RAN)
    ran = host.as_user("ann", *sudo)
    host.check("sudo starts it", RAN in ran.stdout, ran.stdout)
    for what, path, text, says in (
        ("no folder", STARTS, "", "cannot write it down in /run/desk-host/starts"),
        ("an odd change", "/run/desk-host/changed", "soon\n", "rights have changed"),
        ("a change to come", "/run/desk-host/changed", "99999999.5\n", "rights have changed"),
    ):
        host.drop(path)
        host.write(path, text)
        ran = host.as_user("ann", *sudo)
        is_refused = ran.returncode == 1 and RAN not in ran.stdout and says in ran.stdout
        host.check(f"{what}: it is refused", is_refused, ran.stdout)
        ran = host.run(*sudo)
        host.check(f"{what}: root's is not", RAN in ran.stdout, ran.stdout)
        host.drop(path)
    ran = host.as_user("ann", "env", "LC_ALL=de_DE.UTF-8", *sudo)
    seen = os.stat(host.path(STARTS))
    is_right = RAN in ran.stdout and (seen.st_mode & 0o7777, seen.st_uid) == (0o700, 0)
    host.check("the folder is made again", is_right, f"{ran.stdout} {seen}")
    ro = "mount --bind /run /run && mount -o remount,ro,bind /run && exec setpriv --reuid ann"
    ro += f" --regid ann --init-groups {' '.join(sudo)}"
    ran = host.run("unshare", "--mount", "sh", "-c", ro)
    is_refused = RAN not in ran.stdout and "Read-only file system" in ran.stdout
    host.check("where /run is not to be written to", is_refused, ran.stdout)
    for name in ("1-1", "99999-5", "99999-5.new", "odd"):
        host.write(f"{STARTS}/{name}", "form=1\0" if name != "odd" else "")
    said = ended(host)
    left = os.listdir(host.path(STARTS))
    host.check("what is left of others is cleared", left == ["odd"] and not said, f"{left} {said}")
    host.drop("password", f"{STARTS}/odd")


# What an account may have beside, without any right: what is typed, and the word by which it is
# known. The first is a program whose path is longer than the kernel tells; the last waits for a
# password.
DEEP = "cd; d=$(printf %0200d); for i in $(seq 25); do mkdir -p $d; cd $d; done"
DEEP += "; cp /bin/sleep s; ./s 7631"
MANY = "for i in $(seq 500); do sleep 7632 & done"
LONG = "for i in $(seq 15); do sh -c 'sleep 7633; :' $(seq 200000 320000) & done"
FORGED = "SUDO_UID=$(id -u ann) SUDO_COMMAND='/usr/bin/dd if=/dev/zero' su - root 7635"
BESIDE = [
    ("a path that is too long", DEEP, "7631", 1),
    ("many processes", MANY, "7632", 500),
    ("long words", LONG, "7633", 15),
    ("another's name", FORGED, "7635", 1),
]
MEMORY = 64 * 1024  # KiB


def hostile_beside(host: Host) -> None:
    """Whatever an account runs that has no right, what has lost its right is ended, in little time
    and memory, and no line tells of others: beside each by itself, and beside all of it."""
    if not host.is_fit:
        return
    host.put("password", "Defaults:ann !authenticate\n")
    for which in (*([it] for it in BESIDE), BESIDE):
        with contextlib.ExitStack() as stack:
            for what, typed, mark, count in which:
                stack.enter_context(Terminal(host, "bob")).send(typed)
                host.check(f"{what} runs", within(lambda: len(processes(host, mark)) >= count))
            ends_beside(host, which[0][0] if len(which) == 1 else "all of it")
            host.run("pkill", "-KILL", "-u", "bob")
    host.drop("password", f"/home/bob/{'0' * 200}")


def ends_beside(host: Host, what: str) -> None:
    """One look, which ends what ann runs."""
    host.put("desk", line("ann", 3600, "ALL"))
    with Terminal(host, "ann") as terminal:
        terminal.send("sudo sleep 7634")
        host.check("ann's runs", there(host, "7634"))
        host.put("desk", line("ann", -1, "ALL"))
        host.conf("http://127.0.0.1:1", GRACE="1")
        with host.running("desk-host", "end-sessions") as running:
            said = running.stdout.read() if running.stdout else ""
            _, status, used = os.wait4(running.pid, 0)
            running.returncode = os.waitstatus_to_exitcode(status)
        is_right = there(host, "7634", False, 5) and running.returncode == 0
        host.check(f"beside {what}, ann's is ended", is_right, f"{running.returncode} {said}")
        most, spent = used.ru_maxrss, used.ru_utime + used.ru_stime
        host.check(f"beside {what}, in little memory", most < MEMORY, f"{most} KiB")
        host.check(f"beside {what}, in little time", spent < 5, f"{spent} s of processor")
        is_own = len(said.splitlines()) == 2 and said.count("ann's `/usr/bin/sleep 7634`") == 2
        host.check(f"beside {what}, nothing else is told", is_own, said)
        stop(host, "7634")


def in_turn(host: Host) -> None:
    """Whoever has many sudos holds nobody up: one of each user is asked about first."""
    if not host.is_fit:
        return
    host.put("password", "Defaults:ann,bob !authenticate\n")
    host.put("desk", line("ann", 3600, "ALL") + line("bob", 3600, "ALL"))
    with Terminal(host, "ann") as many, Terminal(host, "bob") as one:
        many.send("for i in $(seq 20); do sudo sleep 7671 & sleep 0.1; done")
        one.send("sudo sleep 7672")
        for mark in ("7671", "7672"):
            host.check("it runs", there(host, mark, seconds=30))
        host.check("all run", within(lambda: len(os.listdir(host.path(STARTS))) == 21))
        host.put("desk", "")
        said = ended(host)
        first = said.splitlines()[:2]
        is_right = any("bob's" in it for it in first) and said.count("was ended") == 21
        host.check("bob's is told of at once, and all are ended", is_right, said)
    host.drop("password")


def elsewhere(host: Host) -> None:
    """The plugin and desk-host agree where the records are, wherever STATE is."""
    if not host.is_fit:
        return
    host.put("password", "Defaults:ann !authenticate\n")
    host.put("desk", line("ann", 3600, "ALL"))
    with Terminal(host, "ann") as terminal:
        terminal.send("sudo sleep 7681")
        host.check("it runs", there(host, "7681", seconds=20))
        host.conf("http://127.0.0.1:1", GRACE="1", STATE="/var/lib/elsewhere")
        host.put("desk", "")
        said = host.does("end-sessions", "desk-host", "end-sessions", says="was ended")
        host.check("it is ended", there(host, "7681", False, 10), said)
    host.drop("password")


def waits(host: Host) -> None:
    """A sudo that was no sudo for long, and then starts at once, has not waited: a shell may become
    it. With the plugin, and with the step of PAM."""
    if not host.is_fit:
        return
    prepare(host)
    host.put("password", "Defaults:ann !authenticate\n")
    host.put("desk", line("ann", 3600))
    host.conf("http://127.0.0.1:1", PROMPT="900")
    began = time.monotonic()
    ran = host.as_user("ann", "sudo", "-n", "granted")
    host.check("one that begins at once, with the plugin", RAN in ran.stdout, ran.stdout)
    # (longer than a sudo of this machine takes by itself)
    most = PROMPT + 3 * int(time.monotonic() - began)
    host.conf("http://127.0.0.1:1", PROMPT=str(most))
    late = ("bash", "-c", f"sleep {most + 1}; exec sudo -n granted")
    ran = host.as_user("ann", *late)
    host.check("a shell that becomes a sudo", RAN in ran.stdout, ran.stdout)
    with host.unplugged():
        ran = host.as_user("ann", *late)
        host.check("the same by the step of PAM", RAN in ran.stdout, ran.stdout)
        ran = host.as_user("ann", "sh", "-c", "sudo -n granted")
        host.check("and one that begins at once", RAN in ran.stdout, ran.stdout)
    host.drop("password")


WORDS = [
    ("a command", "sudo sleep 7641", "7641"),
    ("sudo -i", "sudo -i sleep 7642", "7642"),
    ("a link that is gone", "cd; ln -s /usr/bin b; sudo b/sleep 7643", "7643"),
    ("a prompt of --", "cd; ln -s /usr/bin x=y; sudo -p -- x=y/sleep 7644", "7644"),
    ("two of a name", "/usr/bin/python3 /usr/local/lib/twice", "7603"),
]


def by_words(host: Host) -> None:
    """Without the plugin, sudos are judged by their words, and what is not clear is ended; one that
    the plugin was put in after is judged so too, and not as one that kept its start back."""
    if not host.is_fit:
        return
    texts(host)
    with host.unplugged(), contextlib.ExitStack() as stack:
        host.put("desk", STANDING + line("ann", 3600, "ALL"))
        for what, typed, mark in WORDS:
            stack.enter_context(Terminal(host, "ann")).send(typed)
            host.check(f"{what} runs", there(host, mark, seconds=30))
        host.drop("/home/ann/b")
        host.put("desk", STANDING + line("ann", -1, "ALL"))
        said = ended(host)
        for what, _, mark in WORDS:
            host.check(f"by its words, {what} is ended", there(host, mark, False, 20), said)
        host.put("desk", line("ann", 3600, "ALL"))
        stack.enter_context(Terminal(host, "ann")).send("sudo sleep 7645")
        host.check("one from before", there(host, "7645", seconds=30))
        host.does("desk-host plugin on", "desk-host", "plugin", "on", says="^$")
        said = ended(host)
        told = "ann's `sleep 7645` as root .* is judged by its words: sudo wrote nothing down"
        is_told = len(said.splitlines()) == 1 and re.search(told, said) is not None
        host.check("one from before goes on", there(host, "7645", seconds=30) and is_told, said)
        said = ended(host)
        host.check("and is told of once", not said, said)
        stop(host, "7645")
    host.drop("password", "/home/ann/x=y")


def unrecorded(host: Host) -> None:
    """A sudo that has no record asks for its password: so it is for as long as it may. Later it is
    ended."""
    if not host.is_fit or not host.has_groups:
        return
    host.put("desk", line("ann", 3600, "ALL"))
    time.sleep(1.1)  # (the plugin may have been put in within this second)
    with Terminal(host, "ann") as terminal:
        terminal.send("sudo -k; sudo sleep 7651")
        host.check("it asks", terminal.asks())
        said = ended(host)
        host.check("it is left alone", not said and len(sudos(host)) == 1, said)
        host.conf("http://127.0.0.1:1", GRACE="1", PROMPT="0", UNJUDGED="warn")
        host.does("end-sessions", "desk-host", "end-sessions")
        said = host.run("desk-host", "check").stdout
        is_named = "it cannot be judged: ann's " in said and "sudo wrote nothing down of it" in said
        host.check("past its time check names it", is_named, said)
        host.conf("http://127.0.0.1:1", GRACE="1", PROMPT="0")
        said = host.does("end-sessions", "desk-host", "end-sessions")
        is_told = "it cannot be judged (sudo wrote nothing down of it)" in said
        host.check("past its time it is ended", is_told and not sudos(host), said)
    host.conf("http://127.0.0.1:1")


def switched(host: Host) -> None:
    """`desk-host plugin on` where sudo then does not start: what stood there comes back."""
    if not host.is_fit:
        return
    before = host.read("/etc/sudo.conf")
    there_is = re.findall("(?m)^Plugin desk_host .*$", before)
    host.check("sudo's settings name it once", len(there_is) == 1, before)
    plugin = there_is[0].split()[2]
    host.copy(host.path(plugin), "/tmp/plugin.so")
    host.write(plugin, "none")
    says = "/etc/sudo.conf is as it was"
    host.does("a plugin that is none", "desk-host", "plugin", "on", status=1, says=says)
    host.copy(host.path("/tmp/plugin.so"), plugin)
    host.does("desk-host plugin off", "desk-host", "plugin", "off", says="^$")
    after = host.read("/etc/sudo.conf")
    host.check("it is out", "desk_host" not in after and len(after) > 100, after)
    host.drop(plugin)
    host.does("no plugin", "desk-host", "plugin", "on", status=1, says="is not there")
    host.copy(host.path("/tmp/plugin.so"), plugin)
    host.does("desk-host plugin on", "desk-host", "plugin", "on", says="^$")
    host.check("it is in again", host.read("/etc/sudo.conf") == before)


PARTS = (
    resolved,
    gone,
    edits,
    removed,
    left_behind,
    moved,
    unwritten,
    hostile_beside,
    in_turn,
    elsewhere,
    waits,
    by_words,
    unrecorded,
    switched,
)
