"""Six sudoers files as sites write them, and whom those of Debian's packages name."""

from __future__ import annotations

import re
from typing import NamedTuple

# who is named in them: accounts, and groups with their members
ACCOUNTS = ("ken", "carol", "dora", "deploy", "ci", "olga", "pam", "postgres", "op", "rpcuser")
GROUPS = {
    "ops": ("ken", "ann"),
    "dba": ("dora", "bob"),
    "helpdesk": ("pam",),
    "admin": ("carol",),
    "debci": ("ci",),
    "fvwm-crystal": ("olga",),
    "pconsole": ("op",),
    "x2gobroker": (),
    "x2gobroker-users": ("pam",),
    "nobodyinit": (),
}
MORE = "/etc/sudoers.ops"  # the file that the first site's includes
NETGROUPS = "admins (,olga,)\nfw (db1,,)\n"


class File(NamedTuple):
    """A host's sudoers file, and what else it reads, by the paths."""

    name: str
    text: str
    more: dict[str, str] = {}


SITES = (
    File(
        "operators",
        f"""\
Defaults env_reset, timestamp_timeout=5
Defaults:%ops !lecture
Host_Alias LAN = 10.0.0.0/8
Host_Alias DBS = db1, db2
User_Alias OPS = ken, %ops
Cmnd_Alias SERVICES = /usr/bin/systemctl restart nginx, \\
    /usr/bin/systemctl restart *, /usr/bin/journalctl
Cmnd_Alias BACKUP = /usr/bin/rsync *, /usr/local/sbin/backup daily, /usr/local/sbin/restore -d *
Runas_Alias OWNERS = postgres, op
OPS DBS = SERVICES, BACKUP
ann LAN = /usr/bin/tcpdump
ken ALL = (ALL:ALL) ALL
carol ALL = (OWNERS) NOPASSWD: /usr/bin/psql, /usr/bin/id
carol ALL = /usr/bin/tail -f /var/log/messages, !/usr/bin/tail *..*
@include {MORE}
""",
        {MORE: "Cmnd_Alias LOOK = /usr/bin/less, /usr/bin/du\nOPS ALL = NOEXEC: LOOK\n"},
    ),
    File(
        "databases",
        """\
%dba db1, db2 = (postgres) /usr/bin/psql, /usr/bin/pg_dump
%dba ALL = (postgres) CWD=/var/lib/postgresql /usr/bin/pg_ctl
%dba ALL = sudoedit /etc/postgresql/15/main/pg_hba.conf, sudoedit /etc/postgresql/15/main/pg.conf
%dba ALL = (root) NOPASSWD: /usr/bin/pg_ctlcluster 15 *
dora ALL = (postgres) NOTAFTER=20991231235959Z ALL
dora db1 = /usr/bin/du, /usr/bin/df -h
""",
    ),
    File(
        "web",
        """\
%dba web[0-9]* = (www-data) /usr/bin/git -C /srv/www pull, /usr/bin/php artisan *
deploy ALL = (root) /usr/bin/systemctl reload nginx, /usr/bin/tee /etc/nginx/conf.d/*
deploy ALL = (root) NOPASSWD: /usr/bin/docker, /opt/deploy/*
deploy ALL = sha224:0GomF8mNN3wlDt1HD9XldjJ3SNgpFdbjO1+NsQ== /usr/bin/id
deploy db[1-4] = (www-data) /usr/bin/git -C /srv/www pull
""",
    ),
    File(
        "builds",
        """\
Defaults:ci !requiretty, env_keep += "DEBIAN_FRONTEND HTTP_PROXY"
ci ALL = (root) NOPASSWD:SETENV: /usr/bin/apt-get update, /usr/bin/apt-get install -y *
ci ALL = (root) NOPASSWD: /usr/bin/apt-get clean
#0 ALL = /usr/bin/id
"build agent" ALL = NOPASSWD: /usr/bin/make
""",
    ),
    File(
        "help desk",
        """\
%helpdesk ALL = /usr/bin/passwd [A-Za-z]*, !/usr/bin/passwd root, !/usr/bin/passwd *root*
%helpdesk ALL = /usr/sbin/usermod -U *, /usr/bin/chage -l *, /usr/bin/lastlog
%nobodyinit ALL = (root) ALL
pam ALL = /usr/bin/lastlog -u pam
pam, pam, %helpdesk ALL = (op) NOPASSWD: /bin/ls, !/sbin/fdisk, /bin/df -h
""",
    ),
    File(
        "a directory",
        """\
Cmnd_Alias VIEW = /usr/bin/less, /usr/bin/vim
Defaults!VIEW noexec
Defaults>postgres !authenticate
+admins ALL = ALL
%AD\\\\Admins ALL = (ALL) ALL
olga +fw = /usr/bin/ip
olga ALL = NOEXEC: /usr/bin/less, TIMEOUT=5m /usr/bin/tcpdump -c 10, VIEW, /usr/bin/w
olga ALL = (postgres) /usr/bin/psql
""",
    ),
)


def named_in(text: str) -> list[str]:
    """The accounts that the rules of a package's file name, which the package makes."""
    users = re.findall(r"^([a-z][a-z-]*)\s+ALL\s*=", text, re.MULTILINE)
    targets = re.findall(r'\("?([a-z][a-z-]*)"?\)', text)
    targets += re.findall(r"^Runas_Alias\s+\w+ = ([a-z]+)$", text, re.MULTILINE)
    return list(dict.fromkeys([*users, *targets]))
