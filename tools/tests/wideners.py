"""Sudoers files whose bases once gave more than the file: each with its other files, a question to
which sudo answers no, and why."""

from typing import NamedTuple

MORE = "/srv/more"
DENIES = "ann ALL = !/srv/bin/kill\n"
ALLOWS = "ann ALL = ALL\n"


class File(NamedTuple):
    """A file that is included, its mode, and whose it is."""

    text: str
    mode: int = 0o440
    owner: int = 0
    group: int = 0


class Widener(NamedTuple):
    """A case: `asks` has the user, the host, the target and the command. With `hosts` there is a
    list of hosts. Where `is_run`, the user runs the command, with `group` if there is one, since
    `sudo -l -U` takes other Defaults; where `is_nobody`, nobody makes the base, and not root."""

    name: str
    text: str
    files: dict[str, File] = {}
    asks: tuple[str, ...] = ("ann", "db1", "root", "/srv/bin/kill")
    hosts: str = ""
    group: str = ""
    is_nobody: bool = False
    is_run: bool = False


def including(line: str) -> str:
    return f"{ALLOWS}{line}\n"


DENYING = {"denies": File(DENIES)}
GIVING = {"gives": File("ann ALL = (ALL) /srv/bin/kill\n")}
WIDENERS = [
    Widener("an indented #include, which is a comment", f"  #include {MORE}/gives\n", GIVING),
    Widener(
        "an #include with a comment behind it",
        including(f"#include {MORE}/denies # ours"),
        DENYING,
    ),
    Widener(
        "a comment that ends in a backslash",
        'ann ALL = ALL, /srv/bin/ls " # " \\\nann ALL = !/srv/bin/kill\n',
    ),
    Widener(
        "a comment behind a backslash that is quoted",
        "ann ALL = ALL, /srv/bin/ls \\\\# \\\nann ALL = !/srv/bin/kill\n",
    ),
    Widener(
        "runas_default of one user",
        "Defaults:ann runas_default=op\nann ALL = NOPASSWD: /srv/bin/kill\n",
        is_run=True,
    ),
    Widener("runas_default of one host", "Defaults@db1 runas_default=op\nann ALL = /srv/bin/kill\n"),
    Widener("runas_default that is no name", "Defaults runas_default=Op\nann ALL = /srv/bin/kill\n"),
    Widener(
        "runas_default inside of a quoted value",
        'Defaults passprompt="hello, runas_default=op"\nann ALL = /srv/bin/kill\n',
        asks=("ann", "db1", "op", "/srv/bin/kill"),
    ),
    Widener(
        "an include with the host's name in it",
        f"{ALLOWS}@include {MORE}/for-%h\n",
        {"for-HOST": File(DENIES)},
    ),
    Widener(
        "a file to which all may write",
        f"@include {MORE}/gives\n",
        {"gives": File(ALLOWS, 0o666)},
    ),
    Widener(
        "a file of a directory to which a group may write",
        f"@includedir {MORE}\n",
        {"gives": File(ALLOWS, 0o664, 0, 2001)},
    ),
    Widener("a file of another", f"@include {MORE}/gives\n", {"gives": File(ALLOWS, 0o440, 2001)}),
    Widener(
        "a wildcard without a dot, and a name with one",
        "ann d*g = ALL\n",
        hosts="10.0.0.1 db1.example.org db1\n10.0.0.2 web1.example.org web1\n",
    ),
    Widener(
        "a name that another host has before its dot",
        "ann db1.example.org = ALL\n",
        hosts="10.0.0.9 db1.other.org db1\n10.0.0.1 db1.example.org db2\n",
    ),
    Widener("a group that is an option to getent", "%-sfiles ALL = ALL\n"),
    Widener("a group named by digits", "%3001 ALL = ALL\n"),
    Widener(
        "aliases in a circle",
        "Cmnd_Alias A = ALL, !B\nCmnd_Alias B = /srv/bin/kill, A\nann ALL = A\n",
    ),
    Widener(
        "root without sudo",
        "Defaults !root_sudo\nroot ALL = ALL\n",
        asks=("root", "db1", "root", "/srv/bin/kill"),
    ),
    Widener(
        "an include that cannot be read", including(f"@include {MORE}/denies"), DENYING, is_nobody=True
    ),
    # of the same classes
    Widener("nobody without a terminal", f"Defaults requiretty\n{ALLOWS}"),
    Widener("a user who is named ALL", '"ALL" ALL = ALL\n'),
    Widener("a host that is named ALL", "ann A\\LL = ALL\n"),
    Widener(
        "a blank in a path",
        "ann ALL = /srv/bin/kill\\ -9\n",
        asks=("ann", "db1", "root", "/srv/bin/kill", "-9"),
    ),
    Widener(
        "one number and two names",
        "ALL ALL = ALL\n#2101 ALL = !/srv/bin/kill\n",
        asks=("twin", "db1", "root", "/srv/bin/kill"),
    ),
    Widener(
        "one group's number and two names",
        "ALL ALL = ALL\n%crew ALL = !/srv/bin/kill\n",
        asks=("twin", "db1", "root", "/srv/bin/kill"),
    ),
    Widener(
        "a denial for a group as target",
        "ann ALL = (ann) NOPASSWD: /srv/bin/kill, (:mates) !/srv/bin/kill\n",
        asks=("ann", "db1", "ann", "/srv/bin/kill"),
        group="mates",
        is_run=True,
    ),
    Widener(
        "a group that is denied as target",
        "ann ALL = (ann : !mates) NOPASSWD: /srv/bin/kill\n",
        asks=("ann", "db1", "ann", "/srv/bin/kill"),
        group="mates",
        is_run=True,
    ),
    Widener(
        "a list that denies an alias that denies",
        f"Host_Alias H = db1, !db1\n{ALLOWS}ann !H = !/srv/bin/kill\n",
    ),
    # what is left out had held back what a line above gives
    Widener(
        "a CHROOT below a line without",
        "ALL ALL = NOPASSWD: /srv/bin/kill\nann ALL = CHROOT=/etc NOPASSWD: /srv/bin/kill\n",
        is_run=True,
    ),
    Widener(
        "a CWD for a netgroup, of a pattern",
        "ALL ALL = NOPASSWD: /srv/bin/kill\n+net ALL = CWD=/none NOPASSWD: /srv/bin/k*\n",
        asks=("eve", "db1", "root", "/srv/bin/kill"),
        is_run=True,
    ),
    Widener(
        "a NOEXEC below a line without",
        "ALL ALL = NOPASSWD: /bin/sh\nann ALL = NOPASSWD: NOEXEC: /usr/bin/sh\n",
        asks=("ann", "db1", "root", "/bin/sh", "-c", "/bin/true; exit $?"),
        is_run=True,
    ),
    Widener(
        "a NOEXEC of an alias that denies",
        "Cmnd_Alias C = ALL, !/srv/bin/ls\nALL ALL = NOPASSWD: ALL\n"
        "ann ALL = NOPASSWD: NOEXEC: C\n",
        asks=("ann", "db1", "root", "/bin/sh", "-c", "/bin/true; exit $?"),
        is_run=True,
    ),
    *(
        Widener(
            f"a PASSWD beside Defaults{scope} !authenticate",
            f"Defaults{scope} !authenticate\n"
            "ann ALL = (root) /srv/bin/ls, PASSWD: /srv/bin/kill\n",
            is_run=True,
        )
        for scope in ("", ":ann", "!/srv/bin/kill", ">root")
    ),
    Widener(
        "Defaults of an alias of which a part cannot be said",
        "Cmnd_Alias A1 = /bin/sh, /srv/bin/l*\nDefaults!A1 noexec\n"
        "ann ALL = NOPASSWD: /bin/sh, A1\n",
        asks=("ann", "db1", "root", "/bin/sh", "-c", "/bin/true; exit $?"),
        is_run=True,
    ),
    Widener(
        "an alias that the host has for something else",
        "Cmnd_Alias A1 = /srv/bin/ls\nDefaults!A1 !lecture\nann ALL = A1\n",
    ),
    Widener("a time of the host's own zone", "ann ALL = NOTBEFORE=2026010510 ALL\n"),
]
