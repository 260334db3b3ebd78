"""Random sudoers files with whatever sudo reads otherwise than one would think: comments that end
in a backslash, included files that sudo passes over, Defaults of every scope, words in quotes."""

import random
import re

from wideners import MORE, File, Widener

USERS = ("ann", "bob", "eve", "kim", "op")
PASSWD = "first:x:2101:2101::/:/bin/sh\ntwin:x:2101:2101::/:/bin/sh\n"
HOSTS = """\
127.0.0.1 localhost
10.0.0.9 db1.other.org db1
10.0.0.1 db1.example.org db2
10.0.0.2 web1.example.org web1
"""
DATABASES = {
    "group": """\
root:x:0:
wheel:x:3001:ann,bob
ops:x:3002:kim
empty:x:3003:
crew:x:3010:eve
also-crew:x:3010:twin
mates:x:3011:ann
""",
    "netgroup": "net (,eve,)\nhosts (db1,,) (db1.example.org,,)\n",
    "hosts": HOSTS,
}
FILES = ("bin/ls", "bin/lsof", "bin/kill", "bin/ls -l", "sbin/tool")
HOST_WORDS = ("db1", "db2", "web1")
COMMANDS = ("/srv/bin/ls", "/srv/bin/lsof", "/srv/bin/kill", "/srv/sbin/tool")
COMMENTS = (
    "# a comment", "# it ends in a backslash \\", '# it is "quoted', "#", "#- and more", '# " \\',
    f"# #include {MORE}/part", f"  #include {MORE}/part", "#includes are read \\", "\t# kim ALL = ALL",
)  # fmt: skip
BEHIND = (" # a comment", " # ends \\", ' # "', ' # " \\', "\t# ann ALL = ALL", " #")
DEFAULTS = (
    "Defaults:ann runas_default=op", "Defaults@db1 runas_default=op", "Defaults>op runas_default=kim",
    "Defaults!/srv/bin/ls runas_default=op", 'Defaults passprompt="x, runas_default=op"',
    'Defaults runas_default = "op"', "Defaults !root_sudo", "Defaults:root !root_sudo", "Defaults requiretty",
    "Defaults:ann, bob !requiretty", 'Defaults env_keep += "A B"', "Defaults !authenticate",
    "Defaults:%wheel !authenticate", "Defaults !use_netgroups", "Defaults@+hosts !lecture",
    "Defaults runas_default=op, !lecture", "Defaults !visiblepw", "Defaults:ann,%ops !lecture", "Defaults !lecture, \\\n    runas_default=kim",
    "Defaults runas_default=op # , runas_default=kim", "Defaults!C0 noexec", 'Defaults:"ann" !lecture',
)  # fmt: skip
ODD_USERS = ("%3001", "%#3001", "%-sfiles", '"ALL"', "A\\LL", "+net", "#2101", "%crew", '"ann"', '"%wheel"', "Ann", "UNKNOWN", "\\x61nn")
ODD_HOSTS = ("+hosts", '"ALL"', "d*1", "*1", "db1.example.org", "*.example.org", "db?", "DB2", "!d*g", "UNKNOWN")
ODD_COMMANDS = (
    "/srv/bin/ls\\ -l", "/srv/bin/ls a\\ b", "sudoedit /etc/motd", "list", "^/srv/bin/(ls|kill)$", "/srv/bin/ls ^-l$",
    "/srv/bin/l*", "/srv/*/kill", "/srv/bin/ls -*", '/srv/bin/ls " # "', "sha224:0GomF8mNN3wlDt1HD9XldjJ3SNgpFdbjO1+NsQ== /srv/bin/kill",
)  # fmt: skip
ODD_TARGETS = ("%ops", "#2002", "+net", "Op", "UNKNOWN", '"ALL"')
FLAGS = ("authenticate", "noexec", "intercept", "setenv", "sudoedit_follow", "log_input", "log_output")
TAGS = (
    *(f"{tag}: " for tag in "NOPASSWD PASSWD NOEXEC EXEC SETENV NOSETENV INTERCEPT NOINTERCEPT".split()),
    *(f"{tag}: " for tag in "FOLLOW NOFOLLOW LOG_INPUT LOG_OUTPUT NOLOG_OUTPUT MAIL NOMAIL".split()),
    "CWD=/ ", "NOTAFTER=2026010509Z ", "NOTBEFORE=2026010510Z ", "NOTBEFORE=2026010510 ", "TIMEOUT=60 ",
)  # fmt: skip
MODES = ((0o666, 0, 0), (0o664, 0, 2001), (0o440, 2001, 0), (0o464, 0, 0), (0o777, 0, 0))


def chosen(rng: random.Random, words: tuple[str, ...], odd: tuple[str, ...], most: int = 3) -> str:
    """A list of words, of which few are odd and some are denied."""
    found = []
    for _ in range(rng.randint(1, most)):
        word = rng.choice(odd) if rng.random() < 0.04 else rng.choice(words)
        is_denied = rng.random() < 0.2 and not word.startswith(("!", "sha"))
        found.append(f"{'!' if is_denied else ''}{word}")
    return ", ".join(found)


def marks(rng: random.Random) -> str:
    """A tag or an option, and often NOPASSWD, so that something runs without a password."""
    mark = rng.choice(TAGS) if rng.random() < 0.4 else ""
    free = "NOPASSWD: " if rng.random() < 0.3 else ""
    # (sudo takes an option in front of the tags alone)
    return mark + free if "=" in mark else free + mark


def rule(rng: random.Random) -> str:
    users = chosen(rng, (*USERS, "root", "ALL", "ALL", "%wheel", "%ops", "%empty", "#2002", "U0"), ODD_USERS)
    hosts = chosen(rng, (*HOST_WORDS, "ALL", "ALL", "ALL", "H0"), ODD_HOSTS, 2)
    parts = []
    for _ in range(rng.choice((1, 1, 2, 3))):
        targets = chosen(rng, ("root", "op", "kim", "ALL", "R0"), ODD_TARGETS, 2)
        groups = rng.choice(("", "", "", " : op", " : !op"))
        # (no `()`: it means whoever asks, and for `sudo -l -U` that is root)
        target = rng.choice(("", "", f"({targets}{groups}) ", f"({targets}) ", "(: op) "))
        words = (*COMMANDS, "ALL", "ALL", "/srv/bin/", "/srv/bin/ls -l", '/srv/bin/ls ""', "C0", "C1")
        parts.append(f"{target}{marks(rng)}{chosen(rng, words, ODD_COMMANDS, 2)}")
    return f"{users} {hosts} = {', '.join(parts)}"


def aliases(rng: random.Random) -> list[str]:
    inner = "C0" if rng.random() > 0.04 else "C1"
    found = [
        f"User_Alias U0 = {chosen(rng, (*USERS, 'ALL', '%wheel'), ODD_USERS)}",
        f"Host_Alias H0 = {chosen(rng, (*HOST_WORDS, 'ALL'), ODD_HOSTS)}",
        f"Runas_Alias R0 = {chosen(rng, ('root', 'op', 'kim', 'ALL'), ODD_TARGETS)}",
        f"Cmnd_Alias C0 = {chosen(rng, (*COMMANDS, 'ALL', '/srv/bin/'), ODD_COMMANDS)}",
        f"Cmnd_Alias C1 = {chosen(rng, (*COMMANDS, 'ALL', inner), ODD_COMMANDS)}",
    ]
    rng.shuffle(found)
    return found


def broken(rng: random.Random, line: str) -> str:
    """A line with a comment behind it, and continued."""
    if rng.random() < 0.15 and ", " in line:
        line = line.replace(", ", rng.choice((", \\\n  ", " \\\n,", ",\\\n")), 1)
    return line + (rng.choice(BEHIND) if rng.random() < 0.15 else "")


def included(rng: random.Random, lines: list[str], files: dict[str, File], number: int) -> str:
    """The line that includes some lines, which become a file."""
    name = f"part{number}"
    odd = rng.choice(MODES) if rng.random() < 0.15 else (0o440, 0, 0)
    text = "".join(f"{line}\n" for line in lines)
    directive = rng.choice(("@include", "#include", "@include", "  @include", "  #include"))
    if rng.random() < 0.3:
        files[f"d{number}/{name}"] = File(text, *odd)
        return f"{directive}dir {MORE}/d{number}"
    files[name] = File(text, *odd)
    path = f'"{MORE}/{name}"' if rng.random() < 0.2 else f"{MORE}/{name}"
    path = f"{MORE}/%h" if rng.random() < 0.05 else path
    return f"{directive} {path}{rng.choice(('', '', ' # a comment', ' '))}"


def random_lines(rng: random.Random) -> list[str]:
    lines = [*aliases(rng), *(rule(rng) for _ in range(rng.randint(2, 5)))]
    lines = [broken(rng, line) for line in lines]
    for _ in range(rng.choice((0, 1, 2))):
        lines.insert(rng.randrange(len(lines) + 1), rng.choice(COMMENTS))
    for _ in range(rng.choice((0, 0, 0, 1, 1, 2))):
        line = scoped_flag(rng) if rng.random() < 0.5 else rng.choice(DEFAULTS)
        lines.insert(rng.randrange(len(lines) + 1), line)
    return lines


def scoped_flag(rng: random.Random) -> str:
    """A Defaults line of a tag's flag, of any scope and sign."""
    scope = rng.choice(("", ":ann", ":%wheel", "@db1", ">root", ">op", "!/srv/bin/ls", "!C0", ":U0", "@H0", ">R0"))
    return f"Defaults{scope} {rng.choice(('', '!'))}{rng.choice(FLAGS)}"


def random_text(rng: random.Random, name: str) -> Widener:
    """A file that includes none."""
    return Widener(name, "".join(f"{line}\n" for line in random_lines(rng)))


def random_case(rng: random.Random, name: str) -> Widener:
    lines = random_lines(rng)
    files: dict[str, File] = {}
    for number in range(rng.choice((0, 0, 1, 1, 2))):
        first = rng.randrange(len(lines))
        last = min(len(lines), first + rng.randint(1, 3))
        lines[first:last] = [included(rng, lines[first:last], files, number)]
    hosts = HOSTS if rng.random() < 0.5 else ""
    return Widener(name, "".join(f"{line}\n" for line in lines), files, hosts=hosts)


def named(rng: random.Random, line: str, words: tuple[str, ...]) -> str:
    """One of the words that the line names, if it names any."""
    found = [word for word in words if re.search(rf"(?<![\w/-]){word}(?![\w/-])", line)]
    return rng.choice(found or words)


def question(rng: random.Random, base: str) -> tuple[str, ...]:
    """An invocation of the words of one of the base's rules."""
    rules = [line for line in base.splitlines() if "_Alias " not in line] or [""]
    lists, _, rest = rng.choice(rules).partition(" = ")
    targets, _, command = rest.rpartition(") ")
    user = named(rng, lists, (*USERS, "root", "twin"))
    target = named(rng, targets, ("root", "op", "kim"))
    path = named(rng, command, COMMANDS)
    return user, named(rng, lists, HOST_WORDS), target, path, *rng.choice(((), (), ("-l",), ("x",)))
