"""Words of a base for which the desk likely refuses it: their forms, and what to do.

The desk names a line and a code. A form that fits is a guess at the word; the desk is asked about
the line with something harmless in its place.
"""

import re
from collections.abc import Iterable, Iterator

# (a # in a word begins none, nor does #1000 or #include: the desk refuses them)
COMMENT = re.compile(r"(?:(?<=\s)|^)#(?![0-9]|include).*")
# the hosts of a rule, and of an alias
HOSTS = r"^(?:[ \t]*Host_Alias[ \t][^/]*?|[^=/]*?)(?<![^\s,!=])"
IN_AN_ALIAS = r"^[ \t]*Host_Alias[ \t].*?(?<![^\s,!=])"
# what stands before a command, and behind a word
COMMANDS = r"^(?![ \t]*(?:User|Runas|Host)_Alias)[^=]*=(?:.*[,:)=])?[ \t]*!*"
ENDS = r"(?=[ \t]*(?:[,:]|$))"
LIKELY: dict[str, list[tuple[str, str]]] = {
    "S9": [
        (r"^[ \t]*Defaults\b.*", "leave it in the hosts' own /etc/sudoers"),
        (r"[@#]include(?:dir)?\b.*", "write the lines of that file here"),
        (r"(?<![^\s,!(])%:?[^\s,=:)]+", "name the group's users, or write an alias of them"),
        (r"(?<![^\s,!(])\+[^\s,=:)]+", "name the users or hosts of the netgroup"),
        (
            r"^[^=]*=.*[^\s,(!=][ \t]+(?P<word>#[0-9]\S*)",
            "write a blank behind the # of a comment",
        ),
        (r"(?<![^\s,!(])#-?[0-9]+", "write the user's name"),
        (
            r"\b(?:NO)?(?:EXEC|SETENV|LOG_INPUT|LOG_OUTPUT|MAIL|FOLLOW|INTERCEPT)[ \t]*:",
            "a base has the tags NOPASSWD and PASSWD alone: without NOEXEC or INTERCEPT the "
            "command may open a shell, so leave it out; leave out any other tag",
        ),
        (
            r"\b(?:TIMEOUT|CWD|CHROOT|ROLE|TYPE|PRIVS|LIMITPRIVS|APPARMOR_PROFILE)[ \t]*=[^\s,]*",
            "leave the command out, or the option, if that is meant",
        ),
        (r"\bsha(?:224|256|384|512)\b[^,]*", "list the command without its digest, or not at all"),
        (r"[^\s,]*sudoedit\b[^\s,]*", "leave it out: it edits any file"),
        (r"\([^)]*:[^)]*\)", "name target users alone, without a group"),
        (r"\([ \t]*\)", "name the target user"),
        (HOSTS + r"(?P<word>[\w.-]*[*?\[][^\s,=/:]*)", "list the hosts"),
        (
            r":[ \t]*(?:[^=/:(]*,[ \t]*)?(?P<word>[\w.-]*[*?\[][^\s,=/:]*)(?=[^=/:(]*=)",
            "list the hosts",
        ),
        (
            r"/[^\s,:=*?\[\]^$]+[ \t]+\*" + ENDS,
            "write the program alone: it may have any arguments, or none",
        ),
        (r"[^\s,]*[*?\[\]^$][^\s,]*", "list full paths, a directory, and the arguments"),
        (r"\"(?!\")[^\"]*\"", "write plain words: only \"\" stands between quotes"),
        (IN_AN_ALIAS + r"(?P<word>[a-z][\w-]*\.[\w.-]+)", "write the short name of the host"),
        (
            r"(?<![\w/.])[a-z][\w-]*\.[\w.-]+(?=[ \t]*(?:=|,[^=()/]*=))",
            "write the short name of the host",
        ),
        (
            r"(?<![\w.])(?:[0-9]+(?:\.[0-9]+){3}|[0-9A-Fa-f]*:[0-9A-Fa-f:]+)(?:/[0-9.]+)?",
            "write short host names",
        ),
        (r"(?<=[\s,=])list(?=[ \t,:]|$)", "leave it out: it shows what others may do"),
    ],
    "S3": [
        (
            r"_Alias[ \t]+(?P<word>[^\s=]*[^A-Z0-9_\s=][^\s=]*)",
            "write the alias's name in capitals: it has capitals, digits and _ alone",
        ),
        (r"(?<![^\s,!(])[A-Za-z_][\w.-]{32,}", "a name has up to 32 bytes"),
        (
            r"(?<![^\s,!(])(?!\w+_Alias\b)[A-Z][\w.-]*[a-z][\w.-]*",
            "a name has lower-case letters alone",
        ),
        (r"/[^\s,]*(?://|/\.\.?(?=/|[\s,]|$))[^\s,]*", "no part of a path is empty, . or .."),
        (
            COMMANDS + r"(?P<word>[a-z][\w.+-]*(?:/[^\s,]*)?)(?=[ \t,]|$)(?![ \t]*=)",
            "write the command's full path",
        ),
    ],
    "S4": [
        (r"^[^=]+$", "write it as USERS HOSTS = COMMANDS"),
        (r"^[ \t]*(?P<word>[^\s,=]+)[ \t]*=", "name the hosts, or ALL, behind the user"),
        (r"\b(?:NO)?PASSWD\b(?![ \t]*:)", "a tag has a : behind it"),
        (
            r"[^\s,:=)][ \t]+(?P<word>(?:NO)?PASSWD:)[ \t]*(?=,|$)",
            "write the tag before its command",
        ),
        (r"!(?=[ \t])", "no blank stands behind it"),
        (r",(?=[ \t]*$)", "take it out, or write what comes behind it"),
        (r"\([^()]*$", "close it with a ) behind the target"),
        (
            r"/[^\s,:=]*[ \t](?:[^\s,:=]+[ \t]+)*(?P<word>[^\s,:=\\]+[:=][^\s,]+)",
            "write a backslash before each : and = of an argument",
        ),
    ],
    "S8": [
        (
            r"NOT(?:BEFORE|AFTER)[ \t]*=[ \t]*[^\s,]*",
            "write a moment of the calendar in UTC, as 20260105090000Z, or with an offset as +0100",
        ),
    ],
    "S7": [(r"_Alias[ \t]+(?P<word>[A-Z_]+)", "the word is reserved: choose another name")],
    "S6": [(r"_Alias[ \t]+(?P<word>[A-Z0-9_]+)", "each name is defined once in its kind")],
    "S5": [
        (
            r"(?<![\w])[A-Z][A-Z0-9_]*(?![\w])",
            "define the alias on a line above, in its kind",
        )
    ],
}
KNOWN = {"ALL", "NOPASSWD", "PASSWD", "NOTBEFORE", "NOTAFTER", "Z"}
MARKS = ("NOPASSWD", "PASSWD", "!", ",")


def likely(code: str, text: str) -> Iterator[tuple[str, str]]:
    """The words of a line without its comment for which the desk may refuse it, the likeliest
    first, and what to do."""
    for form, remedy in LIKELY.get(code, []):
        for found in re.finditer(form, text):
            word = found.groupdict().get("word") or found[0]
            if code != "S5" or (word not in KNOWN and f"{word} =" not in text):
                yield word.strip(), remedy


def without(text: str, words: Iterable[str]) -> str:
    """A line with something harmless in the place of some words, wherever they stand."""
    for word in words:
        is_mark = word.endswith(":") or "=" in word or word in MARKS
        is_name = re.search(rf"_Alias[ \t]+{re.escape(word)}", text)
        other = "X" if is_name else "" if is_mark else "/x" if word.startswith("/") else "ALL"
        before = r"(?<![\w./-])" if word[0].isalnum() else ""
        behind = r"(?![\w.-])" if word[-1].isalnum() else ""
        text = re.sub(f"{before}{re.escape(word)}{behind}", other, text)
    return text
