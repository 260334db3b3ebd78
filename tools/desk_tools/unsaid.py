"""Why something of a sudoers file cannot be said in a base, and the edit by which it could be."""

from typing import NamedTuple

from desk_tools.sudoers import Place


class Reason(NamedTuple):
    why: str
    edit: str = ""


NO_TAG = "without it the command may "
REASONS = {
    "name": Reason(
        "no user of the desk has such a name: it has lower-case letters, digits and . _ - alone, "
        "up to 32 bytes"
    ),
    "no name": Reason("an empty target means whoever asks", "name the target"),
    "nobody": Reason("it is nobody now", "name the users, or take the rule out"),
    "no group": Reason("there is no such group or number, or groups share one", "name the users"),
    "unsure group": Reason(
        "nsswitch.conf has more than files, so nobody can tell who else is in it: a denial has to "
        "name all",
        "name the users",
    ),
    "plugin": Reason("a plugin of sudo says who is in it", "name the users"),
    "netgroup": Reason(
        "no netgroup of that name is listed, or it has a domain", "name its members"
    ),
    "no alias": Reason("no alias of that name is defined", "define it"),
    "host": Reason(
        "a base has short host names alone",
        "name the hosts, or give --host-list a file of them in the form of /etc/hosts",
    ),
    "target group": Reason(
        "a group as target (sudo -g)", "name target users alone, or give --without-target-groups"
    ),
    "runas_default": Reason(
        "runas_default of some, or of no name: the target is not sure", "name the rule's target"
    ),
    "digest": Reason("a digest", "leave the digest out, if nobody else may write the file"),
    "sudoedit": Reason("sudoedit edits a file as the target"),
    "list": Reason("`list` shows what others may do"),
    "directory": Reason(
        "a wildcard",
        "write the directory with its slash, which takes in names that begin with a dot",
    ),
    "regex": Reason("a regular expression", "list full paths, or a directory"),
    "path": Reason("a base has no such path", "list full paths, or a directory"),
    "argument": Reason("a base compares arguments whole: none stands for several"),
    "freer": Reason(
        "it gives the same more freely, and the base would not name all whom this rule names",
        "name the users, or take that rule out",
    ),
    "large": Reason("it is over the limits of a policy (S10)", "make shorter lists"),
    "never": Reason("it never holds in a desk's time, 1970 to 2099", "take the rule out"),
    "NOEXEC": Reason(f"{NO_TAG}open a shell", "leave the tag out only if that is meant"),
    "EXEC": Reason("a Defaults line has noexec", "take noexec out of the Defaults"),
    "INTERCEPT": Reason(f"{NO_TAG}run any other", "leave the tag out only if that is meant"),
    "NOINTERCEPT": Reason("a Defaults line has intercept", "take intercept out of the Defaults"),
    "PASSWD": Reason(
        "a Defaults line has !authenticate, and a base cannot take it back",
        "write NOPASSWD into the rules that need it, in place of the Defaults",
    ),
    "SETENV": Reason("without it the command's environment cannot be set", "leave the tag out"),
    "NOSETENV": Reason("ALL, or a Defaults line, lets the environment be set", "list the commands"),
    "FOLLOW": Reason("without it sudoedit follows no links", "leave the tag out"),
    "NOFOLLOW": Reason("a Defaults line has sudoedit_follow", "take it out of the Defaults"),
    "LOG_INPUT": Reason(f"{NO_TAG}go unlogged", "write a Defaults line for the command"),
    "LOG_OUTPUT": Reason(f"{NO_TAG}go unlogged", "write a Defaults line for the command"),
    "NOLOG_INPUT": Reason("a Defaults line has log_input", "write it for the other commands"),
    "NOLOG_OUTPUT": Reason("a Defaults line has log_output", "write it for the other commands"),
    "TIMEOUT": Reason(f"{NO_TAG}run on", "a grant through the desk ends its rights instead"),
    "CWD": Reason("without it the command runs in another directory"),
    "CHROOT": Reason("without it the command runs outside of it"),
    "ROLE": Reason("without it the command runs in another context"),
    "TYPE": Reason("without it the command runs in another context"),
    "APPARMOR_PROFILE": Reason("without it the command runs unconfined"),
    "PRIVS": Reason("without it the command runs with other privileges"),
    "LIMITPRIVS": Reason("without it the command runs with other privileges"),
}


class Unsaid(Exception):
    """Something that has no words in a base: where, as it stands there, and the class of why."""

    def __init__(self, place: Place, what: str, kind: str, odd: str = "") -> None:
        super().__init__(what)
        self.place, self.what, self.kind, self.odd = place, what, kind, odd

    def __str__(self) -> str:
        reason = REASONS[self.kind]
        byte = f" (`{self.odd}`)" if self.odd else ""
        edit = f"; {self.edit()}" if self.edit() else ""
        return f"{self.what}: {reason.why}{byte}{edit}"

    def edit(self) -> str:
        found = REASONS[self.kind].edit
        return f"{found}: {self.what[:-1]}" if self.kind == "directory" else found
