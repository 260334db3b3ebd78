"""A host whose sudoers files are moved to a desk, in a root of its own."""

from __future__ import annotations

import os
import re
import shutil

from tests.common import desk, others_sudoers
from tests.hosts.root import FILE, USERS, Host
from tests.moving.files import ACCOUNTS, GROUPS, NETGROUPS, File, named_in

SUDOERS = "/etc/sudoers"
PROGRAM = os.path.abspath(os.environ.get("DESK", desk.PROGRAM[0]))
TOOLS = ("tools/desk-import", "tools/desk_tools", "tools/schemas", "steelnewt_client")
HOME = "/root/move"
VERDICT = re.compile(r"^(/.*?:[0-9]+): (?:kept|in part|gone|not for this host): ", re.MULTILINE)


# of a root's own accounts
KEPT = ("root", "daemon", "bin", "nobody", "www-data", "backup", "list", "sshd", "_apt")
FIRST = 5000  # the number of the first account that is made


class Mover(Host):
    """The host db1, with desk-import and the accounts that the files name."""

    own = ""  # Debian's own /etc/sudoers, as the package has it
    is_short = False

    def __init__(self, name: str, root: str, folder: str) -> None:
        super().__init__(name, root, folder)
        self.packages: dict[str, str] = {}  # the files of packages
        for path in others_sudoers.of_packages():
            with open(path, encoding="utf-8") as file:
                self.packages[os.path.basename(path)] = file.read()
        self.packaged = self.packages.pop("sudo-sudoers")

    def prepare(self) -> None:
        # (this machine's own may have been edited)
        is_this = self.name.startswith("this machine")
        self.own = self.packaged if is_this else self.read(SUDOERS)
        rows = self.read("/etc/passwd").splitlines(keepends=True)
        self.write("/etc/passwd", "".join(it for it in rows if it.split(":")[0] in KEPT))
        super().prepare()
        self.write("/etc/netgroup", NETGROUPS)
        self.append("/etc/nsswitch.conf", "netgroup: files\n")
        named = [it for text in self.packages.values() for it in named_in(text)]
        there = {*KEPT, *USERS}
        made = [it for it in dict.fromkeys([*ACCOUNTS, *named]) if it not in there]
        for number, name in enumerate(made, FIRST):
            self.append("/etc/passwd", f"{name}:x:{number}:100::/:/bin/sh\n")
        for number, (name, members) in enumerate(GROUPS.items(), FIRST):
            self.append("/etc/group", f"{name}:x:{number}:{','.join(members)}\n")
        self.install_tools()
        os.makedirs(self.path(HOME))

    def plug(self) -> None:
        """(What sudo starts is no matter here: it loads no plugin of ours.)"""

    def has(self, name: str) -> bool:
        return os.path.exists(self.path(name))

    def append(self, name: str, text: str) -> None:
        with open(self.path(name), "a", encoding="utf-8") as file:
            file.write(text)

    def install_tools(self) -> None:
        """desk-import and the desk, where the packages put them or beside."""
        top = self.path("/opt/steelnewt")
        for name in TOOLS:
            source, target = os.path.join(desk.ROOT, name), os.path.join(top, name)
            os.makedirs(os.path.dirname(target), exist_ok=True)
            if os.path.isdir(source):
                shutil.copytree(source, target, ignore=shutil.ignore_patterns("__pycache__"))
            else:
                shutil.copy(source, target)
        os.symlink("/opt/steelnewt/tools/desk-import", self.path("/usr/bin/desk-import"))
        self.copy(PROGRAM, "/usr/bin/desk")

    def furnish(self, it: File) -> None:
        """Puts a case in place: its sudoers file, and what that reads."""
        shutil.rmtree(self.path("/etc/sudoers.d"))
        os.mkdir(self.path("/etc/sudoers.d"), 0o755)
        for path, text in {SUDOERS: it.text, **it.more}.items():
            self.drop(path)
            self.write(path, text)
            os.chmod(self.path(path), 0o440)

    def sh(self, script: str) -> tuple[int, str]:
        """Runs a script in the folder of the move, as root."""
        ran = self.run("sh", "-c", f"export HOME=/root; cd {HOME} && {{ {script}\n}}")
        return ran.returncode, ran.stdout

    def rules(self, *paths: str) -> list[str]:
        """Where the rules stand in files, by `desk-import`'s own word for a place."""
        found = []
        for path in paths:
            lines = self.read(path).replace("\\\n", "\\ ").split("\n")
            # (a line that is continued is known by its first)
            number = 1
            for line in lines:
                if re.match(r"\s*([^#@\s]|#\d)", line) and not line.startswith("Defaults"):
                    if not re.match(r"\s*\w+_Alias\s", line):
                        found.append(f"{path}:{number}")
                number += 1 + line.count("\\ ")
        return found


__all__ = ["FILE", "HOME", "SUDOERS", "VERDICT", "Mover"]
