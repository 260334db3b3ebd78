"""Each file, imported and installed beside what stays on the host, is asked about by the real sudo:
nothing more, nothing less, and each rule that is not in the base is named."""

from __future__ import annotations

import collections
import os

from tests.moving.files import SITES, File
from tests.moving.root import FILE, SUDOERS, VERDICT, Mover

FOLDER = "/etc/sudoers.d"


def cases(host: Mover) -> list[File]:
    """Debian's own file untouched; behind it all packages' files, and each by itself, but in the
    short form; and sites' own."""
    own = File("Debian's own", host.own)
    apart = [
        File(name, host.own, {f"{FOLDER}/{name}": text}) for name, text in host.packages.items()
    ]
    held = {f"{FOLDER}/{name}": text for name, text in host.packages.items()}
    each = [] if host.is_short else apart
    return [own, *each, File("all packages'", host.own, held), *SITES]


def compared(host: Mover) -> None:
    """Each case on its own."""
    counts: collections.Counter[str] = collections.Counter()
    wanted = os.environ.get("CASES", "").split()
    for it in cases(host):
        if wanted and not any(word in it.name for word in wanted):
            continue
        host.furnish(it)
        counts.update(imported(host, it))
    print(f"{host.name}: rules: {', '.join(f'{n} {what}' for what, n in counts.items())}")


def imported(host: Mover, it: File) -> collections.Counter[str]:
    """The files of one case: how many of its rules are what."""
    host.sh("rm -f rest base")
    status, said = host.sh(f"desk-import --host db1={SUDOERS} --rest rest > base")
    host.check(f"{it.name}: it is imported", status == 0, said)
    named = collections.Counter(VERDICT.findall(said))
    rules = host.rules(SUDOERS, *it.more)
    unnamed = [place for place in rules if named[place] != 1]
    host.check(f"{it.name}: each rule has one verdict", not unnamed, f"{unnamed}: {said}")
    installed(host, it)
    verdicts = [line.split(": ")[1] for line in said.splitlines() if VERDICT.match(line)]
    return collections.Counter(verdicts)


def installed(host: Mover, it: File) -> None:
    """As a host has them: sudo reads both, and says the same as before."""
    host.sh("rm -rf old && mkdir old && cp -a /etc/sudoers* old")
    status, said = host.sh(
        "rm -f $(sed -n 's/^# in place of: //p' rest) && "
        f"install -m 440 rest {SUDOERS} && install -m 440 base {FILE} && visudo -c"
    )
    host.check(f"{it.name}: sudo reads what was made", status == 0, said)
    status, said = host.sh(f"desk-import compare --old old --rest rest --base {FILE} db1")
    is_same = status == 0 and said.endswith(" accounts on db1: 0 more, 0 less\n")
    host.check(f"{it.name}: sudo says the same", is_same, f"{status}: {said}")


def wider(host: Mover) -> None:
    """(The same comparison finds one right more, one less, and a setting.)"""
    host.furnish(File("", host.own))
    host.sh(f"desk-import --host db1={SUDOERS} --rest rest > base")
    for more, status, says in (
        ("op db1 = (root) /usr/bin/true", 3, "more: op: (root) /usr/bin/true"),
        ("root db1 = (root) !/usr/bin/true", 1, "less: root: (root) /usr/bin/true"),
        ("Defaults:root !authenticate", 3, "more: root: other Defaults"),
    ):
        host.sh(f"cp base other && echo '{more}' >> other")
        found, said = host.sh("desk-import compare --rest rest --base other db1")
        host.check(f"{more}: is found", found == status and says in said, f"{found}: {said}")


PARTS = (compared, wider)
