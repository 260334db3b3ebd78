#!/usr/bin/env python3
"""Which crates' further edits are told to be old (scripts/refused.py), over a copy of the crates:
those whose files changed, and those that cite what changed of the crates below them, and no others.
And the edits that the gate tries: so many, chosen by the tree, of few crates."""

from __future__ import annotations

import os
import shutil
import subprocess
import sys
import tempfile
from unittest import mock

from tests.common import desk
from tests.common.tally import Count

sys.path.insert(0, os.path.join(desk.ROOT, "scripts"))

import refused  # noqa: E402
import repository  # noqa: E402

SAMPLE = 10
# crates that cite nothing of sudo_decide
NOT_CITING = {"sudo_words", "sudo_policy", "sudo_syntax", "messages", "roster", "grants"}


def old_after(tree: str, path: str, old: str, new: str) -> set[str]:
    """The crates that are old while one text of a file is another."""
    folder, text = os.path.join(tree, "crates"), desk.read(tree, "crates", path)
    if text.count(old) != 1:
        sys.exit(f"{path}: {old!r} is there {text.count(old)} times")
    desk.write(folder, path, text.replace(old, new))
    refused.calls_of.cache_clear()
    try:
        return set(refused.old())
    finally:
        desk.write(folder, path, text)
        refused.calls_of.cache_clear()


def records(count: Count, tree: str) -> None:
    with_edits = [it for it in refused.crates(tree) if refused.edits_of(tree, it)]
    count.same("with no record", refused.old(), with_edits)
    for crate in with_edits:
        refused.keep(crate, 1, refused.basis(tree, crate))
    count.same("with all records", refused.old(), [])
    lines = desk.read(refused.RECORD).splitlines()
    count.same("a line for each crate", len(lines), len(with_edits) + 2)
    found = old_after(tree, "sudo_policy/src/lib.rt", "#![tactic(auto)]", "#![tactic(auto)]\n//")
    count.same("a body", found, {"sudo_policy"})
    edit = os.path.relpath(refused.edits_of(tree, "desk")[0], os.path.join(tree, "crates"))
    count.same("an edit", old_after(tree, edit, "# wrong:", "# wrong, once more:"), {"desk"})
    head = "-- What a policy decides of an invocation"
    found = old_after(tree, "sudo_decide/specs/Decision.antt", head, f"-- changed\n{head}")
    count.holds("definitions", {"sudo_decide", "sudo_compiled"} <= found, found)
    count.same("and not who cites none of them", found & NOT_CITING, set())


def contracts(count: Count, tree: str) -> None:
    """A contract that a crate calls, and one that it does not."""
    path = os.path.join(tree, "crates", "sudo_words", "src", "called.rt")
    for name, wanted in (("read_cmnd", True), ("nobody_calls_this", False)):
        desk.write(
            os.path.dirname(path),
            os.path.basename(path),
            f"pub fn {name}() -> u8\n    ensures {{ result ≡ 7 }}\n{{\n    7\n}}\n",
        )
        refused.calls_of.cache_clear()
        found = set(refused.old())
        count.holds(f"a contract of {name}: its crate", "sudo_words" in found, found)
        count.same(f"a contract of {name}: who calls it", "sudo_syntax" in found, wanted)
        os.unlink(path)
    refused.calls_of.cache_clear()


def samples(count: Count, tree: str) -> None:
    subprocess.run(["git", "init", "-q", tree], check=True)
    first = refused.sample(tree, SAMPLE)
    count.same("so many edits", sum(map(len, first.values())), SAMPLE)
    missing = [it for part in first.values() for it in part if not os.path.isfile(it)]
    count.same("they are there", missing, [])
    count.same("the same tree, the same edits", refused.sample(tree, SAMPLE), first)
    seen = set()
    for number in range(8):
        desk.write(tree, "page.md", f"{number}\n")
        chosen = refused.sample(tree, SAMPLE)
        full = [it for it in chosen if len(chosen[it]) == len(refused.edits_of(tree, it))]
        count.holds("of few crates", len(chosen) - len(full) <= 1, chosen)
        seen.add(str(chosen))
    count.holds("another tree, other edits", len(seen) > 4, len(seen))


def main() -> int:
    count = Count()
    with tempfile.TemporaryDirectory() as tree:
        ignored = shutil.ignore_patterns("out", "must-fail")
        shutil.copytree(
            os.path.join(desk.ROOT, "crates"), os.path.join(tree, "crates"), ignore=ignored
        )
        shutil.copy(os.path.join(desk.ROOT, "crates.txt"), tree)
        record = os.path.join(tree, "record")
        with (
            mock.patch.object(refused, "RECORD", record),
            mock.patch.object(repository, "ROOT", tree),
        ):
            records(count, tree)
            contracts(count, tree)
            samples(count, tree)
    print(f"the record of further edits: {count.tried} checks, {count.wrong} wrong")
    return 1 if count.wrong else 0


if __name__ == "__main__":
    sys.exit(main())
