"""desk-lint --near: each limit of rosters and bases is said before the desk refuses what is past
it."""

from __future__ import annotations

import os
import subprocess
from pathlib import Path

import pytest

from desk_tools import near
from conftest import ROOT, Run

SHOWN = Path(ROOT, "examples", "roster.toml").read_text()


def hosts(count: int) -> list[str]:
    return [f"h{number}" for number in range(count)]


def roster(**more: int) -> str:
    """A roster with so many of each."""
    many = {"hosts": 3, "duties": 3, "people": 3, "entries": 1, "ceilings": 1, "ceiling": 1} | more
    names = ", ".join(f'"{it}"' for it in hosts(many["hosts"]))
    duties = ", ".join(f'"d{it}"' for it in range(many["duties"]))
    lines = ['relays = ["chat"]', f"hosts = [{names}]", f"duties = [{duties}]", "conflicts = []"]
    held = ", ".join(
        f'{{ duty = "d0", from = "{20260101 + it // 28 * 100 + it % 28}", until = "20991231" }}'
        for it in range(many["entries"])
    )
    lines += ["[people]", *(f'p{it} = ["d1"]' for it in range(many["people"])), f"q = [{held}]"]
    some = ", ".join(f'"{it}"' for it in hosts(many["ceiling"]))
    for number in range(many["ceilings"]):
        lines += [
            f"[ceilings.c{number}]", f"hosts = [{some}]", 'runas = ["root"]', 'ask = "d0"',
            'commands = ["/usr/bin/id"]', 'approve = "d1"', "needs = 1", "longest = 3600",
        ]  # fmt: skip
    return "\n".join([*lines, ""])


@pytest.mark.parametrize(
    ("count", "key", "most"),
    [
        ("hosts", "hosts", 1024),
        ("duties", "duties", 256),
        ("people", "people", 4096),
        ("entries", "people.q", 256),
        ("ceilings", "ceilings", 1024),
        ("ceiling", "ceilings.c0.hosts", 256),
    ],
)
def test_each_limit_of_a_roster(
    tmp_path: Path, lint: Run, count: str, key: str, most: int
) -> None:
    """A limit is said from 90 of 100 on, and not before."""
    path = tmp_path / "roster.toml"
    for used, is_near in ((-(-most * 9 // 10), True), (most * 9 // 10 - 1, False), (most, True)):
        # (people and hosts have some beside these)
        few = {"ceiling": {"hosts": 300}}.get(count, {})
        path.write_text(roster(**{count: used - (count == "people")}, **few))
        said = lint(str(path), "--near").stdout
        told = f"{key}: {used:,} of {most:,} "
        assert (told in said) == is_near, (used, said[-500:])
        assert not any(" are used" in line and key not in line for line in said.splitlines()), said
        assert " are used" not in lint(str(path)).stdout


def test_the_bytes_of_a_roster(tmp_path: Path, lint: Run) -> None:
    path = tmp_path / "roster.toml"
    path.write_text(SHOWN + "#" * (950_000 - len(SHOWN) - 1) + "\n")
    ran = lint(str(path), "--strict", "--near")
    assert "950,000 of 1,048,576 bytes are used (90 %)" in ran.stdout and ran.returncode == 1, ran
    assert "are used" not in lint(str(path), "--near", "95").stdout


def test_other_percents(tmp_path: Path, lint: Run) -> None:
    path = tmp_path / "roster.toml"
    path.write_text(SHOWN)
    for word in ("0", "101", "x"):
        assert lint(str(path), "--near", word).returncode == 2, word
    assert "relays: 2 of 64 items" in lint(str(path), "--near", "3").stdout


def of_weight(hosts_of_last: int) -> str:
    """A base of 63 rules over an alias of 1,023 hosts, and one over so many."""
    whole, last = ", ".join(hosts(1023)), ", ".join(hosts(hosts_of_last))
    lines = [f"Host_Alias DESK_SITE = {whole}", f"Host_Alias DESK_SOME = {last}"]
    lines += ["ann DESK_SITE = (root) /usr/bin/id"] * 63 + ["ann DESK_SOME = (root) /usr/bin/id"]
    return "\n".join([*lines, ""])


def test_the_weight_is_the_desks(tmp_path: Path, lint: Run, desk: str) -> None:
    """Just at the limit the desk takes the base, and one name more is refused."""
    path = tmp_path / "base.sudo"
    shown = os.path.join(ROOT, "examples", "roster.toml")
    for some, said in ((895, ""), (896, "K6 BaseTooLarge\n")):
        path.write_text(of_weight(some))
        lines = near.canonical_of(desk, path.read_bytes()).splitlines()
        assert near.weight(lines) == 65_536 + some - 895
        words = [desk, "review", shown, str(path), "-", "20260105000000Z"]
        ran = subprocess.run(words, capture_output=True, text=True, check=False)
        assert ran.stderr.endswith(said) and bool(ran.returncode) == bool(said), ran
        told = lint(str(path), "--near", "--desk", desk).stdout
        assert f"{65_536 + some - 895:,} of 65,536 names and commands" in told, told


def test_the_entries_of_a_base(tmp_path: Path, lint: Run, desk: str) -> None:
    path = tmp_path / "base.sudo"
    path.write_text("ann db1 = (root) /usr/bin/id\n" * 3_700)
    told = lint(str(path), "--near", "--desk", desk).stdout
    assert "3,700 of 4,096 entries are used (90 %)" in told, told
