"""Edits of a roster's people, on random layouts: the days are those that are meant, and comments
and all other lines stay."""

from __future__ import annotations

import random
import tomllib
from datetime import date, timedelta
from pathlib import Path

import pytest

from desk_tools.adding import added
from desk_tools.roster_text import CannotEdit, Days, RosterText, cut, held_by, merged, without
from desk_tools.site import FIRST, LAST

TODAY = "20260310"
DUTIES = ("one", "two")
HEAD = "relays = ['chat'] # first\n\n[people] # who\n"
TAIL = "\n# the rest\n[ceilings]\n"


def day(number: int) -> str:
    return (date(2026, 3, 1) + timedelta(days=number)).strftime("%Y%m%d")


def span(chance: random.Random) -> Days:
    first = chance.randrange(40)
    return Days(day(first), chance.choice([LAST, day(first + chance.randrange(20))]))


def entry(chance: random.Random) -> str:
    duty, days = chance.choice(DUTIES), span(chance)
    if chance.random() < 0.3:
        return f'"{duty}"'
    words = [f'duty = "{duty}"', f'from = "{days.first}"', f"until = '{days.last}'"]
    chance.shuffle(words)
    return "{ " + ", ".join(words) + " }"


def person(chance: random.Random, name: str) -> str:
    """A person's line or lines, in one of the layouts that people write."""
    entries = [entry(chance) for _ in range(chance.randrange(4))]
    comma = chance.choice(["", ","]) if entries else ""
    if chance.random() < 0.4:
        return f"{name} = [{', '.join(entries)}{comma}] # {name} here\n"
    marks = [f" # {name} {place}" if chance.random() < 0.5 else "" for place in range(4)]
    lines = "".join(f"    {it},{mark}\n" for it, mark in zip(entries[:-1], marks, strict=False))
    lines += "".join(f"    {it}{comma}{marks[3]}\n" for it in entries[-1:])
    return f"{name} = [\n    # about {name}\n{lines}]\n"


def days_of(text: str) -> dict[tuple[str, str], list[Days]]:
    people = tomllib.loads(text)["people"]
    return {(it, duty): held_by(people[it], duty) for it in people for duty in DUTIES}


def wanted(chance: random.Random) -> list[Days]:
    found = [span(chance) for _ in range(chance.randrange(3))]
    return cut(merged(found), TODAY, LAST)


def comments(text: str) -> list[str]:
    return sorted(line.partition("#")[2] for line in text.splitlines() if "#" in line)


def test_random_layouts() -> None:
    for seed in range(600):
        chance = random.Random(seed)
        names = ["ann", '"kim.l"', "bob"][: chance.randrange(1, 4)]
        text = HEAD + "".join(person(chance, it) for it in names) + TAIL
        before, edited = days_of(text), RosterText(text)
        asked = {(it.strip('"'), duty): wanted(chance) for it in [*names, "zoe"] for duty in DUTIES}
        for (name, duty), days in asked.items():
            edited.hold(name, duty, TODAY, days)
        found = edited.changed()
        after = days_of(found)
        for key, days in asked.items():
            old, new = before.get(key, []), after.get(key, [])
            held = cut(old, TODAY, TODAY)
            assert cut(new, TODAY, LAST) == merged([*days, *held]), (seed, key, found)
            assert cut(new, FIRST, day(8)) == cut(old, FIRST, day(8)), (seed, key, found)
        assert comments(found) == comments(text), (seed, found)
        assert found.startswith(HEAD) and found.endswith(TAIL), (seed, found)


def test_new_people_behind_a_line_without_an_end() -> None:
    """In the order in which they are named, each on a line, whatever ends the text before."""
    for end in ('ann = ["one"]', 'ann = ["one"] # ann', 'ann = ["one"]\n', ""):
        text = HEAD + end
        for names in (["zoe"], ["zoe", "kim.l", "bob"]):
            edited = RosterText(text)
            for name in names:
                edited.hold(name, "two", TODAY, [Days(TODAY, LAST)])
            found = edited.changed()
            assert found.startswith(text.rstrip("\n") + "\n") and found.endswith("]\n"), found
            fresh = tomllib.loads(found)["people"]
            assert [it for it in fresh if it != "ann"] == names, found
            assert all(days_of(found)[it, "two"] == [Days(TODAY, LAST)] for it in names), found


def test_days() -> None:
    """The days of spans that are taken away, beside sets of days."""
    chance = random.Random(1)
    for _ in range(500):
        one, other = ([span(chance) for _ in range(3)] for _ in range(2))
        sets = [{n for n in range(90) for it in spans if it.first <= day(n) <= it.last}
                for spans in (one, other)]  # fmt: skip
        left = without(merged(one), merged(other))
        assert {n for n in range(90) for it in left if it.first <= day(n) <= it.last} == (
            sets[0] - sets[1]
        )


ENVELOPE = (Path(__file__).parents[2] / "examples" / "break-glass.toml").read_text()
SITE = (Path(__file__).parents[2] / "examples" / "roster.toml").read_text()


def test_the_envelope_is_added() -> None:
    """What a roster has stays, to the letter; what it lacks is there; and once more changes
    nothing."""
    found = added(SITE, ENVELOPE, "break-glass.toml")
    old, new, more = (tomllib.loads(it) for it in (SITE, found, ENVELOPE))
    assert new["people"] == old["people"] | {"glass": ["break-glass"]}
    assert new["duties"] == [*old["duties"], "break-glass", "on-call"]
    assert new["conflicts"] == [*old["conflicts"], ["break-glass", "on-call"]]
    assert new["ceilings"] == old["ceilings"] | more["ceilings"]
    assert comments(found) == comments(SITE)
    assert added(found, ENVELOPE, "break-glass.toml") == found


@pytest.mark.parametrize(
    ("more", "says"),
    [
        ("[ceilings.db-care]\nask = 'operate-db'\n", "the roster has another ceiling db-care"),
        ("[ceilings]\nx = { ask = 'on-call' }\n", "write .ceilings.x."),
        ("[people\n", "more.toml:1: "),
        ("host = ['db9']\n", "no roster has such a host"),
        ("hosts = 'db9'\n", "no roster has such a hosts"),
        ("[people]\nann = 'operate-db'\n", "ann is no list"),
    ],
)
def test_what_cannot_be_added(more: str, says: str) -> None:
    with pytest.raises(CannotEdit, match=says):
        added(SITE, more, "more.toml")


def test_entries_of_people_and_lists_on_several_lines() -> None:
    more = "hosts = ['db9']\nconflicts = [['audit', 'approve-db']]\n[people]\nann = ['audit']\n"
    found = tomllib.loads(added(SITE.replace('["db1", "db2", "web1"]', '[\n  "db1",\n]'), more, ""))
    assert found["hosts"] == ["db1", "db9"] and found["people"]["ann"] == ["operate-db", "audit"]
    assert found["conflicts"] == [["approve-db", "audit"]]
