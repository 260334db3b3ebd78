"""desk-lint and the desk agree: on whether a text is refused, and on the first code."""

from __future__ import annotations

import collections
import glob
import itertools
import os
import random
import subprocess
import tomllib
from pathlib import Path
from typing import Any

import pytest

from desk_tools import admission, base_faults, message_faults, roster_faults, toml_text
from desk_tools.found import coded, first_code
from desk_tools.site import Site
import texts
from conftest import ROOT

BASE_WORDS = "ann ALL %wheel +net #1000 Db1 db1.example.org 10.0.0.1 /bin/ls /bin/l* sudoedit NOEXEC: NOTAFTER=2026 OPS (root) (: op) list".split()
BASE_MARKS = ["\\\n", " \\\n", "\n", ",", "=", "!", ":", "#", "\\", '"', "(", ")", "\r", "\x1b", "é", "Defaults x\n", "@include x\n", " "]
EXAMPLE = os.path.join(ROOT, "examples", "roster.toml")


def answer(desk: str, roster: str, given: bytes = b"") -> subprocess.CompletedProcess[bytes]:
    """What the desk says: the code of the roster, or the answer to each line."""
    words = [desk, "deliver", roster, "/dev/null", "-", "chat"]
    return subprocess.run(words, input=given, capture_output=True, check=False)


def test_rosters(desk: str, tmp_path: Path, pytestconfig: pytest.Config) -> None:
    path, wrong = tmp_path / "roster", []
    seen = collections.Counter[str]()
    for data in texts.rosters(pytestconfig.getoption("rosters")):
        path.write_bytes(data)
        ran = answer(desk, str(path))
        theirs = ran.stderr.decode().strip() if ran.returncode else "read"
        code = first_code(roster_faults.Roster(data).look())
        seen[theirs] += 1
        if theirs != (coded(code) if code else "read"):
            wrong.append((data.decode("utf-8", "replace"), theirs, code))
    print(f"rosters: {dict(seen)}")
    assert not wrong, f"{len(wrong)} otherwise, among them: {wrong[:3]}"
    assert pytestconfig.getoption("rosters") < 400 or len(seen) == 8, seen


def test_limits(desk: str, tmp_path: Path) -> None:
    """Each name, number and count at its limit, and one past it."""
    path, wrong = tmp_path / "roster", []
    seen = collections.Counter[str]()
    for what, text in texts.limits():
        path.write_text(text, encoding="utf-8")
        ran = answer(desk, str(path))
        theirs = ran.stderr.decode().strip() if ran.returncode else "read"
        code = first_code(roster_faults.Roster(text.encode()).look())
        seen[theirs] += 1
        if theirs != (coded(code) if code else "read"):
            wrong.append((what, theirs, code))
    assert not wrong, wrong
    assert seen["read"] > 20 and seen["O4 BadName"] > 20 and seen["O7 OutOfRange"] > 10, seen


def test_messages(desk: str, pytestconfig: pytest.Config) -> None:
    with open(EXAMPLE, "rb") as file:
        site = Site(roster_faults.Roster(file.read()).document.value)
    lines = texts.messages(pytestconfig.getoption("messages"))
    theirs = answer(desk, EXAMPLE, b"".join(line + b"\n" for line in lines)).stdout.decode().splitlines()
    assert len(theirs) == len(lines)
    wrong = []
    for line, said in zip(lines, theirs):
        message = message_faults.Message(line, 1)
        faults = message.look() or admission.Admission(site, message.value, 1).look()
        code = first_code(faults)
        if said != (coded(code) if code else "ack"):
            wrong.append((line[:300], said, faults))
    print(f"messages: {dict(collections.Counter(theirs))}")
    assert not wrong, f"{len(wrong)} otherwise, among them: {wrong[:3]}"
    assert pytestconfig.getoption("messages") < 4000 or len(set(theirs)) == 12, set(theirs)


def bases() -> list[str]:
    """The policies of cases/ and of the examples, and these with one or two of their parts changed."""
    found = []
    for path in sorted(glob.glob(os.path.join(ROOT, "cases", "check*.toml"))):
        with open(path, "rb") as file:
            found += [it for it in strings(tomllib.load(file)) if " = " in it and len(it) < 2000]
    for path in sorted(glob.glob(os.path.join(ROOT, "examples", "*.sudo"))):
        with open(path, encoding="ascii") as file:
            found.append(file.read())
    return found


def strings(value: Any) -> list[str]:
    inner = value.values() if isinstance(value, dict) else value if isinstance(value, list) else ()
    return [value] if isinstance(value, str) else [text for it in inner for text in strings(it)]


def test_bases(desk: str, tmp_path: Path, pytestconfig: pytest.Config) -> None:
    """desk-lint finds a fault where the desk refuses a base, and nowhere else."""
    chance, path = random.Random(54), tmp_path / "base"
    seen = collections.Counter[str]()
    known = bases()
    changed = (texts.changed(chance, chance.choice(known), BASE_WORDS, BASE_MARKS) for _ in range(10**9))
    given = [*chance.sample(known, min(60, len(known))), *itertools.islice(changed, pytestconfig.getoption("rosters") // 4)]
    for text in given:
        data = text.encode("utf-8", "surrogatepass")
        path.write_bytes(data)
        ran = subprocess.run([desk, "check", path], capture_output=True, text=True, check=False)
        base = base_faults.Base(desk, data)
        faults = base.look()
        theirs = ran.stderr.strip() if ran.returncode else "read"
        seen[theirs.partition(" line ")[0]] += 1
        assert bool(faults) == bool(ran.returncode), text
        assert (base.answer or "read") == theirs.partition(" line ")[0], text
        if faults and " line " in theirs:
            line = int(theirs.rpartition(" ")[2])
            assert any(fault.line == line and coded(fault.code) == base.answer for fault in faults), text
        if not faults:
            base_faults.warnings_of(data)
    print(f"bases: {dict(seen)}")
    assert seen["read"] > 20 and len(seen) > 6, seen


def test_toml_beside_tomllib(pytestconfig: pytest.Config) -> None:
    """What Python's reader of TOML 1.0 reads is read here, as the same value."""
    compared = 0
    for data in texts.rosters(pytestconfig.getoption("rosters") * 5, seed=3):
        try:
            theirs = tomllib.loads(data.decode())
        except (UnicodeDecodeError, tomllib.TOMLDecodeError):
            continue
        if any(isinstance(it, float) and it != it for it in theirs.values()):
            continue
        ours = toml_text.read(data)
        assert not ours.faults or "64 bits" in ours.faults[0].said, (data, ours.faults)
        if not ours.faults:
            compared += 1
            assert plain(ours.value) == plain(theirs), data
    assert compared > pytestconfig.getoption("rosters")


def plain(value: Any) -> Any:
    """A value in which dates are only dates."""
    if isinstance(value, dict):
        return {key: plain(it) for key, it in value.items()}
    if isinstance(value, list):
        return [plain(it) for it in value]
    if value is None or isinstance(value, str | bool | int):
        return value
    return repr(value) if isinstance(value, float) else "a date or a time"
