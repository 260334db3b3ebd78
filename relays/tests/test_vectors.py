"""The test vectors (scripts/vectors.py) are what the desk answers, and what the relay writes."""

import json
import subprocess
from pathlib import Path

from relays.tests.site import DESK, ROOT
from steelnewt_client.messages import canonical


def answers(folder: Path, roster: str, texts: list[str]) -> list[str]:
    """What the desk answers to each message."""
    (folder / "roster.toml").write_text(roster)
    words = [DESK, "deliver", str(folder / "roster.toml"), "/dev/null", "-", "web"]
    given = "".join(f"{it}\n" for it in texts)
    ran = subprocess.run(words, input=given, capture_output=True, text=True, timeout=60)
    return ran.stdout.splitlines()


def test_the_desk_answers_so(tmp_path: Path) -> None:
    words = ["python3", str(ROOT / "scripts" / "vectors.py")]
    ran = subprocess.run(words, capture_output=True, text=True, check=True)
    vectors = [json.loads(it) for it in ran.stdout.splitlines()]
    for roster in {it["roster"] for it in vectors}:
        asked = [it for it in vectors if it["roster"] == roster]
        wanted = [it["answer"] for it in asked]
        assert answers(tmp_path, roster, [it["text"] for it in asked]) == wanted
    written = [it for it in vectors if "members" in it]
    assert [canonical(it["members"]) for it in written] == [it["text"] for it in written]
    for kind in ("ack", "A", "M2", "M3"):
        assert sum(it["answer"].startswith(kind) for it in vectors) > 10, kind
