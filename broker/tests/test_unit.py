"""The consumer's unit gives its process little: systemd's own tool says so."""

from __future__ import annotations

import pathlib
import re
import subprocess

UNIT = pathlib.Path(__file__).resolve().parents[2] / "packaging/units/desk-consume@.service"
MOST = 2.0


def test_its_exposure_is_small(tmp_path: pathlib.Path) -> None:
    unit = tmp_path / UNIT.name
    unit.write_text(UNIT.read_text().replace("@BINDIR@", "/usr/bin"))
    words = ["systemd-analyze", "security", "--offline=true", "--no-pager", str(unit)]
    said = subprocess.run(words, capture_output=True, text=True, check=True).stdout
    found = re.search(r"Overall exposure level for \S+: ([0-9.]+)", said)
    assert found and float(found[1]) < MOST, said
