"""Where a program finds the broker: in its environment, else in the site's file."""

from __future__ import annotations

import os
from pathlib import Path

import pytest
from desk_broker.settings import BadSettings, told

FILE = "# ours\nBROKERS=b1:5671,b2:5671\nBROKER_CA = /etc/desk/ca.pem\n\nodd\n"


def test_the_file_where_the_environment_names_no_brokers(tmp_path: Path) -> None:
    path = tmp_path / "broker.conf"
    path.write_text(FILE)
    found = told({"BROKER_PASSWORD_FILE": "p"}, str(path))
    assert found == {
        "BROKER_PASSWORD_FILE": "p",
        "BROKERS": "b1:5671,b2:5671",
        "BROKER_CA": "/etc/desk/ca.pem",
    }
    # (a broker of the environment's has no authority of the file's)
    assert told({"BROKERS": "b3:5672"}, str(path)) == {"BROKERS": "b3:5672"}
    assert told({}, str(tmp_path / "none")) == {}


def test_a_file_that_cannot_be_read(tmp_path: Path) -> None:
    os.mkdir(tmp_path / "broker.conf")
    with pytest.raises(BadSettings, match="Is a directory"):
        told({}, str(tmp_path / "broker.conf"))
