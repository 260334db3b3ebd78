"""What /etc/desk/fetch.conf says."""

from __future__ import annotations

import os
import re
from collections.abc import Sequence
from typing import NamedTuple, Optional

from steelnewt_host.faults import Fault
from steelnewt_host.telling import log

PATH = "/usr/local/sbin:/usr/local/bin:/usr/sbin:/usr/bin:/sbin:/bin"
CONF = "/etc/desk/fetch.conf"
STATE = "/var/lib/desk-host"
RUN = "/run/desk-host"


class Settings(NamedTuple):
    """What /etc/desk/fetch.conf says, or the words of the command."""

    desks: tuple[str, ...] = ()
    cert: str = ""
    key: str = ""
    ca: str = ""
    file: str = "/etc/sudoers.d/desk"
    state: str = STATE
    back_after: Optional[int] = None
    stale_after: Optional[int] = None
    prompt: int = 60
    sessions: str = "end"
    grace: int = 60
    unjudged: str = "end"
    signed: str = "no"
    site: str = ""
    file_keys: tuple[str, ...] = ()
    run: str = RUN  # what is gone with the machine's next start: sudo's plugin knows no other


WHAT_TO_DO = ("end", "warn", "no")


def one_of(conf: dict[str, str], name: str, words: Sequence[str], plain: str) -> str:
    """A setting that is one of a few words; the plain one where it is left out or empty."""
    text = conf.get(name) or plain
    if text not in words:
        raise Fault(f"{name}={text}: it has to be one of {', '.join(words)}")
    return text


def number(name: str, text: str) -> int:
    if not re.fullmatch("[0-9]{1,9}", text):
        raise Fault(f"{name}={text}: it has to be a number of seconds")
    return int(text)


def read_conf(path: str) -> dict[str, str]:
    """The lines NAME=VALUE of a file, as systemd reads an EnvironmentFile without quotes."""
    try:
        with open(path, encoding="utf-8") as file:
            lines = file.read().splitlines()
    except (OSError, UnicodeDecodeError) as why:
        raise Fault(f"cannot read {path}: {why}; the old file stays") from why
    held = {}
    for line in lines:
        name, is_setting, value = line.strip().partition("=")
        if is_setting and not name.startswith("#"):
            held[name.strip()] = value.strip().strip("\"'")
    return held


def settings_of(conf: dict[str, str]) -> Settings:
    """The settings of a file's lines; what is left out, or empty, is as it is by itself."""
    plain = Settings()
    back, stale = conf.get("BACK_AFTER", ""), conf.get("STALE_AFTER", "")
    return Settings(
        desks=tuple(conf.get("DESKS", "").split()),
        cert=conf.get("CERT", ""),
        key=conf.get("KEY", ""),
        ca=conf.get("CA", ""),
        file=conf.get("FILE") or plain.file,
        state=conf.get("STATE") or plain.state,
        back_after=number("BACK_AFTER", back) if back else None,
        stale_after=number("STALE_AFTER", stale) if stale else None,
        prompt=number("PROMPT", conf.get("PROMPT") or str(plain.prompt)),
        sessions=one_of(conf, "SESSIONS", WHAT_TO_DO, plain.sessions),
        grace=number("GRACE", conf.get("GRACE") or str(plain.grace)),
        unjudged=one_of(conf, "UNJUDGED", WHAT_TO_DO, plain.unjudged),
        signed=one_of(conf, "SIGNED", ("yes", "no"), plain.signed),
        site=conf.get("SITE", ""),
        file_keys=tuple(conf.get("FILE_KEYS", "").split()),
    )


def own_settings(path: str) -> Settings:
    """The settings for the step of PAM: the plain ones where the file is not sound, since a slip in
    it is not to keep everybody from root."""
    try:
        return settings_of(read_conf(path))
    except Fault as why:
        if os.path.exists(path):
            log(str(why))
        return Settings()
