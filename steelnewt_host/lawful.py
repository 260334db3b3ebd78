"""What a desk's file is made of (docs/SUDOERS.md, 'The canonical text')."""

from __future__ import annotations

import datetime
import re
from typing import Optional

KEYWORD = r"(?:sudoedit|sha(?:224|256|384|512))"
NAME = rf"(?!{KEYWORD}(?![a-z0-9._-]))[a-z_][a-z0-9._-]{{0,31}}"
HOST = rf"(?!{KEYWORD}(?![a-z0-9-]))[a-z][a-z0-9-]{{0,31}}"
ALIAS = "[A-Z][A-Z0-9_]{0,31}"  # `ALL` among them
MOMENT = "[0-9]{14}Z"
COMPONENT = r"/(?!\.{1,2}(?![A-Za-z0-9._+-]))[A-Za-z0-9._+-]+"
FILE = rf"(?:{COMPONENT})*(?!/sudoedit(?![A-Za-z0-9._+-])){COMPONENT}"
ARGUMENT = r"(?:[A-Za-z0-9._/+@%-]|\\[,:=])+"
COMMAND = rf'!?(?:{ALIAS}|(?:{COMPONENT})+/|{FILE}(?: ""|(?: {ARGUMENT}){{1,16}})?)'


def listed(item: str) -> str:
    return f"!?(?:{ALIAS}|{item})(?:, !?(?:{ALIAS}|{item}))*"


OPTIONS = f"(?:NOTBEFORE={MOMENT} )?(?:NOTAFTER={MOMENT} )?(?:NOPASSWD: )?"
LINE = re.compile(
    rf"User_Alias {ALIAS} = {listed(NAME)}|Runas_Alias {ALIAS} = {listed(NAME)}"
    rf"|Host_Alias {ALIAS} = {listed(HOST)}|Cmnd_Alias {ALIAS} = {COMMAND}(?:, {COMMAND})*"
    rf"|{listed(NAME)} {listed(HOST)} = \({listed(NAME)}\) {OPTIONS}{COMMAND}"
)


def unlawful(text: bytes) -> Optional[str]:
    """Where the text has what no desk writes; nothing where all of it is a desk's."""
    found = re.search(rb"[^\n -~]", text)
    if found:
        at = text.count(b"\n", 0, found.start()) + 1
        return f"line {at} has the byte {found[0][0]:#04x}"
    if text and not text.endswith(b"\n"):
        return "its last line has no end"
    for at, line in enumerate(text.decode("ascii").splitlines(), 1):
        if not LINE.fullmatch(line):
            return f"line {at} is none that a desk writes: {line[:80]}"
        for moment in re.findall(rf"(?:BEFORE|AFTER)=({MOMENT})", line):
            if not is_moment(moment):
                return f"line {at} has a moment that is none: {moment}"
    return None


def is_moment(text: str) -> bool:
    """Whether it is a moment of the years that a desk knows: visudo takes a thirteenth month."""
    try:
        return 1970 <= datetime.datetime.strptime(text, "%Y%m%d%H%M%SZ").year <= 2099
    except ValueError:
        return False
