"""What made an output: the program, its version, whether it is proved, and the digests of all that
it read. Two outputs with the same of these say the same."""

from collections.abc import Iterable
from typing import Any

from desk_tools.found import visible
from desk_tools.judge import NoDesk

Made = dict[str, Any]
PROVED = "proved with "


def version_of(said: str) -> Made:
    """What `desk --version` says: its version, its logic, and whether it is proved."""
    lines = said.splitlines()
    if len(lines) < 2 or not lines[0].startswith("desk "):
        raise NoDesk(f"desk --version says {visible(said.strip())!r}")
    return {
        "version": lines[0].removeprefix("desk "),
        "proved": lines[1].startswith(PROVED),
        "logic": lines[1].rpartition(" ")[2],
    }


def made(program: str, said: str, read: Iterable[tuple[str, str]], **more: Any) -> Made:
    """Who made an output, by what `desk --version` says, of which files: each with what it is and
    its digest."""
    files = [{"what": what, "sha256": sha256} for what, sha256 in read]
    return {"program": program, **version_of(said), "read": files, **more}


def lines_of(it: Made) -> list[str]:
    """The same for people."""
    proved = "proved" if it["proved"] else "NOT PROVED"
    found = [f"{it['program']} of desk {it['version']}, {proved}, logic {it['logic']}"]
    found += [f"{file['what']}  {file['sha256']}" for file in it["read"]]
    known = {"program", "version", "proved", "logic", "read"}
    return found + [f"{key}  {value}" for key, value in it.items() if key not in known]
