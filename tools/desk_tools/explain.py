"""What docs/CODES.md says of a code."""

import re
from collections.abc import Iterator

from steelnewt_client.places import place

# a link of Markdown
LINK = re.compile(r"\[([^\]]+)\]\([^)]*\)")


def document() -> str:
    with open(place("docs/CODES.md", "share/steelnewt/CODES.md"), encoding="utf-8") as file:
        return file.read()


def rows(text: str) -> Iterator[tuple[str, dict[str, str]]]:
    """Each row of each table, under its heading, by the names of its columns."""
    heading, head = "", None
    for line in text.splitlines():
        if line.startswith("#"):
            heading = line.lstrip("# ")
        cells = [it.strip().replace(r"\|", "|") for it in re.split(r"(?<!\\)\|", line)[1:-1]]
        if not cells:
            head = None
        elif head is None:
            head = cells
        elif not line.startswith("|--"):
            yield heading, dict(zip(head, cells))


def explain(code: str) -> str | None:
    """What is said of the code, or of the codes that begin with the word; None where nothing is."""
    found = []
    for heading, row in rows(document()):
        name = row.get("Code", "").strip("`")
        if code.upper() == name.partition(" ")[0] or code.lower() == name.lower() or code.lower() == name.partition(" ")[2].lower():
            told = [f"{name} ({heading})", f"  when: {row['When']}"]
            told += [f"  what to do: {row['What to do']}"] if row.get("What to do") else []
            found.append(LINK.sub(r"\1", "\n".join(told)))
    return "\n".join(found) + "\n" if found else None


def to_do(code: str) -> str:
    """What to do about a code; nothing where the document does not say."""
    for _, row in rows(document()):
        if row.get("Code", "").strip("`").partition(" ")[0] == code:
            return LINK.sub(r"\1", row.get("What to do", ""))
    return ""
