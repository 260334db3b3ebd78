"""The part of Markdown that docs/ is written in, as mdoc: headings, paragraphs, lists, tables and
code."""

import os
import re
import textwrap
from collections.abc import Iterator

# The pages that documents become, and where the other documents are installed.
PAGES = {
    "ROSTER.md": "desk-roster(5)",
    "SUDOERS.md": "desk-policy(5)",
    "MESSAGES.md": "desk-message(5)",
    "STORE.md": "desk-store(5)",
    "CODES.md": "desk-codes(7)",
    "LINT.md": "desk-lint(1)",
    "IMPORT.md": "desk-import(1)",
    "AUDITING.md": "desk-audit(1)",
    "USED.md": "desk-used(1)",
    "EVIDENCE.md": "desk-evidence(1)",
    "CHANGING.md": "desk-change-roster(1)",
    "PEOPLE.md": "desk-roster(1)",
    "SEVERAL.md": "desk-broker(7)",
    "HOSTS.md": "desk-host(8)",
    "SIGNING.md": "desk-door(8)",
}
INSTALLED = (
    "README.md",
    "CHANGELOG.md",
    "CONCEPTS.md",
    "PROGRAMS.md",
    "OPERATING.md",
    "RUNBOOKS.md",
    "RESTORING.md",
    "SECURITY.md",
    "HTTP.md",
    "RELAYS.md",
    "PROOFS.md",
    "CONTROLS.md",
    "TEAM.md",
)


def document(name: str, doc: str) -> str:
    """How a manual page names a document: a page, an installed file, or one of the repository's."""
    if name in PAGES:
        return PAGES[name]
    return f"{doc}/{name}" if name in INSTALLED else f"{name} of the repository"


def escaped(text: str) -> str:
    return text.replace("\\", "\\e").replace("-", "\\-")


def modules(prefix: str) -> str:
    """Where the tools' modules are installed (scripts/install.sh)."""
    python = "python3.11" if prefix == "/usr/local" else "python3"
    return f"{prefix}/lib/{python}/dist-packages/desk_tools"


def renamed(text: str, doc: str) -> str:
    """A text with the repository's paths as an installed desk has them."""
    text = re.sub(
        r"\[[^\]]*\]\((?:\.\./|docs/|proof/|change/)*(\w+\.md)\)",
        lambda it: document(it[1], doc),
        text,
    )
    text = re.sub(r"\[[^\]]*\]\(\.\./(cases/[\w.-]+)\)", r"\1", text)
    text = re.sub(r"`?docs/(?:proof/|change/)?(\w+\.md)`?", lambda it: document(it[1], doc), text)
    text = re.sub(r"(?<![\w/])build/(desk|desk-audit|desk-cut)(?= )", "\\1", text)
    share = os.path.dirname(os.path.dirname(doc))
    text = re.sub(r"(?<![\w/])tools/schemas/", f"{share}/steelnewt/schemas/", text)
    text = re.sub(r"(?<![\w/])tools/desk_tools/", f"{modules(os.path.dirname(share))}/", text)
    return re.sub(r"(?<![\w/])(examples|cases)/", rf"{doc}/\1/", text)


def inline(text: str) -> str:
    """Code and emphasis as fonts; the rest with its backslashes and dashes."""
    parts = []
    for piece in re.split(r"(`+[^`]*`+|\*\*[^*]+\*\*|(?<![\w*])\*[^*\s][^*]*\*(?![\w*]))", text):
        if piece.startswith("`"):
            parts.append(f"\\fB{escaped(piece.strip('`'))}\\fR")
        elif len(piece) > 2 and piece.startswith("*"):
            parts.append(f"\\fI{escaped(piece.strip('*'))}\\fR")
        else:
            parts.append(escaped(piece))
    return "".join(parts)


def guarded(line: str) -> str:
    """A line that roff does not take for a request."""
    return f"\\&{line}" if line.startswith((".", "'")) else line


def wrapped(line: str) -> list[str]:
    return textwrap.wrap(line, 76, break_long_words=False, break_on_hyphens=False)


def sentences(text: str, doc: str) -> list[str]:
    """A paragraph, each sentence on lines of its own."""
    whole = inline(renamed(" ".join(text.split()), doc))
    ends = re.sub(r"([.!?](?:[\"')]|\\fR)*) +", r"\1\n", whole)
    return [guarded(line) for each in ends.split("\n") for line in wrapped(each)]


def closed(text: str) -> str:
    return text if text.endswith((".", "!", "?", ":")) else f"{text}."


def table(rows: list[list[str]], doc: str) -> Iterator[str]:
    """A list of the first cells, each with what the other cells say."""
    head, *body = rows
    yield ".Bl -tag -width Ds"
    for first, *rest in body:
        yield f".It {inline(renamed(first or '(none)', doc))}"
        said = [closed(rest[0])] if rest and rest[0] else []
        said += [f"{name}: {closed(cell)}" for name, cell in zip(head[2:], rest[1:]) if cell]
        yield from sentences(" ".join(said), doc)
    yield ".El"


def cells(line: str) -> list[str]:
    return [cell.strip().replace("\\|", "|") for cell in re.split(r"(?<!\\)\|", line)[1:-1]]


def block(lines: list[str], doc: str) -> Iterator[str]:
    """One block of lines without an empty one between."""
    first = lines[0]
    if first.startswith("|"):
        rows = [cells(line) for line in lines]
        yield from table([rows[0], *rows[2:]], doc)
    elif re.match(r"(- |\d+\. )", first):
        kind = "-bullet" if first.startswith("-") else "-enum"
        yield f".Bl {kind}"
        for item in re.split(r"\n(?:- |\d+\. )", "\n" + "\n".join(lines))[1:]:
            yield ".It"
            yield from sentences(item, doc)
        yield ".El"
    else:
        yield from sentences(" ".join(lines), doc)


def code(lines: list[str]) -> Iterator[str]:
    """Code as it stands, but for the folders of a clone: its reader has the files of examples/."""
    yield ".Bd -literal -offset indent"
    for line in lines:
        yield guarded(escaped(re.sub(r"(?<![\w/])(build|examples)/(?=[\w.-])", "", line)))
    yield ".Ed"


def blocks(text: str) -> Iterator[tuple[str, list[str]]]:
    """The text's blocks: `code`, `heading` or `text`, each with its lines."""
    lines = iter(text.splitlines())
    held: list[str] = []
    for line in lines:
        starts = line.startswith(("```", "#")) or not line.strip()
        if line.startswith(("- ", "|")) and held and not held[0].startswith(line[0]):
            starts = True
        if starts and held:
            yield "text", held
            held = []
        if line.startswith("```"):
            yield "code", list(iter(lambda: next(lines), "```"))
        elif line.startswith("#"):
            yield "heading", [line]
        elif line.strip():
            held.append(line)
    if held:
        yield "text", held


def body(text: str, doc: str) -> Iterator[str]:
    """What stands below a document's title, as mdoc."""
    yield ".Sh DESCRIPTION"
    is_first = True
    for kind, lines in blocks(text):
        if kind == "heading":
            marks, _, name = re.sub(r" \(docs/[\w/]+\.md\)", "", lines[0]).partition(" ")
            yield f".Sh {escaped(name).upper()}" if marks == "##" else f".Ss {escaped(name)}"
        elif kind == "code":
            yield from code(lines)
        else:
            is_list = re.match(r"\||- |\d+\. ", lines[0])
            if not is_first and not is_list:
                yield ".Pp"
            yield from block(lines, doc)
        is_first = kind == "heading"


def page(name: str, section: int, about: str, text: str, doc: str) -> str:
    """A manual page of a document; its title goes, and `about` stands in its place."""
    _, _, rest = text.partition("\n")
    others = sorted({each for each in [*PAGES.values(), "desk(1)"] if each != f"{name}({section})"})
    others.sort(key=lambda each: (each[-2], each))
    see = [f".Xr {each[:-3]} {each[-2]}{' ,' if each is not others[-1] else ''}" for each in others]
    head = [
        ".Dd $Mdocdate$",
        f".Dt {name.upper()} {section}",
        ".Os",
        ".Sh NAME",
        f".Nm {name}",
        f".Nd {about}",
    ]
    return "\n".join([*head, *body(rest, doc), ".Sh SEE ALSO", *see]) + "\n"
