"""Riddles: sentences of comments (of Python, of scripts and of crates), docstrings and pages whose
pronouns have no noun beside them.

A reader who meets 'of both, what did not change since is not looked for again' has to guess what
both are. Such a sentence has one of a few shapes, which this finds: two that begin with `what` or
`whoever`, a pronoun in front that is spoken of only later, or a relative clause about `one` or
`those` that have no noun.
"""

import ast
import glob
import io
import os
import re
import tokenize
from collections.abc import Iterator

import repository

PRONOUN = r"(?:both|each|it|its|them|these|those|one|ones|others?|another|that)"
SHAPES = tuple(
    re.compile(shape, re.IGNORECASE)
    for shape in (
        # 'Of both, what did not change'; 'of one that denies, what cannot be said'
        rf"(?:^|[,;:(] )of {PRONOUN}\b[^,.;:]*, (?:what|who)\b",
        r"(?:^|[,;:(] )of one (?:that|who|whose|which)\b",
        r"\b(?:none|nothing) (?:is|are)(?: \w+)? of one that\b",
        # 'what is meant, for what allows'; 'whoever surely is meant .. whoever may be'
        r"\bwhat\b[^.;]*, (?:for|of) what\b",
        r"\bwhoever\b[^.;]*\bwhoever\b[^.;]*\bwhat\b",
        # 'with what is told of it'; 'a list's value is what is done with it'
        r"\bwhat (?:is|was) \w+ (?:of|with) (?:it|them|that|these)\b",
        # 'those for which somebody looked at it'
        r"\b(?:those|these) (?:of|for|by|in|with|to|on) which\b",
        # 'they are where they are the first'; 'most are told as they were'
        r"\b(?:they|it|most|some|all) (?:are|is|were|was) (?:where|told as|what|as) (?:they|it)\b",
        # 'what the bytes that have come ask for'; 'nothing of a desk's'; 'where one may end'
        r"\bwhat the \w+ that\b[^.;,]*\bfor\b",
        r"\bnothing of an? \w+'s\b",
        r"\bwhere one may\b",
    )
)
# (these are looked for in Python and in scripts alone; a list of a page may go on with 'of ..')
SHAPES_OF_CODE = tuple(
    map(
        re.compile,
        (
            # 'The nodes, and what the program tells of them'; what became of something is plain
            r"\b[Ww]hat\b(?! (?:became|becomes|comes|has become)\b)[^.;:,(]{1,60} of (?:it|them)\b",
            # 'Of each sudoers file a base is made'; 'of a long one its ends'
            r"(?:^Of|; of) (?!course\b)",
            # 'the files, of each of which a base was made'; 'what comes of each of them'
            r"\bof each of (?:which|whom|them)\b",
            # 'ends what sudo denies of those for whom the file has an end'
            r"\b(?:[Tt]hose|[Tt]hese|that) (?:of|for|by|to) whom\b",
        ),
    )
)
# how no docstring begins: what it speaks of has a name
BLIND = re.compile(r"(?:It|Its|They|Their)\b|(?:These|Those|Both)\b(?! \w+s\b)")
END = re.compile(r"(?<=[.!?:])\s+")
SPAN = re.compile(r"`[^`]*`")


def riddles(text: str, shapes: tuple[re.Pattern[str], ...] = SHAPES) -> Iterator[str]:
    """The sentences of a text that have such a shape."""
    for sentence in END.split(SPAN.sub("NAME", " ".join(text.split()))):
        if any(shape.search(sentence) for shape in shapes):
            yield sentence


def riddles_of_code(text: str, is_docstring: bool = False) -> Iterator[str]:
    """The same of a comment or a docstring."""
    if is_docstring and BLIND.match(text):
        yield text.partition("\n")[0]
    yield from riddles(text, SHAPES + SHAPES_OF_CODE)


def comments(source: str) -> Iterator[tuple[int, str]]:
    """Each comment of Python, of all its lines, with the first one's number."""
    held: list[str] = []
    first = last = 0
    for token in tokenize.generate_tokens(io.StringIO(source).readline):
        if token.type != tokenize.COMMENT:
            continue
        if held and token.start[0] != last + 1:
            yield first, " ".join(held)
            held = []
        first, last = (first if held else token.start[0]), token.start[0]
        held.append(token.string.lstrip("#! "))
    if held:
        yield first, " ".join(held)


def docstrings(source: str) -> Iterator[tuple[int, str]]:
    """Each docstring, with the line on which it stands."""
    kinds = (ast.Module, ast.ClassDef, ast.FunctionDef, ast.AsyncFunctionDef)
    for node in ast.walk(ast.parse(source)):
        if isinstance(node, kinds) and (text := ast.get_docstring(node)):
            yield node.body[0].lineno, text


def shell_comments(source: str) -> Iterator[tuple[int, str]]:
    """Each comment of a script that has lines of its own, with the first one's number."""
    held: list[str] = []
    for number, line in enumerate([*source.splitlines(), ""], 1):
        if line.lstrip().startswith("#") and not line.startswith("#!"):
            held.append(line.lstrip("# \t"))
        elif held:
            yield number - len(held), " ".join(held)
            held = []


def code_files() -> Iterator[tuple[str, str]]:
    """The files of Python and of the shell, by their names, with their texts: also those that have
    no ending."""
    kept = {"build", "crates", "docs", ".git"}
    for folder, folders, names in os.walk(repository.ROOT):
        folders[:] = sorted(it for it in folders if it not in kept)
        for name in sorted(names):
            path = os.path.relpath(os.path.join(folder, name), repository.ROOT)
            if name.endswith((".py", ".sh")) or name == "Makefile":
                yield path, repository.read(path)
            elif "." not in name and is_program(os.path.join(folder, name)):
                yield path, repository.read(path)


def crate_comments(source: str) -> Iterator[tuple[int, str, bool]]:
    """Each comment of a crate's file that has lines of its own, with the first one's number, and
    whether it documents what stands below it. A paragraph of such documentation is one."""
    held: list[str] = []
    is_docstring = False
    for number, line in enumerate([*source.splitlines(), ""], 1):
        found = re.match(r" *(//[/!]?|--) ?(.*)", line)
        if held and not (found and found[2] and (found[1] != "//") == is_docstring):
            yield number - len(held), " ".join(held), is_docstring
            held = []
        if found and found[2]:
            is_docstring = found[1] != "//"
            held.append(found[2])


def crate_files() -> Iterator[tuple[str, str]]:
    """The files of the crates, by their names, with their texts."""
    for ending in ("rt", "antt"):
        pattern = os.path.join(repository.ROOT, "crates", "**", f"*.{ending}")
        for path in sorted(glob.glob(pattern, recursive=True)):
            name = os.path.relpath(path, repository.ROOT)
            yield name, repository.read(name)


def is_program(path: str) -> bool:
    with open(path, "rb") as file:
        return bool(re.match(rb"#!.*(?:python|sh)\b", file.readline()))


def is_python(name: str, source: str) -> bool:
    return name.endswith(".py") or "python" in source.partition("\n")[0]


def pages() -> Iterator[str]:
    """The pages that people read, but for the history of changes."""
    paths = glob.glob(os.path.join(repository.ROOT, "docs", "**", "*.md"), recursive=True)
    yield from ("README.md", "CONTRIBUTING.md", "cases/README.md")
    yield from sorted(os.path.relpath(path, repository.ROOT) for path in paths)


def paragraphs(text: str) -> Iterator[tuple[int, str]]:
    """The paragraphs, items and cells of a page, without its code, each with its line."""
    is_code, held, first = False, "", 0
    for number, line in enumerate([*text.splitlines(), ""], 1):
        is_fence = line.startswith("```")
        if held and (is_fence or not line or re.match(r" *(?:- |\d+\. |\||#)", line)):
            yield first, held
            held = ""
        is_code ^= is_fence
        if not is_code and not is_fence and line:
            for cell in re.split(r"(?<!\\)\|", line) if line.startswith("|") else [line.strip()]:
                if line.startswith("|"):
                    yield number, cell.strip()
                else:
                    held, first = f"{held} {cell}".strip(), first if held else number


def faults() -> Iterator[str]:
    """The riddles of Python, of scripts, of crates and of pages; this file shows some."""
    for name, source in code_files():
        if name == os.path.relpath(os.path.abspath(__file__), repository.ROOT):
            continue
        if is_python(name, source):
            found = [(number, text, False) for number, text in comments(source)]
            found += [(number, text, True) for number, text in docstrings(source)]
        else:
            found = [(number, text, False) for number, text in shell_comments(source)]
        for number, text, is_docstring in found:
            said = riddles_of_code(text, is_docstring)
            yield from (f"{name}:{number}: a riddle: {it[:120]}" for it in said)
    for name, source in crate_files():
        for number, text, is_docstring in crate_comments(source):
            said = riddles_of_code(text, is_docstring)
            yield from (f"{name}:{number}: a riddle: {it[:120]}" for it in said)
    for name in pages():
        for number, text in paragraphs(repository.read(name)):
            yield from (f"{name}:{number}: a riddle: {it[:120]}" for it in riddles(text))
