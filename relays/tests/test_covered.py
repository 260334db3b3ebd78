"""Each word that people may write, and each thing that the page takes, stands in a test."""

import argparse
import ast
import re
from collections.abc import Iterator
from pathlib import Path

from relays.tests.site import Site
from steelnewt_client import codes
from steelnewt_relay import page, person, program
from steelnewt_relay.config import read_config
from steelnewt_relay.ssh import ANSWERS
from steelnewt_relay.words import parser

HERE = Path(__file__).parent
# What each word takes.
COMMON = {"--json", "--yes", "--zone"}


def trees() -> list[ast.Module]:
    """The tests, but for this one."""
    paths = sorted(it for it in HERE.glob("*.py") if it.name != Path(__file__).name)
    return [ast.parse(it.read_text(encoding="utf-8")) for it in paths]


def named(tree: ast.Module) -> dict[str, str]:
    """The texts that a module has names for."""
    return {
        target.id: it.value.value
        for it in tree.body
        if isinstance(it, ast.Assign) and isinstance(it.value, ast.Constant)
        for target in it.targets
        if isinstance(target, ast.Name) and isinstance(it.value.value, str)
    }


def texts() -> Iterator[str]:
    """Every text of the tests; what is put into one stands in it where its own text is known."""
    found = trees()
    names = {name: text for tree in found for name, text in named(tree).items()}
    for tree in found:
        for node in ast.walk(tree):
            if isinstance(node, ast.Constant) and isinstance(node.value, str):
                yield node.value
            elif isinstance(node, ast.JoinedStr):
                yield "".join(part(it, names) for it in node.values)


def part(node: ast.expr, names: dict[str, str]) -> str:
    if isinstance(node, ast.Constant):
        return str(node.value)
    is_name = isinstance(node, ast.FormattedValue) and isinstance(node.value, ast.Name)
    return names.get(node.value.id, "?") if is_name else "?"  # type: ignore[attr-defined]


def commands(of: argparse.ArgumentParser) -> dict[str, set[str]]:
    """The words that a parser knows, each with its options."""
    [found] = [it for it in of._actions if isinstance(it, argparse._SubParsersAction)]
    return {
        word: {name for it in each._actions for name in it.option_strings}
        for word, each in found.choices.items()
    }


def test_each_word_by_ssh_has_a_test() -> None:
    # (`prepare` stands before the words of another, and `complete` before words that are unfinished)
    assert {*commands(parser()), "prepare", "complete"} == set(ANSWERS)
    # (who writes `ask` and no more is led; `ask` with a name of one's own is `saved`; and who writes
    # nothing reads an overview, in test_alone_at_a_terminal)
    lines = [it.split() for it in texts() if it.split()[:1] and it.split()[0] in ANSWERS]
    lines += [["lead", *it[1:]] for it in lines if it in (["ask"], ["ask", "--zone"])]
    lines += [["saved", *it[2:]] for it in lines if it[:1] == ["ask"] and it[1:2] == ["pg-again"]]
    lines += [["overview"]]
    wanted = [(word, "") for word in ANSWERS]
    known = commands(parser()).items()
    wanted += [(word, name) for word, names in known for name in names - COMMON]
    missing = [
        (word, name)
        for word, name in wanted
        if not any(it[0] == word and (not name or name in it) for it in lines)
    ]
    missing += [("", name) for name in COMMON if not any(name in it for it in lines)]
    print(f"{len(wanted) + len(COMMON)} words and options by ssh, {len(missing)} without a test")
    assert len(wanted) > 35 and not missing, missing


def given() -> set[str]:
    """The words that stand by themselves in a call or in a list of the tests, as a program's do."""
    lists = [it for tree in trees() for it in ast.walk(tree) if isinstance(it, ast.Call | ast.List)]
    words = [it.args if isinstance(it, ast.Call) else it.elts for it in lists]
    return {str(it.value) for each in words for it in each if isinstance(it, ast.Constant)}


def test_each_word_of_the_programs_has_a_test() -> None:
    programs = {"desk-relay": program.parser(), "desk-relay-person": person.parser()}
    wanted = {
        (name, word)
        for name, each in programs.items()
        for job, options in commands(each).items()
        for word in {job, *options, *(it for at in each._actions for it in at.option_strings)}
    }
    for name in ("notify-mail", "notify-webhook"):
        source = (HERE.parent / name).read_text(encoding="utf-8")
        wanted |= {(name, it) for it in re.findall(r'add_argument\("(--[a-z-]+)"', source)}
    wanted -= {it for it in wanted if it[1] in ("-h", "--help")}
    written = given() | {word for text in texts() for word in text.split()}
    missing = sorted(it for it in wanted if it[1] not in written)
    print(f"{len(wanted)} words and options of the programs, {len(missing)} without a test")
    assert len(wanted) >= 17 and not missing, missing


def test_each_thing_that_the_page_takes_has_a_test(quiet_site: Site) -> None:
    rules = page.create_app(read_config(str(quiet_site.config))).url_map.iter_rules()
    folder = Path(page.__file__).parent
    modules = ("page", "asking", "deciding", "visit")
    source = "".join((folder / f"{it}.py").read_text(encoding="utf-8") for it in modules)
    asked = (
        r'(?:args|form|words|given)(?:\.get(?:list)?\(|\[)"([a-z]+)"|"([a-z]+)" in flask.request'
    )
    fields = {one or other for one, other in re.findall(asked, source)}
    fields |= set(re.findall(r'Cards\("([a-z]+)"', source)) - {"page"}
    # (a test's client gives a field by its name)
    names = {it.arg or "" for tree in trees() for it in ast.walk(tree) if isinstance(it, ast.keyword)}
    whole = [*texts(), *names]
    paths = sorted({it.rule.partition("<")[0] for it in rules})
    missing = [it for it in paths if not any(re.match(rf"\??{it}", text) for text in whole)]
    missing += [
        it for it in sorted(fields)
        if it not in whole and not any(re.search(rf"[?&]{it}\b", text) for text in whole)
    ]  # fmt: skip
    print(f"{len(paths)} paths and {len(fields)} fields of the page, {len(missing)} without a test")
    assert len(paths) >= 7 and len(fields) > 15 and not missing, (missing, fields)


# The modules that speak to whoever runs the relay, and words that are theirs alone.
OPERATORS = (
    "archive.py", "caller.py", "config.py", "demo.py", "keys.py", "person.py", "program.py", "sent.py",
)  # fmt: skip
THEIRS = re.compile(r"(?<!desk-)\b(relay|roster|outbox|acknowledged)s?\b")


def sentences(path: Path) -> Iterator[str]:
    """The texts of a module that are more than a name, without its docstrings."""
    tree = ast.parse(path.read_text(encoding="utf-8"))
    docstrings = {
        id(it.body[0].value)
        for it in ast.walk(tree)
        if isinstance(it, ast.Module | ast.ClassDef | ast.FunctionDef)
        and it.body and isinstance(it.body[0], ast.Expr)
    }  # fmt: skip
    for node in ast.walk(tree):
        if isinstance(node, ast.Constant) and isinstance(node.value, str):
            if id(node) not in docstrings and " " in node.value:
                yield node.value


def test_who_asks_reads_no_word_of_an_operator() -> None:
    folder = Path(page.__file__).parent
    found = [it for path in sorted(folder.glob("*.py")) if path.name not in OPERATORS
             for it in sentences(path)]  # fmt: skip
    found += [text for pair in codes.FOR_PEOPLE.values() for text in pair]
    assert len(found) > 500 and not [it for it in found if THEIRS.search(it)]
    refusals = [codes.in_words(it) for it in codes.SENTENCES]
    assert len(refusals) > 10 and not [it for it in refusals if THEIRS.search(it)]
