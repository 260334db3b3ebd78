"""docs/proof/ATTACKS.md, 'Behind a door': each attack has a test, and each test of attacks a row."""

import ast
import re
from pathlib import Path

HERE = Path(__file__).parent
PAGE = HERE.parents[1] / "docs" / "proof" / "ATTACKS.md"
ROW = re.compile(r"^\| (.*) \| (.*) \| (test_\w+): (test_\w+) \|$", re.MULTILINE)


def rows() -> list[tuple[str, str, str, str]]:
    section = PAGE.read_text(encoding="utf-8").split("\n## Behind a door\n", 1)[1].split("\n## ", 1)[0]
    found = ROW.findall(section)
    heads = section.count("\n| What is tried |")
    assert heads and len(found) == section.count("\n| ") - heads, "a row without its test"
    return found


def functions_of(module: str) -> set[str]:
    tree = ast.parse((HERE / f"{module}.py").read_text(encoding="utf-8"))
    functions = [it.name for it in tree.body if isinstance(it, ast.FunctionDef)]
    return {it for it in functions if it.startswith("test_")}


def test_each_attack_has_its_test() -> None:
    missing = [row for row in rows() if row[3] not in functions_of(row[2])]
    assert not missing, missing
    assert len({row[0] for row in rows()}) >= 40


def test_each_test_of_an_attack_has_its_row() -> None:
    named = {row[3] for row in rows() if row[2] == "test_attacks"}
    assert functions_of("test_attacks") <= named, functions_of("test_attacks") - named
