"""What the tests share: the repository, the program, and how many random texts are asked about."""

import os
import subprocess
import sys
from collections.abc import Callable

import pytest

ROOT = os.path.dirname(os.path.dirname(os.path.dirname(os.path.abspath(__file__))))
sys.dont_write_bytecode = True

Run = Callable[..., "subprocess.CompletedProcess[str]"]


def pytest_addoption(parser: pytest.Parser) -> None:
    parser.addoption("--rosters", type=int, default=400, help="random rosters (400)")
    parser.addoption("--messages", type=int, default=4000, help="random messages (4000)")
    parser.addoption("--sudoers", type=int, default=40, help="random sudoers files (40)")


@pytest.fixture(scope="session")
def desk() -> str:
    path = os.environ.get("DESK", os.path.join(ROOT, "build", "desk"))
    assert os.path.exists(path), f"there is no program {path}: run make desk"
    return path


@pytest.fixture
def lint() -> Run:
    return tool("desk-lint")


@pytest.fixture
def imports() -> Run:
    return tool("desk-import")


def tool(name: str) -> Run:
    def run(*words: str, given: str = "") -> subprocess.CompletedProcess[str]:
        path = os.path.join(ROOT, "tools", name)
        return subprocess.run([path, *words], input=given, capture_output=True, text=True, check=False)

    return run
