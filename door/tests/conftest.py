"""What the tests of the door share."""

from collections.abc import Iterator
from pathlib import Path

import pytest

from door.tests.doors import Doored


def served(folder: Path) -> Iterator[Doored]:
    found = Doored(folder)
    try:
        found.start()
        yield found
    finally:
        found.close()


@pytest.fixture(scope="module")
def shared(tmp_path_factory: pytest.TempPathFactory) -> Iterator[Doored]:
    """A site whose desk is served behind a door, for all tests of a file."""
    yield from served(tmp_path_factory.mktemp("d"))


@pytest.fixture
def doored(shared: Doored) -> Doored:
    """The same, with numbers that no other test has."""
    shared.block += 100
    return shared


@pytest.fixture
def fresh(tmp_path: Path) -> Iterator[Doored]:
    """A site of this test's own."""
    yield from served(tmp_path)


@pytest.fixture(scope="module")
def untaken(tmp_path_factory: pytest.TempPathFactory) -> Iterator[Doored]:
    """A site of which every test of it says that the desk holds nothing afterwards."""
    for found in served(tmp_path_factory.mktemp("u")):
        yield found
        assert found.held() == []
