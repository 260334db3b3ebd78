"""What the tests share."""

from collections.abc import Iterator
from pathlib import Path

import pytest

from relays.tests.site import Site


@pytest.fixture
def site(tmp_path: Path) -> Iterator[Site]:
    """A site whose desk is served."""
    found = Site(tmp_path)
    found.start_desk()
    yield found
    found.close()


@pytest.fixture
def quiet_site(tmp_path: Path) -> Iterator[Site]:
    """A site whose desk is down, and whose relay has heard from it before."""
    found = Site(tmp_path)
    found.hear()
    yield found
    found.close()
