"""A sample of requests that anybody draws the same: by SHA-256 of the seed, who asked and the
number."""

import hashlib
from collections.abc import Iterable

Name = tuple[str, int]


def rank(seed: str, name: Name) -> str:
    return hashlib.sha256(f"{seed} {name[0]} {name[1]}".encode()).hexdigest()


def sample(seed: str, names: Iterable[Name], count: int) -> list[Name]:
    """The requests with the smallest digests, in the order of their names."""
    return sorted(sorted(names, key=lambda it: rank(seed, it))[:count])
