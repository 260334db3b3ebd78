"""What the scripts share: where the repository is, its files, and programs that are run."""

import os
import subprocess
from collections.abc import Sequence

ROOT = os.path.dirname(os.path.dirname(os.path.abspath(__file__)))
Run = subprocess.CompletedProcess[str]


def read(*path: str) -> str:
    """The text of a file, named from the repository's top."""
    with open(os.path.join(ROOT, *path), encoding="utf-8") as file:
        return file.read()


def write(folder: str, name: str, text: str | bytes) -> str:
    """The path of a file of this text."""
    path = os.path.join(folder, name)
    with open(path, "wb") as file:
        file.write(text if isinstance(text, bytes) else text.encode())
    return path


def run(words: Sequence[str], given: str | None = None, seconds: float | None = None) -> Run:
    """Runs words with this input; their output and standard error are kept as texts."""
    return subprocess.run(
        words, input=given, capture_output=True, text=True, timeout=seconds, check=False
    )
