#!/usr/bin/env python3
"""host_program.py FILE: makes the program desk-host of the package steelnewt_host, as one file for
Python (zipapp), which may be copied to a host by itself. The same package gives the same bytes.
"""

import io
import os
import sys
import zipfile
from collections.abc import Iterator

import repository

BEGINNING = b"#!/usr/bin/python3 -I\n"
PACKAGE = "steelnewt_host"


def modules() -> Iterator[tuple[str, str]]:
    """Each file of the archive, by its name there, with its text; what Python starts is first."""
    yield "__main__.py", repository.read(PACKAGE, "__main__.py")
    for name in sorted(os.listdir(os.path.join(repository.ROOT, PACKAGE))):
        if name.endswith(".py") and name != "__main__.py":
            yield f"{PACKAGE}/{name}", repository.read(PACKAGE, name)


def made() -> bytes:
    """The program. (Its texts are not packed: whoever looks at a host can read them there.)"""
    held = io.BytesIO()
    with zipfile.ZipFile(held, "w", zipfile.ZIP_STORED) as archive:
        for name, text in modules():
            entry = zipfile.ZipInfo(name, (1980, 1, 1, 0, 0, 0))
            entry.external_attr = 0o644 << 16
            archive.writestr(entry, text)
    return BEGINNING + held.getvalue()


def main() -> int:
    if len(sys.argv) != 2:
        sys.exit("host_program.py FILE")
    path = sys.argv[1]
    with open(f"{path}.new", "wb") as file:
        os.fchmod(file.fileno(), 0o755)
        file.write(made())
    os.replace(f"{path}.new", path)
    return 0


if __name__ == "__main__":
    sys.exit(main())
