"""What sudo itself says of a host's file, at a moment: allowed or not.

It runs as root in a mount namespace of its own, with its own /etc/sudoers and /etc/passwd bound
over the machine's, so nothing of the machine changes. The words: a file with rows of JSON.
"""

import json
import subprocess
import sys
import tempfile
from pathlib import Path

USERS = ("ann", "bob", "carol", "postgres")
CLEAN = {"PATH": "/usr/sbin:/usr/bin:/sbin:/bin", "TZ": "UTC", "LC_ALL": "C"}


def is_allowed(user: str, host: str, runas: str, at: str, command: list[str]) -> bool:
    """Asks sudo -l, with a clock that stands at the moment."""
    day = f"{at[0:4]}-{at[4:6]}-{at[6:8]} {at[8:10]}:{at[10:12]}:{at[12:14]}"
    asked = ["sudo", "-n", "-l", "-U", user, "-h", host, "-u", runas, "--", *command]
    ran = subprocess.run(
        ["faketime", "-f", day, *asked],
        stdin=subprocess.DEVNULL,
        capture_output=True,
        text=True,
        check=False,
        env=CLEAN,
    )
    if ran.returncode not in (0, 1) or "parse error" in ran.stderr:
        sys.exit(f"sudo fails: {ran.stdout}{ran.stderr}")
    return ran.returncode == 0


def inside(rows_file: str) -> None:
    with open(rows_file, encoding="utf-8") as file:
        asked = json.load(file)
    with tempfile.TemporaryDirectory() as folder:
        passwd, sudoers = Path(folder) / "passwd", Path(folder) / "sudoers"
        lines = [f"{name}:x:{2001 + at}:2001::/:/bin/sh\n" for at, name in enumerate(USERS)]
        passwd.write_text("root:x:0:0:root:/root:/bin/sh\n" + "".join(lines))
        sudoers.write_text(asked["file"])
        sudoers.chmod(0o440)
        for source, target in ((passwd, "/etc/passwd"), (sudoers, "/etc/sudoers")):
            subprocess.run(["mount", "--bind", str(source), target], check=True)
        print(json.dumps([is_allowed(*row) for row in asked["rows"]]))
        for target in ("/etc/passwd", "/etc/sudoers"):
            subprocess.run(["umount", target], check=True)


def ask(folder: Path, file: str, rows: list[tuple[str, str, str, str, list[str]]]) -> list[bool]:
    """Which rows of user, host, target, moment and command sudo allows by the file."""
    asked = folder / "sudo-rows.json"
    asked.write_text(json.dumps({"file": file, "rows": rows}))
    words = ["unshare", "--mount", "--propagation", "private", sys.executable, __file__, str(asked)]
    ran = subprocess.run(words, capture_output=True, text=True, timeout=120, check=False)
    assert ran.returncode == 0, ran
    found: list[bool] = json.loads(ran.stdout)
    return found


if __name__ == "__main__":
    inside(sys.argv[1])
