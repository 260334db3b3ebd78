"""Whether a site's door made an answer for this very question (SIGNED=yes): then neither the desk's
front, nor whoever has its key, can give this host a file.

A question has a random number in it, and the door signs site, question and answer: so an answer of
another host, site, moment or question is none of this one, also where somebody asked for it before.
ssh-keygen judges the signature.
"""

from __future__ import annotations

import os
import re
import subprocess
import threading
from typing import Optional

from steelnewt_host.asking import Reply, ask
from steelnewt_host.faults import Fault, Unsigned
from steelnewt_host.settings import PATH, Settings
from steelnewt_host.sudo import found_program

HISTORY = "history"
NAMESPACE = "steelnewt-file@v1"
MOST_LINE = 1_024  # the bytes of the line with the signature
# a public key of the kind ed25519, as ssh writes it
KEY = re.compile("AAAAC3NzaC1lZDI1NTE5AAAAI[A-Za-z0-9+/]{43}")
SITE = re.compile("[a-z0-9][a-z0-9.-]{0,63}")
LINE = re.compile(rb"ssh:([A-Za-z0-9+/]{1,900}={0,2})\n")
PATIENCE = 30  # the seconds that ssh-keygen may take
one_at_a_time = threading.Lock()  # (the unit may have 16 tasks)


def check_keys(settings: Settings) -> None:
    """Refuses settings by which nothing could be judged."""
    if settings.signed != "yes":
        return
    if not SITE.fullmatch(settings.site):
        raise Fault(f"SITE={settings.site}: SIGNED=yes needs the site's name, as door.toml has it")
    if not settings.file_keys:
        raise Fault("SIGNED=yes needs FILE_KEYS, as `desk-door file-key` prints it")
    for key in settings.file_keys:
        if not KEY.fullmatch(key):
            raise Fault(f"FILE_KEYS: {key[:80]} is no key that `desk-door file-key` prints")
    if found_program("ssh-keygen") is None:
        raise Fault("SIGNED=yes needs ssh-keygen: install Debian's package openssh-client")


def ask_signed(settings: Settings, desk: str, host: str, what: str, most: int) -> Reply:
    """What a desk answers about a host where its door signed that, or a refusal."""
    route = f"/v1/hosts/{host}/{what}/signed/{os.urandom(16).hex()}"
    reply = ask(settings, desk, route, most + MOST_LINE)
    if reply.status == 200:
        return reply._replace(text=without_signature(settings, route, reply.text))
    if what != HISTORY and reply.status in (403, 404) and not reply.text.startswith(b"P2 "):
        said = reply.text.decode("ascii", "replace")[:60].strip()
        told = "it has no door that signs, or its front lets no host ask it"
        raise Unsigned(f"it gives no signed file (SIGNED=yes): {reply.status} {said}: {told}")
    return reply


def without_signature(settings: Settings, route: str, text: bytes) -> bytes:
    """An answer without the line of its signature, where that is good."""
    line = LINE.match(text[:MOST_LINE])
    if not line:
        raise Unsigned(f"its answer has no signature (SIGNED=yes): {text[:40]!r}")
    answer = text[line.end() :]
    why = why_not(settings, f"{settings.site}\n{route}\n".encode("ascii") + answer, line[1])
    if why is not None:
        raise Unsigned(f"the signature of its answer is not good (SIGNED=yes): {why}")
    return answer


def why_not(settings: Settings, told: bytes, signature: bytes) -> Optional[str]:
    """Why no key of this host's settings signed that; nothing where one did."""
    lines = [signature[at : at + 70] for at in range(0, len(signature), 70)]
    begin, end = b"-----BEGIN SSH SIGNATURE-----", b"-----END SSH SIGNATURE-----\n"
    purpose = f'namespaces="{NAMESPACE}" ssh-ed25519'
    keys = "".join(f"{settings.site} {purpose} {key}\n" for key in settings.file_keys)
    with one_at_a_time:
        ran = judged(settings.site, keys.encode("ascii"), b"\n".join([begin, *lines, end]), told)
    if ran.returncode == 0:
        return None
    said = (ran.stderr or ran.stdout).decode("utf-8", "replace").strip()
    return said.replace("\n", "; ")[-200:] or f"ssh-keygen ended with {ran.returncode}"


def judged(
    site: str, keys: bytes, signature: bytes, told: bytes
) -> subprocess.CompletedProcess[bytes]:
    """What ssh-keygen says of a signature."""
    files = [os.memfd_create("keys"), os.memfd_create("signature")]
    try:
        for file, text in zip(files, (keys, signature)):
            os.write(file, text)
        allowed, made = (f"/proc/self/fd/{file}" for file in files)
        words = ["ssh-keygen", "-Y", "verify", "-f", allowed, "-I", site, "-n", NAMESPACE]
        return subprocess.run(
            [*words, "-s", made],
            input=told,
            stdout=subprocess.PIPE,
            stderr=subprocess.PIPE,
            check=False,
            timeout=PATIENCE,
            pass_fds=files,
            env={"PATH": PATH, "LC_ALL": "C"},
        )
    except (OSError, subprocess.SubprocessError) as why:
        raise Fault(f"ssh-keygen does not say whether its answer is signed: {why}") from why
    finally:
        for file in files:
            os.close(file)
