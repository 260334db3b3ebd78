"""Takes the place of the page, as an account that is no part of it, and prints what the front then
hands over: thief.py PLACE SECONDS, where PLACE is what the front's `proxy_pass http://` names."""

import contextlib
import os
import re
import socket
import sys


def taken(place: str) -> socket.socket:
    """A listening socket in the page's place, by whatever way there is."""
    if not place.startswith("unix:"):
        host, _, port = place.rpartition(":")
        return socket.create_server((host, int(port)))
    path = place.removeprefix("unix:")
    with contextlib.suppress(FileExistsError):
        os.makedirs(os.path.dirname(path))
    with contextlib.suppress(FileNotFoundError):
        os.unlink(path)
    listening = socket.socket(socket.AF_UNIX)
    listening.bind(path)
    listening.listen()
    return listening


def reached(place: str) -> str:
    """What whoever connects to the page past its front gets."""
    try:
        if place.startswith("unix:"):
            with socket.socket(socket.AF_UNIX) as peer:
                peer.connect(place.removeprefix("unix:"))
        else:
            host, _, port = place.rpartition(":")
            socket.create_connection((host, int(port)), timeout=10).close()
    except OSError as fault:
        return f"not reached: {type(fault).__name__}"
    return "reached"


def main() -> None:
    place = sys.argv[1]
    print(f"thief at {place} as {os.getuid()}: {reached(place)}", flush=True)
    try:
        listening = taken(place)
    except OSError as fault:
        print(f"thief takes nothing: {type(fault).__name__}", flush=True)
        return
    print("thief took the place", flush=True)
    listening.settimeout(float(sys.argv[2]))
    with contextlib.suppress(TimeoutError):
        peer, _ = listening.accept()
        found = re.search(rb"(?i)x-desk-front: *(\S+)", peer.recv(65536))
        print(f"thief has the secret: {found[1].decode() if found else 'no'}", flush=True)


main()
