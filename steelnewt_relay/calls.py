"""The calls by ssh that are open now, by the words that sshd started them with (proc(5))."""

import os
import select
import signal
from collections import Counter
from collections.abc import Collection, Iterator, Sequence
from contextlib import suppress

PROGRAM = "desk-relay"
PATIENCE = 5_000  # milliseconds


def words_of(process: int) -> list[str]:
    """A process's words; none where it has ended."""
    try:
        with open(f"/proc/{process}/cmdline", "rb") as file:
            return [os.fsdecode(it) for it in file.read().split(b"\0")[:-1]]
    except OSError:
        return []


def caller_in(words: list[str]) -> str:
    """Whose call these words are; empty where they are no call."""
    is_call = PROGRAM in [os.path.basename(it) for it in words[:3]] and "--person" in words[:-1]
    return words[words.index("--person") + 1] if is_call else ""


def is_call(words: list[str], name: str, digests: Collection[str]) -> bool:
    """Whether these are the words of a call that a person's key began."""
    return caller_in(words) == name and words[-2] == "--key" and words[-1] in digests


def open_calls(settings: Sequence[str]) -> Counter[str]:
    """How many calls of this account are open, of each person; those alone whose words name a
    relay's settings in the same way."""
    counted: Counter[str] = Counter()
    for process in processes():
        words = words_of(process)
        if (name := caller_in(words)) and is_ours(process):
            before = words[: words.index("--person")]
            counted[name] += before[len(before) - len(settings) :] == list(settings)
    return counted


def is_ours(process: int) -> bool:
    try:
        return os.stat(f"/proc/{process}").st_uid == os.geteuid()
    except OSError:
        return False


def processes() -> Iterator[int]:
    yield from (int(it) for it in os.listdir("/proc") if it.isdecimal())


def end_calls(name: str, digests: Collection[str]) -> int:
    """Ends the calls that a person began with one of these keys, and no others; how many. What such
    a call has kept is on the disk, and what it was about to keep is not."""
    ended = 0
    for process in processes():
        if not is_call(words_of(process), name, digests):
            continue
        with suppress(ProcessLookupError):
            ended += end(process, name, digests)
    return ended


def end(process: int, name: str, digests: Collection[str]) -> int:
    """Ends one process, if it is such a call still: its number may be another's by now."""
    held = os.pidfd_open(process)
    try:
        if not is_call(words_of(process), name, digests):
            return 0
        signal.pidfd_send_signal(held, signal.SIGKILL)
        ended = select.poll()
        ended.register(held, select.POLLIN)
        ended.poll(PATIENCE)
        return 1
    finally:
        os.close(held)
