"""What the processes of a door share."""

import os
import threading
import time
from dataclasses import replace
from pathlib import Path

from steelnewt_client.signed import Signed
from steelnewt_door.crew import Asked, Keeper, Locks, Shared, pair
from steelnewt_door.journal import Journal
from steelnewt_door.rows import answered, came

AT = "20260105090000Z"


def crossed(locks: Locks, mine: int, other: int, ready: int, begin: int) -> bool:
    """Holds one lock while another thread waits for the other one; whether it got that."""
    got = []

    def wait() -> None:
        with locks.held(other):
            got.append(other)

    locks.own()
    with locks.held(mine):
        os.write(ready, b".")
        os.read(begin, 1)
        waiting = threading.Thread(target=wait)
        waiting.start()
        time.sleep(0.3)
    waiting.join()
    return got == [other]


def test_two_processes_that_wait_for_each_other() -> None:
    """Each holds what a thread of the other one waits for: each gets it, once it is let go."""
    locks, ours, theirs = Locks(2), os.pipe(), os.pipe()
    child = os.fork()
    if not child:
        is_good = False
        try:
            is_good = crossed(locks, 0, 1, ours[1], theirs[0])
        finally:
            os._exit(0 if is_good else 1)
    assert crossed(locks, 1, 0, theirs[1], ours[0])
    assert os.waitpid(child, 0)[1] == 0


def test_what_the_index_has_not_got_yet(tmp_path: Path) -> None:
    """The index is behind the journal, and who asks it never is."""
    journal, shared, (one, other) = Journal(str(tmp_path), "desk.example"), Shared(), pair()
    keeper = Keeper(journal, shared)
    serving = threading.Thread(target=keeper.serve, args=([one], lambda: None))
    serving.start()
    asked, lags = Asked(str(tmp_path), [other], shared), 0
    for number in range(20):
        signed = Signed(f"message {number}", "ssh:AAAA")
        assert asked.before(signed).known is None
        [no] = asked.append([came(signed, AT, ("chat", ""), "signed", "key")])
        lags += shared.lag[0]
        known = asked.before(signed).known
        assert known and (known.no, known.code) == (no, "")
        asked.append([answered(no, AT, "ack", "desk")])
        again = asked.before(replace(signed, signature="ssh:BBBB"))
        assert again.known is None and again.by_key["key"].no == no
        assert again.by_key["key"].code == "ack"
    assert lags and len(asked.index.unanswered()) == 0
    asked.kept.close()
    other.close()
    serving.join()
    journal.close()
