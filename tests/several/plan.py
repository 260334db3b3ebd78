"""How much the test does: the whole of it, or the part that fits into two minutes."""

from __future__ import annotations

import dataclasses


@dataclasses.dataclass(frozen=True)
class Plan:
    """Counts of messages and of kills, and seconds."""

    messages: int  # published while things are killed
    pace: float  # so many of them a second
    rated: int  # published for each figure of the rates
    desk_kills: int  # of each desk
    consumer_kills: int  # of each consumer
    leader_kills: int  # of each of so many queues' leaders
    majority: bool  # whether two nodes are killed at once
    down: float  # how long a node is away
    full: float  # how long a disk is full
    held: float  # how long a queue is held
    behind: int  # published at once, what takes rights away at the end
    relay_kills: int  # of a packaged relay
    moments: int = 20  # the reports that are compared


WHOLE = Plan(
    messages=20_000, pace=200.0, rated=6_000, desk_kills=3, consumer_kills=3, leader_kills=2,
    majority=True, down=4.0, full=15.0, held=60.0, behind=11_500, relay_kills=60,
)
SHORT = Plan(
    messages=3_000, pace=100.0, rated=200, desk_kills=1, consumer_kills=1, leader_kills=1,
    majority=False, down=2.0, full=6.0, held=8.0, behind=120, relay_kills=5,
)
