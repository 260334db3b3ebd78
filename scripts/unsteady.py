"""Parts of the gate that failed beside others, and are run again with nothing beside them.

A run from nothing proves for two hours, and a fault that comes once in fifty runs would throw that
away. So a part that failed is run twice more, alone, told so by AGAIN=1: a suite of tests then runs
those that failed. What passes both times is UNSTEADY: it counts as passed, and is named in the last
lines with what it said, to be mended. One that hangs, and more than two that fail, are not tried
again: that is no accident.
"""

from __future__ import annotations

import os
from collections.abc import Callable, Sequence

import lanes
from lanes import Outcome, Part, Result

TIMES, MOST = 2, 2
UNSTEADY = f"UNSTEADY: it failed beside others, and passed {TIMES} times alone"
Run = Callable[[Sequence[Part]], list[Result]]


def kept_log(logs: str, part: Part) -> str:
    """Where the log of its failure is kept."""
    return f"{lanes.log_of(logs, part)}.unsteady"


def may_be(result: Result) -> bool:
    """Whether the part ran to its end, and failed."""
    hung = result.why == f"status {lanes.TIME_IS_UP}"
    return result.outcome is Outcome.FAILED and result.minutes > 0 and not hung


def again(results: Sequence[Result], logs: str, run: Run) -> list[Result]:
    """The results, where what failed by accident has passed, and what waited for it was run."""
    failed = [it for it in results if it.outcome is Outcome.FAILED]
    if len(failed) > MOST or not all(map(may_be, failed)):
        return list(results)
    found = {it.part.name: tried(it, logs, run) for it in failed}
    behind = [it.part for it in results if passes(found.get(it.part.after))]
    found |= {it.part.name: it for it in run([it._replace(after="") for it in behind])}
    return [found.get(it.part.name, it)._replace(part=it.part) for it in results]


def passes(result: Result | None) -> bool:
    return result is not None and result.outcome is Outcome.PASSED


def tried(result: Result, logs: str, run: Run) -> Result:
    """What became of a part that failed, once it ran again."""
    part = result.part
    os.replace(lanes.log_of(logs, part), kept_log(logs, part))
    alone = part._replace(command=f"env AGAIN=1 {part.command}", alone=True, after="")
    for _ in range(TIMES):
        (last,) = run([alone])
        if last.outcome is not Outcome.PASSED:
            return last._replace(why=f"{last.why}, and it failed beside others before")
    return result._replace(outcome=Outcome.PASSED, why=UNSTEADY)


def told(results: Sequence[Result], logs: str) -> str:
    """Each part that is unsteady, with the last lines of its failure."""
    lines: list[str] = []
    for result in results:
        if result.why == UNSTEADY:
            lines.append(f"== {result.part.name}: {UNSTEADY}")
            lines += lanes.last_lines(kept_log(logs, result.part))
    return "\n".join(lines)
