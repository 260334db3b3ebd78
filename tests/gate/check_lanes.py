#!/usr/bin/env python3
"""The runner of the gate (scripts/lanes.py, scripts/gate.py), over parts that stand in for the
real ones: what fails, hangs or is not there is seen in the last lines, and nothing is counted as
passed that did not run."""

from __future__ import annotations

import contextlib
import io
import os
import subprocess
import sys
import tempfile
import time
from collections.abc import Callable, Iterator, Mapping, Sequence
from unittest import mock

from tests.common import desk
from tests.common.tally import Count

sys.path.insert(0, os.path.join(desk.ROOT, "scripts"))

import gate  # noqa: E402
import lanes  # noqa: E402
import unsteady  # noqa: E402
from lanes import Lanes, Part, Result  # noqa: E402

WELL = "true"
FAILS = "bash -c 'echo it is otherwise; exit 3'"
HANGS = "sleep 3600"
NO_MODULE = "python3 -m " + "tests.gate.nothing"
# the seconds after which a stand-in that hangs is ended, and another one
SHORT, LONG = 1.0, 60.0
PROVED = 7
PROVES = f"bash -c 'echo {PROVED} passed, 0 failed'"


@contextlib.contextmanager
def impatient() -> Iterator[None]:
    """A part may take the minutes of the table and no more."""
    with mock.patch.multiple(lanes, LEAST=0.0, TIMES=1.0):
        yield


def stand_in(part: Part, command: str) -> Part:
    """The part with another command, which needs nothing."""
    seconds = SHORT if command == HANGS else LONG
    return part._replace(command=command, needs="", cores=1, minutes=seconds / 60)


def ran(
    parts: Sequence[Part],
    count: int = 4,
    whole: bool = True,
    heard: Callable[[str], object] = str,
) -> tuple[list[Result], str]:
    """The results of parts, and all that was shown, which `heard` gets as it is shown."""
    said: list[str] = []

    def say(text: str) -> None:
        said.append(text)
        heard(text)

    with tempfile.TemporaryDirectory() as logs, impatient():
        results = Lanes(parts, count, logs, whole=whole, say=say).run()
    return results, "".join(said)


def outcomes(results: Sequence[Result]) -> list[str]:
    return [it.outcome.value for it in results]


# when a part began and ended
Span = tuple[float, ...]

# ---- the lanes


def faults(count: Count) -> None:
    """Each way in which a part does not pass."""
    parts = [
        Part("well", WELL),
        Part("fails", FAILS),
        stand_in(Part("hangs", ""), HANGS),
        Part("killed", "bash -c 'kill -KILL $$'"),
        Part("no module", NO_MODULE),
        Part("no program", "nothing-of-this-name"),
        Part("lacks", WELL, needs="nothing-of-this-name"),
        Part("behind", WELL, after="fails"),
        Part("behind the behind", WELL, after="behind"),
        Part("behind itself", WELL, after="behind itself"),
    ]
    results, said = ran(parts)
    wanted = ["passed", *["FAILED"] * 6, *["NOT RUN"] * 3]
    count.same("the outcomes", outcomes(results), wanted)
    whys = {it.part.name: it.why for it in results}
    count.same("one that fails", whys["fails"], "status 3")
    count.same("one that lacks a program", "nothing-of-this-name" in whys["lacks"], True)
    count.same("one whose part before failed", whys["behind"], "fails is FAILED")
    count.holds("the hang is told", "no end after" in said and "ended sleep" in said, said)
    count.holds("the failing part's words are shown", "it is otherwise" in said, said)
    left_out = ran(parts, whole=False)[0]
    count.same("where parts may be left out", outcomes(left_out)[6], "LEFT OUT")


def order(count: Count) -> None:
    """What parts print is shown in the order of the table, however they end: here the first one
    ends once the two others have."""
    with tempfile.TemporaryDirectory() as folder:
        over = os.path.join(folder, "over")
        script = 'echo one; until [ -e "$0" ]; do sleep 0.05; done; echo two'
        parts = [
            Part("slow", f"bash -c '{script}' {over}"),
            Part("quick", "echo three"),
            Part("last", "printf four"),
        ]

        def hears(text: str) -> None:
            if "(2 of 3: " in text:
                desk.write(folder, "over", "")

        shown = ran(parts, heard=hears)[1]
    said = [it for it in shown.splitlines() if not it.startswith("(")]
    wanted = ["== slow", "one", "two", "== quick", "three", "== last", "four"]
    count.same("the order of output", said, wanted)
    told = [it for it in shown.splitlines() if it.startswith("(")]
    count.holds("how far it is", told[0].startswith("(1 of 3: ") and "to go" in told[0], told)
    count.holds("at the end", told[-1].startswith("(3 of 3: slow passed in "), told)


# Notes when it begins and ends, which is once others have begun too, or half a minute later.
SPANS = """date +%s.%N > "$0"; sleep 0.7
for name in "$@"; do
    for _ in $(seq 300); do [ -e "$name" ] && break; sleep 0.1; done
done
date +%s.%N >> "$0"
"""


def spans(
    parts: Sequence[tuple[str, bool, int]], lane_count: int, meeting: str = ""
) -> dict[str, Span]:
    """When parts began and ended: each has a name, whether it runs alone, and its lanes. Those that
    are `meeting` wait for one another (a slow machine may begin one long before the other)."""
    with tempfile.TemporaryDirectory() as folder:
        others = " ".join(f"{folder}/{it}" for it in meeting)
        made = [
            Part(
                name,
                f"bash -c '{SPANS}' {folder}/{name} {others if name in meeting else ''}",
                alone=is_alone,
                cores=cores,
            )
            for name, is_alone, cores in parts
        ]
        ran(made, lane_count)
        return {it.name: tuple(map(float, desk.read(folder, it.name).split())) for it in made}


def meet(found: Mapping[str, Span], *pairs: str) -> bool:
    """Whether the parts of some pair ran at the same time."""
    spans = [(found[pair[0]], found[pair[1]]) for pair in pairs]
    return any(one[0] < other[1] and other[0] < one[1] for one, other in spans)


def side_by_side(count: Count) -> None:
    """As many at once as there are lanes; nothing beside what runs alone."""
    begun = time.monotonic()
    found = spans([(name, False, 1) for name in "abcd"], 4, "abcd")
    first = max(it[0] for it in found.values()), min(it[1] for it in found.values())
    lasted = time.monotonic() - begun
    count.holds("four in four lanes", first[0] < first[1], (found, lasted))
    found = spans([(name, False, 1) for name in "abc"], 1)
    count.holds("one lane", not meet(found, "ab", "ac", "bc"), found)
    found = spans([("a", True, 1), ("b", False, 1), ("c", True, 1), ("d", False, 1)], 4, "bd")
    count.holds("two beside each other", meet(found, "bd"), found)
    count.holds("alone", not meet(found, "ab", "ac", "ad", "cb", "cd"), found)
    found = spans([("a", False, 2), ("b", False, 2), ("c", False, 3)], 4, "ab")
    count.holds("two and two lanes", meet(found, "ab"), found)
    count.holds("three lanes of four", not meet(found, "ac"), found)


def passing(count: Count) -> None:
    """A part that waits for two lanes lets one pass that should end before they are free, and no
    longer one: `first` ends at once, and `slow` holds one of the two lanes."""
    lasts = {"wide": 4.0, "long": 3.0, "slow": 2.0, "short": 1.0, "first": 0.5}
    with tempfile.TemporaryDirectory() as folder:
        over = os.path.join(folder, "over")
        waits = f"bash -c 'for _ in $(seq 300); do [ -e {over} ] && break; sleep 0.1; done'"
        parts = [
            Part("first", WELL),
            Part("slow", waits),
            Part("wide", WELL, cores=2, after="first"),
            Part("long", WELL, after="first"),
            Part("short", f"touch {over}", after="first"),
        ]
        parts = [it._replace(minutes=lasts[it.name]) for it in parts]
        said = ran(parts, 2)[1]
    ended = [it.split()[3] for it in said.splitlines() if it.startswith("(")]
    count.holds("a short one passes", ended.index("short") < ended.index("wide"), ended)
    count.holds("none that is longer passes", ended.index("wide") < ended.index("long"), ended)


def passing_late(count: Count) -> None:
    """The same where the part that holds the other lane takes longer than it last took."""
    with tempfile.TemporaryDirectory() as folder:
        over = os.path.join(folder, "over")
        waits = f"bash -c 'for _ in $(seq 300); do [ -e {over} ] && break; sleep 0.1; done'"
        parts = [
            Part("first", "sleep 3"),
            Part("slow", waits),
            Part("wide", WELL, cores=2, after="first"),
            Part("short", f"touch {over}", after="first"),
        ]
        known = {"first": 0.05, "slow": 0.04, "wide": 0.03, "short": 0.01}
        said: list[str] = []
        Lanes(parts, 2, folder, known=known, say=said.append).run()
    ended = [it.split()[3] for it in "".join(said).splitlines() if it.startswith("(")]
    is_right = ended.index("short") < ended.index("wide")
    count.holds("a short one passes one that waits for one that is late", is_right, ended)


def apart(count: Count) -> None:
    """Each has a folder of its own, which is gone behind it, with what it left running."""
    parts = [Part(name, "bash -c 'echo at $TMPDIR; sleep 987.25 & disown'") for name in "ab"]
    said = ran(parts)[1]
    folders = {line.split()[1] for line in said.splitlines() if line.startswith("at ")}
    count.same("folders of their own", len(folders), 2)
    count.same("they are gone", [it for it in folders if os.path.exists(it)], [])
    is_told = "left behind, and ended: " in said and "sleep" in said
    count.holds("what was left is told", is_told, said)
    words = [f"/proc/{it}/cmdline" for it in os.listdir("/proc") if it.isdigit()]
    running = []
    for path in words:
        with contextlib.suppress(OSError), open(path, "rb") as file:
            if b"\x00987.25" in file.read():
                running.append(path)
    count.same("what was left is gone", running, [])


# ---- the whole gate


def gated(first: Sequence[Part], proof: Part, parts: Sequence[Part]) -> tuple[int, str]:
    """The status and the output of a gate of these parts."""
    said = io.StringIO()
    with tempfile.TemporaryDirectory() as logs:
        minutes = os.path.join(logs, "minutes.json")
        tables = {"FIRST": (*first, proof), "PROOF": proof, "PARTS": tuple(parts)}
        with (
            mock.patch.multiple(gate, LOGS=logs, MINUTES=minutes, cores=lambda: 16, **tables),
            mock.patch.dict(os.environ, WHOLE="1"),
            mock.patch.object(sys, "argv", ["gate.py"]),
            contextlib.redirect_stdout(said),
            impatient(),
        ):
            status = gate.main()
    return status, said.getvalue()


def well_before() -> tuple[list[Part], Part]:
    """What comes first, and `rt ci`, where all of it passes."""
    first = [stand_in(it, WELL) for it in gate.FIRST if it is not gate.PROOF]
    return first, stand_in(gate.PROOF, PROVES)


def planted(count: Count) -> None:
    """In each part of the gate, each fault: it is named in the last lines, and not counted."""
    kinds = (FAILS, HANGS, NO_MODULE)
    first, proof = well_before()
    for at in range(len(kinds)):
        parts = [
            stand_in(part, kinds[(at + number) % len(kinds)])
            for number, part in enumerate(gate.PARTS)
        ]
        status, said = gated(first, proof, parts)
        last = said[said.rindex("\n| part |") :].splitlines()
        count.same("the last line", last[-1], f"{PROVED + len(first)} passed, {len(parts)} failed")
        count.same("the status", status, 1)
        told = {it.partition(": ")[2].partition(" (")[0] for it in last if it.startswith("== ")}
        count.same("the parts that are named", told, {it.name for it in parts})
        rows = {it.split("|")[1].strip() for it in last if it.startswith("| ")}
        named = {it.name for it in (*first, proof, *parts)}
        count.same("the parts of the table", rows - {"part"}, named)


def ends(count: Count) -> None:
    """The whole gate where all is well, and where it cannot go on."""
    first, proof = well_before()
    parts = [stand_in(it, WELL) for it in gate.PARTS]
    status, said = gated(first, proof, parts)
    whole = f"{PROVED + len(first) + len(parts)} passed, 0 failed"
    count.same("all is well", (status, said.splitlines()[-1]), (0, whole))
    for at, command in enumerate((FAILS, HANGS, "nothing-of-this-name")):
        which = at % len(first)
        before = list(first)
        before[which] = stand_in(before[which], command)
        status, said = gated(before, proof, parts)
        wanted = f"{which} passed, {len(first) - which + 1 + len(parts)} failed"
        count.same("what comes first fails", (status, said.splitlines()[-1]), (1, wanted))
    failed = proof._replace(command="bash -c 'echo 5 passed, 2 failed; exit 1'")
    status, said = gated(first, failed, parts)
    wanted = f"{5 + len(first)} passed, {2 + len(parts)} failed"
    count.same("a proof fails", (status, said.splitlines()[-1]), (1, wanted))
    for command in (HANGS, "nothing-of-this-name", "true"):
        status, said = gated(first, stand_in(proof, command), parts)
        wanted = f"{len(first)} passed, {1 + len(parts)} failed"
        count.same(f"no proof: {command}", (status, said.splitlines()[-1]), (1, wanted))


# Fails in those of its runs that are named, and says which it is.
SOMETIMES = """echo "${AGAIN:-0}" >> "$0"; run=$(wc -l < "$0"); echo run $run
case " $* " in *" $run "*) exit 3 ;; esac
"""


def sometimes(folder: str, name: str, *runs: int) -> Part:
    """A part that fails in these of its runs, and keeps a line of each."""
    words = " ".join(map(str, runs))
    return Part(name, f"bash -c '{SOMETIMES}' {folder}/{name} {words}", minutes=LONG / 60)


def accidents(count: Count) -> None:
    """What failed beside others is run twice more, alone, and is named."""
    first, proof = well_before()
    before = PROVED + len(first)
    with tempfile.TemporaryDirectory() as folder:
        once, behind = sometimes(folder, "once", 1), Part("behind", WELL, after="once")
        status, said = gated(first, proof, [once, behind, Part("well", WELL)])
        count.same("once", (status, said.splitlines()[-1]), (0, f"{before + 3} passed, 0 failed"))
        count.same("told that it is again", desk.read(folder, "once").split(), ["0", "1", "1"])
        last = said[said.rindex("\n| part |") :]
        is_named = f"== once: {unsteady.UNSTEADY}\nrun 1\n" in last
        count.holds("its failure is in the last lines", is_named, last)
        for runs in ((1, 2), (1, 3)):
            name = f"at-{runs[1]}"
            status, said = gated(first, proof, [sometimes(folder, name, *runs)])
            wanted = (1, f"{before} passed, 1 failed")
            count.same(f"fails again {name}", (status, said.splitlines()[-1]), wanted)
        many = [sometimes(folder, name, 1) for name in ("many-1", "many-2", "many-3")]
        status, said = gated(first, proof, many)
        wanted = (1, f"{before} passed, 3 failed")
        count.same("three are no accident", (status, said.splitlines()[-1]), wanted)
        count.same("none is run again", desk.read(folder, "many-1").split(), ["0"])
        hangs = stand_in(Part("hangs", ""), HANGS)
        status, said = gated(first, proof, [hangs, sometimes(folder, "beside", 1)])
        wanted = (1, f"{before} passed, 2 failed")
        count.same("beside one that hangs", (status, said.splitlines()[-1]), wanted)


def suites(count: Count) -> None:
    """A suite that is run again runs the tests that failed, and where none did, it fails."""
    with tempfile.TemporaryDirectory() as folder:
        test = "import os\n\ndef test_well(): pass\n\ndef test_once():\n"
        desk.write(folder, "test_it.py", f"{test}    assert os.environ.get('AGAIN')\n")
        script = f'. {desk.ROOT}/scripts/suite.sh; mapfile -t words < <(suite_words it 2); '
        words = ["bash", "-c", f'{script}/usr/bin/python3 -m pytest "${{words[@]}}" test_it.py']

        def ran_suite(**more: str) -> tuple[int, str]:
            environment = dict(os.environ, **more)
            done = subprocess.run(
                words, cwd=folder, env=environment, capture_output=True, text=True, check=False
            )
            return done.returncode, done.stdout.splitlines()[-1].partition(" in ")[0]

        count.same("with nothing that failed", ran_suite(AGAIN="1"), (5, "2 deselected"))
        count.same("at first", ran_suite(), (1, "1 failed, 1 passed"))
        count.same("again", ran_suite(AGAIN="1"), (0, "1 passed, 1 deselected"))


def main() -> int:
    count = Count()
    parts = (faults, order, side_by_side, passing, passing_late, apart, planted, ends)
    for part in (*parts, accidents, suites):
        begun = time.monotonic()
        part(count)
        print(f"{part.__name__}: {time.monotonic() - begun:.1f} seconds", flush=True)
    print(f"the gate's runner: {count.tried} checks, {count.wrong} wrong")
    return 1 if count.wrong else 0


if __name__ == "__main__":
    sys.exit(main())
