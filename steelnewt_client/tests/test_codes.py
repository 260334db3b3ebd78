"""What becomes of a message, by each code, as docs/HTTP.md says it; and the sentences that people
see, which are those of docs/CODES.md."""

import re
from pathlib import Path

import pytest

from steelnewt_client.codes import FRONT_MEANS, SENTENCES, Fate, in_words, judge

DOCS = Path(__file__).resolve().parents[2] / "docs"
ADMISSION, DOOR = (range(1, 9), range(20, 28))
FINAL = ["M1", "M2", "M3", *(f"A{number}" for number in (*ADMISSION, *DOOR))]
MEND = ["P1", "P2", "P20", "T1", "T2", "T3", "T4", "T5", "T6", "T8"]
AGAIN = ["T7", "K4", "K5", "G1", *(f"K{number}" for number in range(20, 27))]
WANTED = {
    code: fate
    for codes, fate in ((FINAL, Fate.FINAL), (MEND, Fate.MEND), (AGAIN, Fate.AGAIN))
    for code in codes
}


def named() -> dict[str, str]:
    """The name of each code, by docs/CODES.md."""
    text = (DOCS / "CODES.md").read_text(encoding="utf-8")
    return dict(re.findall(r"^\| `([A-Z][0-9]{1,2}) ([A-Za-z]+)` \|", text, re.MULTILINE))


def between(first: str, last: str) -> list[str]:
    """The codes of a row's range, such as `A1` to `A8`."""
    return [f"{first[0]}{number}" for number in range(int(first[1:]), int(last[1:]) + 1)]


def served() -> list[tuple[int, str]]:
    """Each status and refusal of docs/HTTP.md, 'What is refused'."""
    text = (DOCS / "HTTP.md").read_text(encoding="utf-8").partition("## What is refused")[2]
    rows = re.findall(r"^\| ([0-9]{3}) [A-Z][^|]* \| ([^|]+) \|$", text, re.MULTILINE)
    names = named()
    return [
        (int(status), f"{code} {names[code]}")
        for status, codes in rows
        for first, last in re.findall(r"`([A-Z][0-9]{1,2})`(?: to `([A-Z][0-9]{1,2})`)?", codes)
        for code in between(first, last or first)
    ]


def test_each_code_has_its_fate() -> None:
    assert {code.partition(" ")[0] for _, code in served()} == WANTED.keys()


@pytest.mark.parametrize(("status", "code"), served())
def test_the_fate_of_each_code(status: int, code: str) -> None:
    answer = judge(status, f"{code}\n")
    fate = WANTED[code.partition(" ")[0]]
    assert answer.fate is fate
    assert answer.said == (f"{status} {code}" if fate is Fate.AGAIN else code)
    assert answer.why == ("" if fate is Fate.FINAL else f"the desk answers {status}, {code}")


def test_the_document_says_the_same() -> None:
    """The rows of docs/HTTP.md, 'What a relay owes', by what they say of codes."""
    text = (DOCS / "HTTP.md").read_text(encoding="utf-8")
    rows = dict(re.findall(r"^\| ((?:[0-9, ]+|or )+ with .+) \| (.+) \|$", text, re.MULTILINE))
    [final] = [what for said, what in rows.items() if "an `A` or `M` code" in said]
    [mend] = [what for said, what in rows.items() if "`P1` or a `T` code other than `T7`" in said]
    [again] = [what for said, what in rows.items() if "503 with a code, or 400 with `T7`" in said]
    assert "final" in final and "mend them, then post the same bytes again" in mend
    assert again.startswith("post the same bytes again, a little later each time")


@pytest.mark.parametrize("status", [200, 302, 429, 500, 502])
def test_a_code_with_a_status_of_no_refusal(status: int) -> None:
    assert judge(status, "A3 NotAsker\n").fate is Fate.AGAIN


@pytest.mark.parametrize("text", ["", "ack", "<html>403</html>", "A3", "A3 NotAsker\nmore\n", "Z1 Odd\n"])
def test_what_is_no_word_of_a_desk(text: str) -> None:
    for status in (400, 403, 413):
        assert judge(status, text).fate is Fate.AGAIN


def test_an_acknowledgement() -> None:
    assert judge(200, "ack\n").fate is Fate.TAKEN
    for status, text in ((200, "ack \n"), (200, "ACK\n"), (201, "ack\n"), (200, "")):
        assert judge(status, text).fate is Fate.AGAIN


def test_a_front_that_answers_by_itself() -> None:
    for status, means in FRONT_MEANS.items():
        answer = judge(status, "<html>no</html>\n")
        assert answer.fate is Fate.AGAIN and answer.why.endswith(means)


def rows() -> dict[str, tuple[str, str]]:
    """The rows of docs/CODES.md that have what to do."""
    text = (DOCS / "CODES.md").read_text(encoding="utf-8")
    row = r"^\| `([AM][0-9]{1,2} [A-Za-z]+)` \| ([^|]+) \| ([^|]+) \|$"
    found = re.findall(row, text, re.MULTILINE)
    return {code: (when, then) for code, when, then in found}


def test_each_sentence_is_the_documents() -> None:
    assert SENTENCES == rows()


def test_each_code_of_a_message_is_there() -> None:
    assert [it.partition(" ")[0] for it in sorted(SENTENCES)] == sorted(FINAL)


def test_a_person_reads_what_to_do() -> None:
    text = in_words("A7 WindowTooLong")
    assert text.startswith("A7 WindowTooLong: ") and "What to do: ask for a shorter window" in text
