"""A message with its signature, as a line; and the one reading that a message has, beside what the
desk answers by cases/print-messages.toml."""

import hashlib
import json
import tomllib
from pathlib import Path

import pytest

from steelnewt_client.messages import Request, Verdict
from steelnewt_client.signed import MOST_LINE, BadLine, Signed, challenge, digest, enrolling
from steelnewt_client.signed import is_too_long, list_payload, list_signature, read_line
from steelnewt_client.signed import reason_digest, said_in

CASES = Path(__file__).resolve().parents[2] / "cases" / "print-messages.toml"
VERDICT = '{"at":"20260105083000Z","by":"bob","kind":"approve","no":7,"of":"ann"}'
SIGNATURE, ABOUT = "ssh:AAAA", "0" * 64


def refusal(text: str) -> str:
    """Why a text is no message; empty where it is."""
    try:
        assert said_in(text).text() == text
    except BadLine as fault:
        return str(fault)
    return ""


def test_each_message_that_the_desk_reads_is_read() -> None:
    vectors = tomllib.loads(CASES.read_text(encoding="utf-8"))
    request = vectors["request"]
    for row in vectors["read"]:
        assert refusal(request.replace(row["part"], row["by"], 1)) == "", row
    counts = {"M2 NotCanonical": 0, "M3 BadField": 0}
    for group in vectors["group"]:
        for row in group.get("rows", []):
            if set(row) == {"part", "by"} and isinstance(row["by"], str):
                said = group["err"].removeprefix("line 1: ").strip()
                found = refusal(request.replace(row["part"], row["by"], 1))
                # (which commands are lawful, the desk says alone)
                assert found or said == "M3 BadField", row
                assert found != "M2 NotCanonical" or found == said, row
                counts[said] += found == said
    assert counts["M2 NotCanonical"] > 10 and counts["M3 BadField"] > 20, counts


@pytest.mark.parametrize(
    ("part", "by"),
    [
        ('{"at"', '{"at":"20260105083000Z","at"'), ('"by":"bob"', '"by":"ann","by":"bob"'),
        ('"no":7', '"no":07'), ('"no":7', '"no":7.0'), ('"no":7', '"no":-0'),
        ('"no":7', '"no":7e0'),
        ('"bob"', '"\\u0062ob"'), ('{"at"', ' {"at"'), ('"}', '"}\n'), ('"}', '"}\t'),
        ('"bob"', '"\ud800"'), ('"no":7', '"no":NaN'), ('"no":7', f'"no":{"[" * 9999}'),
    ],
)  # fmt: skip
def test_what_another_reader_might_read_otherwise(part: str, by: str) -> None:
    assert refusal(VERDICT) == ""
    assert refusal(VERDICT.replace(part, by, 1)) == "M2 NotCanonical"


@pytest.mark.parametrize(
    ("name", "value"),
    [
        ("by", "*"), ("by", "!bob"), ("by", "bob,ann"), ("by", "Bob"), ("by", ""), ("by", 7),
        ("of", "*"), ("of", None), ("kind", "request"), ("kind", "grant"), ("kind", 7),
        ("no", True), ("no", -1), ("no", 10**9), ("no", "7"), ("at", "20260105"),
        ("at", "20261305083000Z"), ("more", 1),
    ],
)  # fmt: skip
def test_what_is_no_verdict(name: str, value: object) -> None:
    told = json.loads(VERDICT) | {name: value}
    text = json.dumps(told, sort_keys=True, separators=(",", ":"))
    assert refusal(text) == "M3 BadField"


def test_a_line_and_back() -> None:
    for signed in (
        Signed(VERDICT), Signed(VERDICT, SIGNATURE), Signed(VERDICT, SIGNATURE, ABOUT),
        Signed(VERDICT, SIGNATURE, "", ABOUT), Signed(VERDICT, SIGNATURE, ABOUT, ABOUT),
        Signed(VERDICT, "list:AAAA:AAAA", ABOUT),
        Signed(VERDICT, "webauthn:A_A.-A.AA.A", ABOUT),
        Signed(VERDICT, "webauthn-list:AA.AA.AA.AA:AAAA", ABOUT),
    ):  # fmt: skip
        assert read_line(signed.line().encode()) == signed
        assert signed.line().partition("\t")[0] == VERDICT


@pytest.mark.parametrize(
    "rest",
    ["\tx", "\tssh:", "\tssh:A A", "\tgpg:AAAA", "\tssh:AAAA\tx", "\tssh:AAAA\t" + "A" * 64,
     "\tssh:AAAA\t\t2026", "\tssh:AAAA\t\t\t", f"\tssh:AAAA\t\t{ABOUT}\tx",
     "\twebauthn:AA.AA.AA", "\twebauthn:AA.AA.AA.A=", "\twebauthn:AA.AA.AA.AA:AAAA",
     "\twebauthn-list:AA.AA.AA.AA", "\twebauthn-list:AA.AA.AA.AA:A_AA", "\twebauthn:AAAA",
     "\tlist:AAAA", "\tlist:AAAA:", "\tssh:AAAA\nx", "\t ssh:AAAA", "\tssh:" + "A" * 8_189],
)  # fmt: skip
def test_what_is_no_line(rest: str) -> None:
    with pytest.raises(BadLine, match="A20 BadSignature"):
        read_line(f"{VERDICT}{rest}".encode())


def test_how_long_a_line_may_be() -> None:
    longest = Signed("x" * 16_384, "ssh:" + "A" * 8_188, ABOUT, ABOUT).line()
    assert len(longest) == MOST_LINE and not is_too_long(longest.encode())
    assert is_too_long(b"x" * 16_385) and is_too_long(longest.encode() + b"x")
    with pytest.raises(BadLine, match="M1 TooLong"):
        read_line(b"x" * 16_385)
    with pytest.raises(BadLine, match="M2 NotCanonical"):
        read_line(b"\xff")


def test_what_is_signed_is_one_thing() -> None:
    """The signed bytes differ where the site, the message, the request or the reason differs."""
    other = VERDICT.replace("approve", "revoke")
    things = [(site, Signed(text, "", about, why)) for site in ("a", "b")
              for text in (VERDICT, other) for about in ("", ABOUT, digest(VERDICT))
              for why in ("", ABOUT, digest(other))]  # fmt: skip
    assert len({it.payload(site) for site, it in things}) == len(things) == 36
    assert isinstance(said_in(VERDICT), Verdict) and not isinstance(said_in(VERDICT), Request)


def test_a_list_has_each_of_its_messages() -> None:
    said = [Signed(VERDICT.replace(":7", f":{no}"), "", ABOUT) for no in range(64)]
    listed = [it.said("a") for it in said]
    signature = list_signature("AAAA", listed)
    for it in said:
        namespace, what, raw = Signed(it.message, signature, it.about).signed_bytes("a")
        assert (namespace, what) == ("steelnewt-list@v1", list_payload("a", listed))
        assert raw == b"\0\0\0"
    longest = Signed("x" * 16_384, list_signature("A" * 4_000, listed), ABOUT, ABOUT)
    assert not is_too_long(longest.line().encode())
    for strange in (
        Signed(VERDICT, signature, ABOUT, ABOUT), Signed(VERDICT.replace(":7", ":64"), signature),
        Signed(VERDICT, signature), Signed(VERDICT, list_signature("AAAA", [*listed, "0" * 64])),
        Signed(VERDICT, list_signature("AAAA", listed[:1] * 2), ABOUT),
        Signed(VERDICT, f"{signature[:-4]}AAAA", ABOUT), Signed(VERDICT, "list:AAAA:AAAA", ABOUT),
    ):  # fmt: skip
        with pytest.raises(BadLine, match="A20 BadSignature"):
            strange.signed_bytes("a")
    with pytest.raises(BadLine, match="does not have"):
        Signed(said[0].message, signature, ABOUT).signed_bytes("b")


def test_what_a_passkey_is_asked_for() -> None:
    """A challenge differs where the purpose or the bytes do; a list needs each message too."""
    asked = [challenge(purpose, what) for purpose in ("a", "b") for what in (b"", b"x", b"a")]
    assert len(set(asked)) == 6 and {len(it) for it in asked} == {32}
    assert challenge("a", b"x") == hashlib.sha256(b"a\0x").digest()
    assert enrolling("site", "ann", "word") == b"site\nann\nword"
    said = Signed(VERDICT, "", ABOUT)
    signature = list_signature("AA.AA.AA.AA", [said.said("a")], "webauthn-list")
    made = Signed(VERDICT, signature, ABOUT)
    assert made.is_by_passkey and not said.is_by_passkey
    assert made.signed_bytes("a")[::2] == ("steelnewt-list@v1", b"AA.AA.AA.AA")
    with pytest.raises(BadLine, match="does not have"):
        Signed(VERDICT, signature).signed_bytes("a")


def test_the_digest_of_a_reason() -> None:
    assert reason_digest("", "") == ""
    assert len({reason_digest(*it) for it in (("a", ""), ("", "a"), ("a", "b"), ("b", "a"))}) == 4
