"""Moments and names, as every program beside the desk reads and writes them."""

from datetime import UTC, datetime, timedelta, timezone

import pytest

from steelnewt_client.messages import canonical
from steelnewt_client.moments import BadMoment, of_stamp, seconds, stamp, stamp_of
from steelnewt_client.names import is_label

ROWS = [
    ("19700101000000Z", datetime(1970, 1, 1, tzinfo=UTC), 0),
    ("20240229235959Z", datetime(2024, 2, 29, 23, 59, 59, tzinfo=UTC), 1_709_251_199),
    ("20380119031408Z", datetime(2038, 1, 19, 3, 14, 8, tzinfo=UTC), 2**31),
    ("20991231235959Z", datetime(2099, 12, 31, 23, 59, 59, tzinfo=UTC), 4_102_444_799),
]


@pytest.mark.parametrize(("text", "at", "since"), ROWS)
def test_one_moment_three_ways(text: str, at: datetime, since: int) -> None:
    assert (of_stamp(text), stamp(at)) == (at, text)
    assert (seconds(text), stamp_of(since)) == (since, text)


def test_another_zone_is_the_same_moment() -> None:
    at = datetime(2026, 1, 5, 10, 0, tzinfo=timezone(timedelta(hours=1)))
    assert stamp(at) == "20260105090000Z"


@pytest.mark.parametrize(
    "text",
    ["", "20260105090000", "20260105090000z", "2026-01-05", "20260230000000Z", "20260105240000Z",
     "20260105090000Z\n", "٢٠٢٦٠١٠٥٠٩٠٠٠٠Z"],
)  # fmt: skip
def test_no_moment(text: str) -> None:
    with pytest.raises(BadMoment, match="no moment"):
        of_stamp(text)
    with pytest.raises(BadMoment, match="no moment"):
        seconds(text)


@pytest.mark.parametrize("year", [1969, 2100])
def test_years_that_the_desk_does_not_know(year: int) -> None:
    with pytest.raises(BadMoment, match="1970 to 2099"):
        stamp(datetime(year, 6, 1, tzinfo=UTC))


def test_labels() -> None:
    assert all(map(is_label, ["a", "db-1", "a" * 32]))
    assert not any(map(is_label, ["", "1a", "-a", "A", "db_1", "a" * 33, "a\n"]))


def test_one_text_of_a_value() -> None:
    assert canonical({"b": [1, "ä/\n"], "a": {}}) == '{"a":{},"b":[1,"ä/\\n"]}'
