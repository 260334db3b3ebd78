"""Times as people say them."""

from datetime import UTC, datetime
from zoneinfo import ZoneInfo

import pytest

from steelnewt_client.moments import stamp
from steelnewt_relay.moments import BadTime, length_of, moment_of, shown, spoken

BERLIN = ZoneInfo("Europe/Berlin")
NOON = datetime(2026, 1, 5, 12, 0, 0, tzinfo=UTC)

MEANT = [
    ("now", "20260105120000Z"),
    ("17:00", "20260105160000Z"),
    ("17:00Z", "20260105170000Z"),
    ("today 17:00", "20260105160000Z"),
    ("tomorrow 09:00", "20260106080000Z"),
    ("2026-07-01 09:00", "20260701070000Z"),
    ("2026-07-01T09:00:30", "20260701070030Z"),
    ("+90m", "20260105133000Z"),
    ("in 2h", "20260105140000Z"),
    ("20260105150000Z", "20260105150000Z"),
]


@pytest.mark.parametrize(("text", "wanted"), MEANT)
def test_a_time_is_one_moment(text: str, wanted: str) -> None:
    assert stamp(moment_of(text, BERLIN, NOON)) == wanted


NO_TIMES = [
    "",
    "noon",
    "25:00",
    "12:60",
    "9",
    "09:00",
    "2026-02-30 09:00",
    "20260230090000Z",
    "2026-03-29 02:30",
    "2026-10-25 02:30",
    "yesterday 09:00",
    "2101-01-01 09:00",
    "-2h",
]


@pytest.mark.parametrize("text", NO_TIMES)
def test_what_is_no_moment_is_refused(text: str) -> None:
    with pytest.raises(BadTime):
        stamp(moment_of(text, BERLIN, NOON))


def test_an_hour_that_is_there_twice_or_never_is_named() -> None:
    with pytest.raises(BadTime, match="is there twice"):
        moment_of("2026-10-25 02:30", BERLIN, NOON)
    with pytest.raises(BadTime, match="is not there"):
        moment_of("2026-03-29 02:30", BERLIN, NOON)


def test_lengths() -> None:
    assert [length_of(it).total_seconds() for it in ("2h", "1h30m", "1d", "45s")] == [
        7200,
        5400,
        86400,
        45,
    ]
    for text in ("2", "h", "2 h", "0m", "-2h", "2w", "1.5h"):
        with pytest.raises(BadTime):
            length_of(text)


def test_both_times_are_shown() -> None:
    assert shown(NOON, BERLIN) == "Mon 2026-01-05 12:00:00 UTC (13:00:00 CET)"
    late = NOON.replace(hour=23)
    assert shown(late, BERLIN) == "Mon 2026-01-05 23:00:00 UTC (Tue 2026-01-06 00:00:00 CET)"
    assert shown(NOON, UTC) == "Mon 2026-01-05 12:00:00 UTC"
    assert spoken(length_of("1h30m")) == "1 hour 30 minutes"
