"""Moments as people and spreadsheets read them."""

from steelnewt_client.moments import of_stamp


def spread(at: str) -> str:
    """A moment as a spreadsheet reads it, in UTC; nothing for none."""
    return f"{of_stamp(at):%Y-%m-%d %H:%M:%S}" if at else ""
