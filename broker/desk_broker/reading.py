"""Reads what a relay wrote beside its message, whatever it is.

A relay writes the properties and headers of its messages, and pika reads them before a consumer has
the message. Two things in them would give a relay power over every desk:

- **A value that pika cannot read**, as a moment past the year 9999 or lists nested a thousand deep,
  ends pika's connection, each time that the queue gives the message out again. A table of headers
  with such a value is read as no table.
- **A flag that brokers pass over and pika does not**: where one of the last two bits of the flags
  is set, pika may read another account's name than the one that the broker has checked. Such
  properties are read as none. (Quorum queues of RabbitMQ 3.10 write the flags anew.)
"""

from __future__ import annotations

import struct
from collections.abc import Callable

import pika
import pika.data
import pika.spec

SPARE = 0b11  # the bits of the flags that stand for no property
Table = dict[object, object]
read_table: Callable[[bytes, int], tuple[Table, int]] = pika.data.decode_table
read_properties = pika.spec.BasicProperties.decode


class Unreadable(Table):
    """In the place of a table that pika cannot read: no headers."""


def decode_table(encoded: bytes, offset: int) -> tuple[Table, int]:
    """The table, which ends where its length says, readable or not."""
    end = offset + 4 + struct.unpack_from(">I", encoded, offset)[0]
    try:
        table, at = read_table(encoded, offset)
    except Exception:  # (whatever a value makes of pika: the message is none the worse)
        return Unreadable(), end
    return (table, end) if at == end else (Unreadable(), end)


def decode_properties(
    self: pika.BasicProperties, encoded: bytes, offset: int = 0
) -> pika.BasicProperties:
    if struct.unpack_from(">H", encoded, offset)[0] & SPARE:
        return self
    return read_properties(self, encoded, offset)


def install() -> None:
    """From here on pika reads so, in this process."""
    pika.data.decode_table = decode_table
    pika.spec.BasicProperties.decode = decode_properties
