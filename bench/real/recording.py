"""Reads what recorder.c writes, as recording.h has it."""

from __future__ import annotations

import struct
from dataclasses import dataclass
from enum import IntEnum
from pathlib import Path

HEADER = struct.Struct("<QQ")
RECORD = struct.Struct("<QQIII4x")
MAGIC = 0x43414C4C
MOST_RECORDS = 1 << 26


class Call(IntEnum):
    NONE = 0
    START = 1
    MALLOC = 2
    CALLOC = 3
    ALIGNED = 4
    FREE = 5
    REALLOC_TAKES = 6
    REALLOC_GIVES = 7
    REALLOC_FAILS = 8


@dataclass(frozen=True)
class Record:
    address: int
    bytes: int
    process: int
    thread: int
    call: Call


def count(recording: Path) -> int:
    """How many records there are so far, also while the program runs."""
    with recording.open("rb") as file:
        magic, records = HEADER.unpack(file.read(HEADER.size))
    if magic != MAGIC or records > MOST_RECORDS:
        raise ValueError(f"{recording} is no recording, or one that has lost calls")
    return records


def read(recording: Path) -> list[Record]:
    records = count(recording)
    with recording.open("rb") as file:
        file.seek(HEADER.size)
        data = file.read(records * RECORD.size)
    return [Record(address, size, process, thread, Call(call)) for address, size, process, thread, call in RECORD.iter_unpack(data)]
