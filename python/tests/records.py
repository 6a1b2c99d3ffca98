"""Records for histories that tests write."""

from __future__ import annotations

from huwekapo import record as form
from huwekapo.record import record


def allocate(size: int, d: int) -> bytes:
    return record(form.ALLOCATE, d=d, size=size)


def copy(s: int, d: int) -> bytes:
    return record(form.COPY, d=d, s=s)


def write(s: int, c: int, d: int) -> bytes:
    return record(form.WRITE, d=d, s=s, c=c)


def read(c: int, s: int, d: int) -> bytes:
    return record(form.READ, d=d, s=s, c=c)


def clear(d: int) -> bytes:
    return record(form.CLEAR, d=d)


def allocate_data(size: int, d: int) -> bytes:
    return record(form.ALLOCATE_DATA, d=d, size=size)


def write_number(v: int, c: int, d: int) -> bytes:
    return record(form.WRITE_NUMBER, d=d, c=c, size=v)


COLLECT = record(form.COLLECT)


def narrowed(history: bytes) -> bytes:
    """The old history of eight-byte records that is widened to this one, where there is one."""
    records = (history[at : at + form.RECORD] for at in range(0, len(history), form.RECORD))
    return b"".join(one[:6] + one[8:10] if len(one) == form.RECORD else one for one in records)
