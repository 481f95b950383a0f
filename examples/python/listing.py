"""Prints what specs fetch and where it goes, then where that is found to come from.

From the repository's top:

    tools/shared-library
    python3 examples/python/listing.py target/shared/libvasigmon.so

listing.out is what it prints.
"""

import ctypes
import io
import sys
from typing import NamedTuple, Optional

# All branches of the hub but the temporary ones, a tag that goes nowhere, and one commit.
SPECS = [
    b"+refs/heads/*:refs/remotes/hub/*",
    b"^refs/heads/tmp*",
    b"v1",
    b"0123456789ABCDEF0123456789abcdef01234567:found",
]
NAMES = [b"HEAD", b"refs/heads/main", b"refs/heads/tmp1", b"refs/tags/v1"]

FETCH = 0
BUFFER_TOO_SHORT = 17


class Written(ctypes.Structure):
    """vasigmon_written: the answer of a call that writes to a lent buffer."""

    _fields_ = [("refusal", ctypes.c_uint64), ("record", ctypes.c_uint64), ("length", ctypes.c_uint64)]


class Row(NamedTuple):
    """What one spec maps one source to."""

    item: Optional[int]
    spec: int
    is_object: bool
    source: bytes
    destination: Optional[bytes]


def load(path):
    """The library, with the types of the two entries that are called here."""
    library = ctypes.CDLL(path)
    lent = [ctypes.c_char_p, ctypes.c_size_t]
    for entry in (library.vasigmon_match_lhs, library.vasigmon_match_rhs):
        entry.argtypes = [ctypes.c_uint64, *lent, *lent, *lent]
        entry.restype = Written
    return library


def listing(entry, specs, items):
    """The bytes that an entry writes, to a buffer of the length that it asks for if the first is too short."""
    length = 64
    while True:
        out = ctypes.create_string_buffer(length)
        answer = entry(FETCH, specs, len(specs), items, len(items), out, length)
        if answer.refusal == 0:
            return out.raw[: answer.length]
        if answer.refusal != BUFFER_TOO_SHORT:
            raise ValueError(f"record {answer.record}: refusal {answer.refusal}")
        length = answer.length


def number(value):
    """A number in groups of seven bits, lowest first, the top bit set while more follow."""
    groups = bytearray()
    while value >= 128:
        groups.append(value % 128 + 128)
        value //= 128
    groups.append(value)
    return bytes(groups)


def list_of(texts):
    """The list of some texts: of each its length, then its bytes."""
    return b"".join(number(len(text)) + text for text in texts)


def take_number(reader):
    """The number at the front of what is left."""
    value = shift = 0
    while True:
        byte = reader.read(1)[0]
        value += byte % 128 << shift
        shift += 7
        if byte < 128:
            return value


def take_row(reader):
    """The row at the front of what is left."""
    item = take_number(reader)
    spec = take_number(reader)
    is_object = take_number(reader) == 1
    source = reader.read(take_number(reader))
    after = take_number(reader)
    destination = reader.read(after - 1) if after else None
    return Row(item - 1 if item else None, spec, is_object, source, destination)


def rows(written):
    """The rows of a listing."""
    reader = io.BytesIO(written)
    while reader.tell() < len(written):
        yield take_row(reader)


def shown(row):
    """A row in print."""
    source = ("object " if row.is_object else "") + row.source.decode()
    destination = "nothing" if row.destination is None else row.destination.decode()
    return f"{source} -> {destination} (by {SPECS[row.spec].decode()})"


def main():
    library = load(sys.argv[1])
    specs = list_of(SPECS)

    forward = list(rows(listing(library.vasigmon_match_lhs, specs, list_of(NAMES))))
    print("fetched:")
    for row in forward:
        print("   ", shown(row))

    found = [row.destination for row in forward if row.destination is not None]
    print("mapped back:")
    for row in rows(listing(library.vasigmon_match_rhs, specs, list_of(found))):
        print("   ", shown(row))


if __name__ == "__main__":
    main()
