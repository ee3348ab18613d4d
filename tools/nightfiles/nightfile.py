"""A night from the file's bytes and back."""

from typing import NamedTuple

from . import Problem
from .editions import EDITIONS, IMAGE_AT, Edition

MAGIC = b"WL"
RECORD_LENGTH = 12
# In a file that is replayed in one, and in one that the streaming form alone takes: all that four bytes count.
MOST_RECORDS = 5000
MOST_COUNTED = 2**32 - 1


class Malformed(Problem):
    """A file that a replay answers with bad 9."""

    def __init__(self, name, why):
        super().__init__("%s: malformed night file: %s" % (name, why))
        self.why = why


class Night(NamedTuple):
    edition: Edition
    image: bytes
    records: list


def header(edition, count):
    numbers = (count, IMAGE_AT, edition.records_at)
    return MAGIC + bytes([edition.number, 0]) + b"".join(value.to_bytes(4, "big") for value in numbers)


def edition_of(beginning):
    """The edition that the first four bytes of a file name; none if they name none."""
    for edition in EDITIONS.values():
        if beginning == header(edition, 0)[:4]:
            return edition
    return None


def read_night(file, name, most=MOST_RECORDS):
    """The night of a file with so many records at most; Malformed says what is wrong with it."""

    def check(holds, why, *values):
        if not holds:
            raise Malformed(name, why % values)

    check(len(file) >= IMAGE_AT, "%d bytes, the header alone takes %d", len(file), IMAGE_AT)
    edition = edition_of(file[:4])
    beginnings = " or ".join(header(known, 0)[:4].hex(" ") for known in EDITIONS.values())
    check(edition, "it begins with %s and not with %s", file[:4].hex(" "), beginnings)
    start = edition.records_at
    check(len(file) >= start, "%d bytes, header and image alone take %d", len(file), start)
    count, image_at, records_at = (int.from_bytes(file[at : at + 4], "big") for at in (4, 8, 12))
    check(count <= most, "%d records, at most %d are allowed", count, most)
    check(image_at == IMAGE_AT, "image offset is %d and not %d", image_at, IMAGE_AT)
    check(records_at == start, "records offset is %d and not %d", records_at, start)
    length = start + RECORD_LENGTH * count
    check(len(file) == length, "%d bytes, but %d records make %d", len(file), count, length)
    records = [file[at : at + RECORD_LENGTH] for at in range(start, length, RECORD_LENGTH)]
    for index, record in enumerate(records):
        check(record[0] in edition.kinds, "record %d has kind %d", index, record[0])
        kind = edition.kinds[record[0]]
        for place in range(kind.used(record), RECORD_LENGTH):
            unused = "record %d has %02xh in its byte %d, which its kind does not use"
            check(record[place] == 0, unused, index, record[place], place)
        misfit = kind.misfit(record)
        check(misfit is None, "record %d has %s", index, misfit)
    return Night(edition, file[IMAGE_AT:start], records)


def night_file(night):
    return header(night.edition, len(night.records)) + night.image + b"".join(night.records)
