"""The kinds of record: what each one holds, as bytes of a night file and as a line of text.

A kind is a word and its fields in the order of their bytes, which is also their order in the text. A field knows how
many bytes it takes and how they are shown and packed. Which page is meant by an upper address follows from the page
selection at that record.
"""

import re

from . import Problem
from .pages import HALF, LOWER, NAMES, page_named

MOST_DATA = 8
FLAG_PAGE = 0x11


def number(text, what, most):
    value = int(text)
    if value > most:
        raise Problem("%s %d is above %d" % (what, value, most))
    return value


def byte_of(text):
    if not re.fullmatch("[0-9a-fA-F]{2}", text):
        raise Problem("'%s' is not a byte of two hex digits" % text)
    return int(text, 16)


def bytes_of(text):
    """The bytes between a pair of brackets."""
    return bytes(byte_of(word) for word in text.split())


def hex_bytes(data):
    return "[" + " ".join("%02x" % byte for byte in data) + "]"


def paged(text):
    """The page that stands before an address, or LOWER if there is none, and the address."""
    name, colon, address = text.rpartition(":")
    address = number(address, "address", 255)
    return (page_named(name, address) if colon else LOWER), address


class Field:
    size = 1

    def length(self, data):
        """How many bytes it takes of those that are left of a record."""
        return self.size

    def misfit(self, data):
        """What is wrong with its bytes; None where they can be shown."""
        return None


class Number(Field):
    """A decimal number."""

    pattern = r" +\d+"

    def __init__(self, name, size=1):
        self.name = name
        self.form = " " + name.upper()
        self.size = size

    def show(self, data, selection):
        return " %d" % int.from_bytes(data, "big")

    def pack(self, text, selection):
        return number(text, self.name, 256**self.size - 1).to_bytes(self.size, "big")


class Mask(Field):
    """A byte with a bit for each lane, behind a word where there is more than one of them."""

    def __init__(self, word=""):
        self.word = " " + word if word else ""
        self.pattern = (r" +" + word if word else "") + r" +\w+"
        self.form = self.word + " MASK"

    def show(self, data, selection):
        return "%s %02x" % (self.word, data[0])

    def pack(self, text, selection):
        return bytes([byte_of(text.split()[-1])])


class Switch(Field):
    """A byte that is 1 for on or 0 for off, and nothing else."""

    words = ("off", "on")
    pattern = r" +(?:on|off)"
    form = " on|off"

    def misfit(self, data):
        return None if data[0] < len(self.words) else "%02xh where 01h is on and 00h is off" % data[0]

    def show(self, data, selection):
        return " " + self.words[data[0]]

    def pack(self, text, selection):
        return bytes([self.words.index(text)])


class Address(Field):
    """An address that an access begins at."""

    pattern = r" +(?:\w+:)?\d+"
    form = " [PAGE:]ADDRESS"

    def show(self, data, selection):
        page = NAMES[selection.upper()] + ":" if data[0] >= HALF else ""
        return " %s%d" % (page, data[0])

    def pack(self, text, selection):
        page, address = paged(text)
        if page not in (LOWER, selection.upper()):
            raise Problem(
                "%s:%d is named, but page %s is selected here (126 holds %02xh, 127 holds %02xh)"
                % (NAMES[page], address, NAMES[selection.upper()], selection.bank, selection.page)
            )
        return bytes([address])


class FlagByte(Field):
    """The address of a flag byte, which lies on 11h whatever page is selected."""

    pattern = Address.pattern
    form = " [%s:]FLAGBYTE" % NAMES[FLAG_PAGE]

    def show(self, data, selection):
        page = NAMES[FLAG_PAGE] + ":" if data[0] >= HALF else ""
        return " %s%d" % (page, data[0])

    def pack(self, text, selection):
        page, address = paged(text)
        if page not in (LOWER, FLAG_PAGE):
            raise Problem("condition flags are on page %s, not on %s" % (NAMES[FLAG_PAGE], NAMES[page]))
        return bytes([address])


class CountedData(Field):
    """A count and the bytes to write; a count above 8 is written out and has eight bytes."""

    pattern = r"(?: +count +\d+)? *\[[^][]*\]"
    form = " [count N] [BYTES]"

    def length(self, data):
        return 1 + min(data[0], MOST_DATA)

    def show(self, data, selection):
        count = " count %d" % data[0] if data[0] > MOST_DATA else ""
        return "%s %s" % (count, hex_bytes(data[1:]))

    def pack(self, text, selection):
        count, data = re.fullmatch(r"(?:count +(\d+))? *\[(.*)\]", text).groups()
        data = bytes_of(data)
        if count is None:
            if len(data) > MOST_DATA:
                raise Problem("%d bytes, a write record has room for %d" % (len(data), MOST_DATA))
            return bytes([len(data)]) + data
        count = number(count, "count", 255)
        if count <= MOST_DATA:
            raise Problem("a count is only written out when it is above %d" % MOST_DATA)
        if len(data) != MOST_DATA:
            raise Problem("a write of count %d has %d data bytes, here are %d" % (count, MOST_DATA, len(data)))
        return bytes([count]) + data


class Kind:
    def __init__(self, word, *fields):
        self.word = word
        self.fields = fields
        self.form = word + "".join(field.form for field in fields)
        self.pattern = re.compile("".join("(%s)" % field.pattern for field in fields), re.ASCII)

    def parts(self, record):
        """The fields of a record, each with its bytes."""
        at = 1
        for field in self.fields:
            length = field.length(record[at:])
            yield field, record[at : at + length]
            at += length

    def used(self, record):
        """How many bytes of a record this kind uses."""
        return 1 + sum(len(data) for _, data in self.parts(record))

    def misfit(self, record):
        """What is wrong with a field of a record; None where nothing is."""
        return next(filter(None, (field.misfit(data) for field, data in self.parts(record))), None)

    def show(self, record, selection):
        return self.word + "".join(field.show(data, selection) for field, data in self.parts(record))

    def pack(self, text, selection):
        """The bytes of the fields, from the text that follows the word."""
        match = self.pattern.fullmatch(" " + text if text else "")
        if not match:
            raise Problem("'%s' does not read as: %s" % ((self.word + " " + text).strip(), self.form))
        fields = zip(self.fields, match.groups())
        return b"".join(field.pack(part.strip(), selection) for field, part in fields)


LANE = Number("lane")

WRITE = Kind("write", Address(), CountedData())
READ = Kind("read", Address(), Number("count"))
WORK = Kind("work", LANE)
HARDWARE = Kind("hardware", LANE)
CONDITION = Kind("condition", FlagByte(), Mask())
LASTING_CONDITION = Kind("condition", FlagByte(), Mask("on"), Mask("off"))
SAMPLE = Kind("sample", LANE, Number("value", 2))
MODULE = Kind("module")
LINE = Kind("line", Switch())
