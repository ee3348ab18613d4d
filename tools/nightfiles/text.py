"""A night as text and back."""

import re

from . import Problem
from .editions import EDITIONS
from .nightfile import MOST_RECORDS, RECORD_LENGTH, Night, night_file
from .pages import HALF, LOWER, NAMES, Selection, halves
from .records import WRITE, bytes_of, hex_bytes, paged

BYTES_A_LINE = 16
USUAL_EDITION = 1


# ---- show ----


def image_lines(night):
    """What a text begins with: the edition, if it is not the usual one, and the image's bytes that are not zero, in
    runs that stay on a page."""
    if night.edition.number != USUAL_EDITION:
        yield "edition %d" % night.edition.number
    for page, start in halves(night.edition.image_length):
        half = night.image[start : start + HALF]
        prefix, first_address = ("", 0) if page is LOWER else (NAMES[page] + ":", HALF)
        place = 0
        while place < HALF:
            if half[place] == 0:
                place += 1
                continue
            end = place
            while end < HALF and half[end] != 0 and end - place < BYTES_A_LINE:
                end += 1
            yield "image %s%d %s" % (prefix, first_address + place, hex_bytes(half[place:end]))
            place = end


def follow(selection, kind, record):
    """Takes a record that is done into account in the page selection."""
    if kind is WRITE:
        address, count = record[1:3]
        selection.write(address, count, record[3 : kind.used(record)])


def show(night):
    yield from image_lines(night)
    selection = Selection()
    for record in night.records:
        kind = night.edition.kinds[record[0]]
        yield kind.show(record, selection)
        follow(selection, kind, record)


# ---- pack ----


class Packer:
    def __init__(self, most):
        self.most = most
        self.take_edition(EDITIONS[USUAL_EDITION])
        self.begun = False
        self.records = []
        self.selection = Selection()

    def take_edition(self, edition):
        self.edition = edition
        self.kinds = {kind.word: (kind_number, kind) for kind_number, kind in edition.kinds.items()}
        self.places = dict(halves(edition.image_length))
        self.memory = bytearray(edition.image_length)
        self.named = [False] * edition.image_length

    def line(self, text):
        word, rest = (text.split(None, 1) + [""])[:2]
        if word == "edition":
            self.edition_line(text, rest)
        elif word == "image":
            self.image_line(text, rest)
        elif word in self.kinds:
            self.record_line(*self.kinds[word], rest)
        else:
            words = ["edition", "image", *self.kinds]
            raise Problem("'%s' is none of %s" % (word, ", ".join(words)))
        self.begun = True

    def edition_line(self, text, rest):
        if self.begun:
            raise Problem("the edition comes before everything else")
        if not re.fullmatch(r"\d+", rest, re.ASCII):
            raise Problem("'%s' does not read as: edition N" % text)
        if int(rest) not in EDITIONS:
            raise Problem("there is no edition %s (only %s)" % (rest, ", ".join(map(str, EDITIONS))))
        self.take_edition(EDITIONS[int(rest)])

    def image_line(self, text, rest):
        if self.records:
            raise Problem("image lines come before the first record")
        match = re.fullmatch(r"((?:\w+:)?\d+) *\[([^][]*)\]", rest, re.ASCII)
        if not match:
            raise Problem("'%s' does not read as: image [PAGE:]ADDRESS [BYTES]" % text)
        page, address = paged(match.group(1))
        data = bytes_of(match.group(2))
        if page is LOWER and address >= HALF:
            raise Problem("upper address %d needs its page, as in 01h:%d" % (address, address))
        if page not in self.places:
            raise Problem("an image of edition %d has no page %s" % (self.edition.number, NAMES[page]))
        if not data:
            raise Problem("no bytes between the brackets")
        if address % HALF + len(data) > HALF:
            raise Problem("%d bytes from %d on run past the end of the page" % (len(data), address))
        place = self.places[page] + address % HALF
        for offset, byte in enumerate(data):
            if self.named[place + offset]:
                raise Problem("address %d has been given before" % (address + offset))
            self.named[place + offset] = True
            self.memory[place + offset] = byte

    def record_line(self, kind_number, kind, rest):
        if len(self.records) == self.most:
            raise Problem("more than %d records (see --long)" % self.most)
        record = bytes([kind_number]) + kind.pack(rest, self.selection)
        self.records.append(record.ljust(RECORD_LENGTH, b"\0"))
        follow(self.selection, kind, record)

    def night(self):
        return Night(self.edition, bytes(self.memory), self.records)


def pack(text, name, most=MOST_RECORDS):
    """The night file of a text with so many records at most."""
    packer = Packer(most)
    for line_number, line in enumerate(text.splitlines(), 1):
        line = line.split("#", 1)[0].strip()
        if line:
            try:
                packer.line(line)
            except Problem as problem:
                raise Problem("%s: line %d: %s" % (name, line_number, problem)) from None
    return night_file(packer.night())
