"""A night with its answers, in words. Everything beside the night's own text stands behind a #, so that the whole is
still a text of the night."""

from .nightfile import MOST_RECORDS, Malformed, read_night
from .pages import HALF, LOWER, Selection
from .printed import bad_number, read_answers
from .records import READ
from .text import BYTES_A_LINE, follow, image_lines, show
from .words import DONE, MALFORMED, answer_words, refusal_words, register_words

ANSWER_COLUMN = 42
WIDTH = 118
MARGIN = "    # "


def beside(text, remark):
    """A line of text with a remark, in a column where there is room."""
    return "%-*s  # %s" % (ANSWER_COLUMN - 2, text, remark)


def wrapped(heading, things):
    """A heading and a list of things, in lines of their own; broken between things only."""
    line = MARGIN + heading + ": "
    for place, thing in enumerate(things):
        thing += ";" if place < len(things) - 1 else ""
        if len(line) + len(thing) > WIDTH:
            yield line.rstrip()
            line = MARGIN + "    "
        line += thing + " "
    yield line.rstrip()


def read_lines(page, address, data):
    """The bytes of a read and what they mean."""
    for at in range(0, len(data), BYTES_A_LINE):
        yield "%s%d: %s" % (MARGIN, address + at, data[at : at + BYTES_A_LINE].hex(" "))
    for heading, things in register_words(page, address, data):
        yield from wrapped(heading, things)


def show_with(file, file_name, printed, printed_name, most=MOST_RECORDS):
    """The lines of a night file with so many records at most, and of what its replay printed."""
    bad = bad_number(printed)
    try:
        night = read_night(file, file_name, most)
    except Malformed as malformed:
        if bad != MALFORMED:
            raise
        yield "# bad %d: %s: %s" % (bad, refusal_words(bad), malformed.why)
        return
    if bad is not None:
        yield "# bad %d: %s; no record is carried out" % (bad, refusal_words(bad))
        yield from show(night)
        return
    answers = read_answers(printed, printed_name, night)
    yield from image_lines(night)
    selection = Selection()
    for index, (record, answer) in enumerate(zip(night.records, answers)):
        kind = night.edition.kinds[record[0]]
        words = answer_words(answer.number, kind.word)
        yield beside(kind.show(record, selection), "%d: answer %d, %s" % (index, answer.number, words))
        if kind is READ:
            address = record[1]
            yield from read_lines(selection.upper() if address >= HALF else LOWER, address, answer.data)
        if answer.number == DONE:
            follow(selection, kind, record)
