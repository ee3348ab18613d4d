"""The lines that a replay prints, held against their night: one line a record, or a single 'bad N'.

In messages lines count from 1 and records from 0.
"""

import re
from typing import NamedTuple

from . import Problem
from .records import READ
from .words import DONE

INDEX = "(0|[1-9][0-9]{0,9})"
NUMBER = "(0|[1-9][0-9]?|1[0-9]{2}|2[0-4][0-9]|25[0-5])"
BAD = re.compile("bad %s\n" % NUMBER)
LINE = re.compile("%s %s((?: [0-9a-f]{2}){0,128})\n" % (INDEX, NUMBER))
SHOWN = 40


class Answer(NamedTuple):
    number: int
    data: bytes


def bad_number(printed):
    """N, if all that was printed is one line 'bad N'."""
    match = BAD.fullmatch(printed.decode("latin-1"))
    return int(match.group(1)) if match else None


def read_answer(line, index, night):
    """The answer that a line gives to the record of an index."""
    if BAD.fullmatch(line):
        raise Problem("a bad line can only stand alone")
    match = LINE.fullmatch(line)
    if not match:
        cut = "" if line.endswith("\n") else ", which has no newline at its end,"
        raise Problem("%s%s is no line that a replay prints" % (ascii(line.rstrip("\n")[:SHOWN]), cut))
    if index >= len(night.records):
        raise Problem("one line too many, the night has %d records" % len(night.records))
    if int(match.group(1)) != index:
        raise Problem("its index is %s, but record %d is due" % (match.group(1), index))
    answer = Answer(int(match.group(2)), bytes.fromhex(match.group(3)))
    record = night.records[index]
    kind = night.edition.kinds[record[0]]
    due = record[2] if kind is READ and answer.number == DONE else 0
    if len(answer.data) != due:
        raise Problem(
            "%d bytes behind answer %d to a %s, where %d are due" % (len(answer.data), answer.number, kind.word, due)
        )
    return answer


def read_answers(printed, name, night):
    """The answer to each record of a night."""
    answers = []
    for line in re.findall("[^\n]*\n|[^\n]+", printed.decode("latin-1")):
        try:
            answers.append(read_answer(line, len(answers), night))
        except Problem as problem:
            raise Problem("%s: line %d: %s" % (name, len(answers) + 1, problem)) from None
    if len(answers) < len(night.records):
        missing = "line %d is missing, the night has %d records" % (len(answers) + 1, len(night.records))
        raise Problem("%s: %s" % (name, missing))
    return answers
