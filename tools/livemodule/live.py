"""The live module: one call at a time, each answered before the next."""

import operator
import threading
from typing import NamedTuple

from nightfiles import Problem
from nightfiles.nightfile import MOST_COUNTED, RECORD_LENGTH, header
from nightfiles.pages import Selection
from nightfiles.printed import LINE
from nightfiles.records import CONDITION, LASTING_CONDITION, MOST_DATA, READ, hex_bytes
from nightfiles.text import follow
from nightfiles.words import DONE

from .errors import Broken, Refused
from .images import USUAL_EDITION, edition_numbered
from .kept import KeptNight
from .program import SHOWN, Program, ask_start, stream_command

LANES = range(8)
# Seconds to wait for an answer.
PATIENCE = 30
# Nothing to work on, or no path there to move; and a path that has to wait for its Apply.
NOT_DUE = (6, 7)
# What the program prints when its input ends before the records that were announced.
UNFINISHED = "bad 9\n"


class Answer(NamedTuple):
    """The answer to a record: its index, the number, and the bytes of a read that is done."""

    index: int
    number: int
    data: bytes

    def line(self):
        """As a replay prints it."""
        return "%d %d%s" % (self.index, self.number, "".join(" %02x" % byte for byte in self.data))


def record_of(edition, text, selection):
    """The kind of a line of nightkit's text and its record; a Problem says why there is none."""
    word, rest = (text.split(None, 1) + ["", ""])[:2]
    for number, kind in edition.kinds.items():
        if kind.word == word:
            record = bytes([number]) + kind.pack(rest, selection)
            return kind, record.ljust(RECORD_LENGTH, b"\0")
    words = ", ".join(kind.word for kind in edition.kinds.values())
    raise Problem("'%s' is none of %s" % (word, words))


def whole(value):
    """A whole number as text; not what merely can be rounded to one."""
    return "%d" % operator.index(value)


def mask(value):
    return "%02x" % operator.index(value)


class LiveModule:
    """A module that has been started from an image.

    image     as many bytes as an image of the edition has (see image_of)
    edition   of the night that the dialogue makes; it says which kinds of call there are
    night     path of a file that keeps what is done, as a night
    command   the words that run a streaming form; by default the program stream
    patience  seconds to wait for an answer

    A call that is refused raises Refused, one that cannot be asked for a Problem; the module goes on after both. If the
    program behind it is gone, or gives no answer, the call raises Broken, and so does every later one. One thread calls
    at a time; who needs several calls to follow each other holds `lock`.
    """

    def __init__(self, image, edition=USUAL_EDITION, night=None, command=None, patience=PATIENCE):
        self.edition = edition_numbered(edition)
        image = bytes(image)
        if len(image) != self.edition.image_length:
            raise Problem(
                "an image of edition %d has %d bytes, here are %d" % (edition, self.edition.image_length, len(image))
            )
        self.selection = Selection()
        self.count = 0
        self.lock = threading.RLock()
        self.over = None
        self.kept = None
        command = command or stream_command()
        ask_start(command, header(self.edition, 0) + image, patience)
        self.program = Program(command, patience)
        try:
            # More records than will come: the program takes them as they come and asks for the rest at the end alone.
            self.program.send(header(self.edition, MOST_COUNTED) + image)
            if night is not None:
                self.kept = KeptNight(night, self.edition, image)
        except BaseException:
            self.drop("closed")
            raise

    # ---- begin and end ----

    def __enter__(self):
        return self

    def __exit__(self, kind, error, trace):
        if kind is None:
            self.close()
        else:
            self.drop("closed")

    def close(self):
        """Ends the module; Broken if the program does not end as it should. To close it again does nothing."""
        with self.lock:
            if self.over:
                return
            try:
                printed, status = self.program.finish()
                if (printed, status) != (UNFINISHED, 0):
                    raise self.program.broken("at the end %s is printed" % ascii(printed[:SHOWN]))
            finally:
                self.drop("closed")

    def drop(self, why):
        """Ends the module, whatever state it is in."""
        self.over = self.over or why
        self.program.drop()
        if self.kept:
            self.kept.close()

    # ---- one record ----

    def ask(self, text):
        """The answer to a line of nightkit's text, done or refused."""
        with self.lock:
            kind, record = self.record_of(text)
            return self.answer(kind, record)

    def call(self, text):
        """What a line reads, if it is done; else Refused."""
        with self.lock:
            kind, record = self.record_of(text)
            shown = kind.show(record, self.selection)
            answer = self.answer(kind, record)
            if answer.number != DONE:
                raise Refused(shown, answer.number, kind.word)
            return answer.data

    def record_of(self, text):
        if self.over:
            raise Broken("the module is %s" % self.over)
        if self.count == MOST_COUNTED - 1:
            raise Problem("a night has no room for more than %d records" % self.count)
        return record_of(self.edition, text, self.selection)

    def answer(self, kind, record):
        """Sends a record and takes its answer. If this is broken off, the module cannot go on."""
        try:
            self.program.send(record)
            answer = self.read_answer(kind, record, self.program.line())
            if self.kept:
                self.kept.keep(record)
        except BaseException:
            self.drop("gone")
            raise
        self.count += 1
        if answer.number == DONE:
            follow(self.selection, kind, record)
        return answer

    def read_answer(self, kind, record, line):
        """The answer that a line gives to a record."""
        match = LINE.fullmatch(line + "\n")
        answer = match and Answer(int(match.group(1)), int(match.group(2)), bytes.fromhex(match.group(3)))
        due = record[2] if kind is READ and answer and answer.number == DONE else 0
        if not answer or answer.index != self.count or len(answer.data) != due:
            asked = kind.show(record, self.selection)
            raise self.program.broken("%s is no answer to record %d, %s" % (ascii(line[:SHOWN]), self.count, asked))
        return answer

    # ---- the calls ----

    def write(self, address, data):
        """A host write of these bytes, in one access."""
        data = bytes(iter(data))
        count = " count %d" % len(data) if len(data) > MOST_DATA else ""
        self.call("write %s%s %s" % (whole(address), count, hex_bytes(data[:MOST_DATA])))

    def read(self, address, count):
        """A host read, in one access: its bytes."""
        return self.call("read %s %s" % (whole(address), whole(count)))

    def work(self, lane):
        """A work step."""
        self.call("work " + whole(lane))

    def hardware(self, lane):
        """A hardware event."""
        self.call("hardware " + whole(lane))

    def condition(self, flag_byte, lanes):
        """A condition, once, in editions 1 and 2."""
        self.must_have(CONDITION, "conditions last: lasting(flag_byte, on, off)")
        self.call("condition %s %s" % (whole(flag_byte), mask(lanes)))

    def lasting(self, flag_byte, on=0, off=0):
        """A condition that begins on some lanes and ends on others, from edition 3 on."""
        self.must_have(LASTING_CONDITION, "no condition lasts: condition(flag_byte, lanes)")
        self.call("condition %s on %s off %s" % (whole(flag_byte), mask(on), mask(off)))

    def sample(self, lane, power):
        """A lane's received power, in 0.1 uW."""
        self.call("sample %s %s" % (whole(lane), whole(power)))

    def module(self):
        """A module event, in edition 4."""
        self.call("module")

    def line(self, on):
        """The low-power line, on or off, in edition 4."""
        self.call("line on" if on else "line off")

    def own_events(self):
        """What the module does by itself while a host waits: module, work on every lane, hardware on every lane. That
        something is not due (6 or 7) is no error."""
        with self.lock:
            self.module()
            for text in ["work %d" % lane for lane in LANES] + ["hardware %d" % lane for lane in LANES]:
                try:
                    self.call(text)
                except Refused as refused:
                    if refused.number not in NOT_DUE:
                        raise

    def must_have(self, kind, instead):
        if kind not in self.edition.kinds.values():
            raise Problem("in edition %d %s" % (self.edition.number, instead))
