"""Talks to a live module, line by line.

  python3 tools/livemodule [options] [FILE]

Lines come from standard input, one thing each, as nightkit writes them, and each is answered at once with the line that
a replay prints for it: its index, the answer's number, and the bytes of a read. With a FILE, a text or a night file,
its lines come first and standard input goes on from there.

  --night FILE    keeps what is done as a night file, whole after every record: for ./replay, or ./replay --stream where
                  it has more than 5,000 records, and for nightkit
  --words         says below an answer what a refusal or what was read means, as on a terminal
  --program WORDS
                  a streaming form other than the program stream, such as 'target/second/second-night --stream'
  --patience S    seconds to wait for an answer (default 30)
  --help          this text

What can be said (on a terminal there is a prompt, and 'help' shows this list):

%s

The module is started from the image lines before its first record; bytes that they do not name are 0. An image that
start refuses prints 'bad' and the number, and that is the end. The edition is 4 unless the first line names another
(nightkit takes 1); in editions 1 and 2 a condition reads 'condition [11h:]FLAGBYTE MASK', and 'module' and 'line' are
in edition 4 alone. 'nightkit --help' explains each line.

Any other line is complained about on standard error; the module hears nothing of it and goes on. A wrong line of FILE
is the end. The module ends with the input (Ctrl-D on a terminal). The status is 1 where a line or an image was not
taken, or the module was lost.
"""

import argparse
import os
import shlex
import sys

from nightfiles import Problem
from nightfiles.editions import EDITIONS
from nightfiles.nightfile import MAGIC, MOST_COUNTED, read_night
from nightfiles.pages import HALF, LOWER, Selection
from nightfiles.records import READ
from nightfiles.shown import MARGIN, wrapped
from nightfiles.text import show
from nightfiles.words import DONE, answer_words, register_words

from .errors import Broken, Refused
from .images import USUAL_EDITION, packer_of
from .live import PATIENCE, LiveModule, record_of

PROMPT = "> "
# The longest complaint, and the longest patience.
SHOWN = 300
A_DAY = 86400


def forms(edition):
    """What can be said, a line each."""
    kinds = [kind.form for kind in edition.kinds.values()]
    return ["  " + form for form in ["edition N", "image [PAGE:]ADDRESS [BYTES]", *kinds, "help"]]


def help_text():
    return __doc__.strip() % "\n".join(forms(EDITIONS[USUAL_EDITION]))


class Usage(Problem):
    """A command line that does not read."""


class Arguments(argparse.ArgumentParser):
    def error(self, message):
        raise Usage("%s (see --help)" % message)


def seconds(text):
    value = float(text)
    if not 0 < value <= A_DAY:
        raise ValueError
    return value


def arguments_of(words):
    parser = Arguments(prog="livemodule", add_help=False, allow_abbrev=False)
    parser.add_argument("--night")
    parser.add_argument("--words", action="store_true")
    parser.add_argument("--program", type=shlex.split)
    parser.add_argument("--patience", type=seconds, default=PATIENCE)
    parser.add_argument("-h", "--help", action="store_true")
    parser.add_argument("file", nargs="?")
    return parser.parse_args(words)


class Dialogue:
    """Lines in, answers out. The module begins with the first record."""

    def __init__(self, given):
        self.given = given
        self.packer = packer_of()
        self.live = None

    def take(self, text):
        """Takes a line: what it says back, a line each."""
        text = text.split("#", 1)[0].strip()
        word = text.split(None, 1)[0] if text else ""
        if word == "help":
            return forms(self.packer.edition)
        if word in ("edition", "image"):
            self.before_start(text)
        elif text:
            return self.record(text)
        return []

    def before_start(self, text):
        if self.live:
            raise Problem("'%s' comes too late: the module has begun" % text)
        self.packer.line(text)

    def record(self, text):
        word, words = text.split(None, 1)[0], ["edition", "image", *self.packer.kinds, "help"]
        if word not in words:
            raise Problem("'%s' is none of %s" % (word, ", ".join(words)))
        selection = self.live.selection if self.live else Selection()
        kind, record = record_of(self.packer.edition, text, selection)
        self.begin()
        page = selection.upper() if record[1] >= HALF else LOWER
        answer = self.live.ask(text)
        return [answer.line(), *(self.in_words(kind, page, record[1], answer) if self.given.words else [])]

    def in_words(self, kind, page, address, answer):
        if answer.number != DONE:
            yield MARGIN + answer_words(answer.number, kind.word)
        elif kind is READ:
            for heading, things in register_words(page, address, answer.data):
                yield from wrapped(heading, things)

    def begin(self):
        """Starts the module, if it has not begun."""
        if not self.live:
            edition, image, _ = self.packer.night()
            given = self.given
            self.live = LiveModule(image, edition.number, given.night, given.program, given.patience)

    def end(self):
        if self.live:
            self.live.close()

    def drop(self):
        if self.live:
            self.live.drop("closed")


def file_lines(path):
    """The lines of a text, or of a night file as text."""
    with open(path, "rb") as file:
        content = file.read()
    if content.startswith(MAGIC):
        night = read_night(content, path, MOST_COUNTED)
        edition = "edition %d" % night.edition.number
        return [edition, *(line for line in show(night) if line != edition)]
    try:
        return content.decode("utf-8").splitlines()
    except UnicodeDecodeError:
        raise Problem("%s: neither a text nor a night file" % path) from None


def at_terminal():
    return sys.stdin.isatty() and sys.stdout.isatty()


def typed_lines():
    """The lines that are typed at the prompt."""
    try:
        import readline  # lines can be edited, where there is such a library
    except ImportError:
        pass
    sys.stdin.reconfigure(errors="replace")
    while True:
        try:
            yield input(PROMPT)
        except EOFError:
            print()
            return


def piped_lines():
    for line in sys.stdin.buffer:
        yield line.decode("utf-8", "replace")


def printable(text):
    """No more than fits, and nothing that a terminal would act upon."""
    return "".join(char if char.isprintable() else ascii(char)[1:-1] for char in text[:SHOWN])


def complain(what):
    sys.stderr.write("livemodule: %s\n" % printable(str(what)))
    sys.stderr.flush()


def say(lines):
    """Says lines at once; a line is never in two pieces."""
    sys.stdout.write("".join(line + "\n" for line in lines))
    sys.stdout.flush()


def fault(dialogue, line):
    """Takes a line and says the answer; gives what is wrong with the line, None if nothing is."""
    try:
        say(dialogue.take(line))
    except (Broken, Refused):
        raise
    except Problem as problem:
        return problem
    return None


def talk(dialogue, path):
    """The whole dialogue; gives whether every line was taken."""
    for number, line in enumerate(file_lines(path) if path else (), 1):
        problem = fault(dialogue, line)
        if problem:
            raise Problem("%s: line %d: %s" % (path, number, problem))
    taken = True
    for number, line in enumerate(typed_lines() if at_terminal() else piped_lines(), 1):
        problem = fault(dialogue, line)
        if problem:
            complain("line %d: %s" % (number, problem))
            taken = False
    dialogue.begin()
    dialogue.end()
    return taken


def main(words):
    given = arguments_of(words)
    if given.help:
        say([help_text()])
        return 0
    given.words = given.words or at_terminal()
    dialogue = Dialogue(given)
    try:
        taken = talk(dialogue, given.file)
    except Refused as refused:
        say(["bad %d" % refused.number])
        raise
    finally:
        dialogue.drop()
    return 0 if taken else 1


def run(words):
    """The status of a command line."""
    try:
        return main(words)
    except Usage as usage:
        complain(usage)
        return 2
    except Problem as problem:
        complain(problem)
    except KeyboardInterrupt:
        return 130
    except BrokenPipeError:
        os.dup2(os.open(os.devnull, os.O_WRONLY), sys.stdout.fileno())
    except OSError as error:
        complain("%s: %s" % (error.filename or "input", error.strerror))
    return 1
