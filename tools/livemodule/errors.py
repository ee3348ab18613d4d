"""What a live module raises. Each is a Problem: its text is one line for the user.

A Problem that is neither of these is the caller's: what was asked cannot be said in a record, and nothing was sent.
"""

from nightfiles import Problem
from nightfiles.words import refusal_words


class Refused(Problem):
    """The module's own answer, other than 0. Nothing has changed.

    number    as SCOPE lists it
    meaning   the same in words
    call      what was asked, as a line of nightkit's text; "start" for the start
    """

    def __init__(self, call, number, kind=None):
        self.call = call
        self.number = number
        self.meaning = refusal_words(number, kind)
        super().__init__("%s: answer %d, refused: %s" % (call, number, self.meaning))


class Broken(Problem):
    """The program behind the module has ended, fell silent, or printed what no module prints. The module is gone."""
