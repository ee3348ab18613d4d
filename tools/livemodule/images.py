"""An image from the image lines of nightkit's text."""

from nightfiles import Problem
from nightfiles.editions import EDITIONS
from nightfiles.text import Packer

# The edition of a live module: the one that has every kind of record.
USUAL_EDITION = max(EDITIONS)


def edition_numbered(number):
    if number not in EDITIONS:
        raise Problem("there is no edition %s (only %s)" % (number, ", ".join(map(str, EDITIONS))))
    return EDITIONS[number]


def packer_of(number=USUAL_EDITION):
    """Takes edition and image lines, and stands at this edition until a line names another."""
    packer = Packer(most=0)
    packer.take_edition(edition_numbered(number))
    return packer


def image_of(text, edition=USUAL_EDITION):
    """The bytes of an image: those that lines such as 'image 01h:153 [ff]' name, and 0 elsewhere."""
    packer = packer_of(edition)
    for number, line in enumerate(text.splitlines(), 1):
        line = line.split("#", 1)[0].strip()
        if not line:
            continue
        if line.split()[0] != "image":
            raise Problem("line %d: '%s' is no image line" % (number, line))
        try:
            packer.line(line)
        except Problem as problem:
            raise Problem("line %d: %s" % (number, problem)) from None
    return bytes(packer.memory)
