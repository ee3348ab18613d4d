"""The editions of the night file, one row each: what differs from edition to edition stands here and nowhere else.

Whatever the edition, a night runs on the module as it is: pages and registers are the module's and not the edition's.
An image of an edition that is shorter than the module's has zeros on the pages that it lacks.
"""

from typing import NamedTuple

from .records import CONDITION, HARDWARE, LASTING_CONDITION, LINE, MODULE, READ, SAMPLE, WORK, WRITE

IMAGE_AT = 16


class Edition(NamedTuple):
    number: int
    image_length: int
    records_at: int
    kinds: dict


def edition(number, image_length, kinds):
    return Edition(number, image_length, IMAGE_AT + image_length, kinds)


ONE_TIME_KINDS = {1: WRITE, 2: READ, 3: WORK, 4: HARDWARE, 5: CONDITION, 6: SAMPLE}
LASTING_KINDS = {**ONE_TIME_KINDS, 5: LASTING_CONDITION}
POWER_KINDS = {**LASTING_KINDS, 7: MODULE, 8: LINE}

EDITIONS = {
    1: edition(1, 768, ONE_TIME_KINDS),
    2: edition(2, 896, ONE_TIME_KINDS),
    3: edition(3, 896, LASTING_KINDS),
    4: edition(4, 896, POWER_KINDS),
}
