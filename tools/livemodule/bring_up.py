#!/usr/bin/env python3
"""An example: a host brings an Application up, from DPDeactivated to DPActivated.

  tools/livemodule/bring_up.py [--night FILE] [PROGRAM...]

What the host does (class Host) knows a reader and a writer over flat offsets and nothing else, as the code of a host
stack does. Behind them is a live module, which goes on by itself after every access. What happened can be kept as a
night file. PROGRAM is a streaming form other than the program stream.
"""

import os
import sys

if not __package__:
    sys.path[0] = os.path.dirname(os.path.dirname(os.path.abspath(__file__)))

from livemodule import LiveModule, Memory, Problem, image_of
from livemodule.memory import flat
from nightfiles.pages import LOWER
from nightfiles.words import register_words

# Application 1 has four host lanes, which begin on lane 0 or 4; Application 2 has one. The limits of what can be set,
# and of received power.
IMAGE = """
image 0 [18 53]
image 86 [4f 1c 44 11 05 02 11 ff ff]
image 01h:153 [f7 77]
image 02h:192 [4e 20 01 f4 3a 98 03 e8]
"""

CONTROLS, STATUS = 0x10, 0x11
LANES, MASK = range(4), 0x0F
APPLICATION = 1
# Of ConfigStatus.
SUCCESS, IN_PROGRESS = 1, 12
# How often a host looks for what it waits for.
POLLS = 20


def nibbles(data):
    """A value a lane, the even lane's in the low half of a byte."""
    return [byte >> 4 * half & 15 for byte in data for half in (0, 1)]


class Host:
    """The host's side: a reader, a writer, and somebody to tell."""

    def __init__(self, reader, writer, tell):
        self.reader = reader
        self.writer = writer
        self.tell = tell

    def read(self, page, address, count):
        data = bytes(self.reader(flat(page, address), count))
        self.tell("read", page, address, data)
        return data

    def write(self, page, address, data):
        self.tell("write", page, address, bytes(data))
        self.writer(flat(page, address), len(data), bytes(data))

    def wait(self, what, page, address, count, is_there):
        """Reads until something is there, and gives what was read then."""
        for _ in range(POLLS):
            data = self.read(page, address, count)
            if is_there(data):
                return data
        raise Problem("the host waits for %s, and it is not there after %d reads" % (what, POLLS))

    def wait_for_state(self, name, code):
        self.wait(name, STATUS, 128, 2, lambda data: set(nibbles(data)) == {code})

    def bring_up(self):
        self.wait("ModuleReady", LOWER, 3, 1, lambda data: data[0] >> 1 & 7 == 3)
        self.read(LOWER, 86, 8)
        self.wait_for_state("DPDeactivated", 1)
        # Stage the Application on the lanes of a path that begins at lane 0, and apply it.
        self.write(CONTROLS, 145, [APPLICATION << 4 | LANES[0] << 1] * len(LANES))
        self.write(CONTROLS, 143, [MASK])
        status = self.wait("ConfigStatus", STATUS, 202, 2, lambda data: IN_PROGRESS not in nibbles(data))
        if set(nibbles(status)) != {SUCCESS}:
            raise Problem("the Application is not taken")
        self.wait_for_state("DPActivated", 4)
        self.read(STATUS, 206, len(LANES))

    def clear_flags(self):
        """Whatever is flagged falls with the read; the interrupt goes with it."""
        self.read(LOWER, 3, 1)
        self.read(LOWER, 8, 2)
        self.read(STATUS, 134, 20)
        self.read(LOWER, 3, 1)

    def mask_flags(self):
        """No change of state of these lanes, or of the module, is to interrupt the host again."""
        self.write(CONTROLS, 213, [MASK])
        self.write(LOWER, 31, [0x01])

    def blink(self):
        """The output of a lane off and on again: its path leaves DPActivated and comes back, without an interrupt."""
        self.write(CONTROLS, 130, [0x01])
        self.wait_for_state("DPInitialized", 7)
        self.write(CONTROLS, 130, [0x00])
        self.wait_for_state("DPActivated", 4)
        self.read(LOWER, 3, 1)
        self.read(STATUS, 134, 1)


def tell(what, page, address, data):
    """An access, and what the bytes mean."""
    place = "%d" % address if page is LOWER else "%02Xh:%d" % (page, address)
    print("%-5s %s [%s]" % (what, place, data.hex(" ")))
    for heading, things in register_words(page, address, data):
        print("      %s: %s" % (heading, "; ".join(things)))


def main(words):
    night = None
    if words[:1] == ["--night"] and len(words) > 1:
        night, words = words[1], words[2:]
    if words and words[0].startswith("-"):
        print(__doc__.strip())
        return 0 if words[0] in ("-h", "--help") else 2
    with LiveModule(image_of(IMAGE), night=night, command=words or None) as live:
        memory = Memory(live, events=True)
        host = Host(memory.read, memory.write, tell)
        for title, steps in (
            ("bring up", host.bring_up),
            ("read and clear the flags", host.clear_flags),
            ("mask them", host.mask_flags),
            ("output off and on", host.blink),
        ):
            print("---- %s" % title)
            steps()
    return 0


if __name__ == "__main__":
    try:
        sys.exit(main(sys.argv[1:]))
    except Problem as problem:
        sys.exit("bring_up: %s" % problem)
    except OSError as error:
        sys.exit("bring_up: %s: %s" % (error.filename or "output", error.strerror))
