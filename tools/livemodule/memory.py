"""The module's memory behind a reader and a writer over flat offsets, as host stacks call them: lower memory from 0 on,
and address a of page p, 128 to 255, at 128 * p + a."""

from nightfiles import Problem
from nightfiles.pages import HALF, LOWER
from nightfiles.records import MODULE, MOST_DATA

from .driver import Driver

# Behind the last byte of page FFh.
END = HALF * 0x101


def flat(page, address):
    """The offset of an address."""
    return address if address < HALF else HALF * page + address


def place(offset):
    """The page and the address of an offset."""
    if offset < HALF:
        return LOWER, offset
    return offset // HALF - 1, HALF + offset % HALF


def accesses(offset, length, most):
    """Page, address and count of the accesses that a driver makes, with so many bytes at most, none past a page."""
    if not 0 <= offset <= offset + length <= END:
        raise Problem("%d bytes from offset %d on do not lie in 0 to %d" % (length, offset, END - 1))
    while length:
        count = min(length, most, HALF - offset % HALF)
        yield (*place(offset), count)
        offset += count
        length -= count


class Memory:
    """A reader and a writer of a module's memory.

    events   whether each call is followed by the module's own events, so that what a host polls for comes about. They
             are records like any other, and a night keeps them.

    Neither call fails for its length: a long one becomes several accesses.
    """

    def __init__(self, live, events=False):
        self.live = live
        self.driver = Driver(live)
        self.events = events
        if events:
            live.must_have(MODULE, "the module has no events of its own")

    def read(self, offset, length):
        """The bytes from an offset on."""
        with self.live.lock:
            read = bytearray()
            for page, address, count in accesses(offset, length, HALF):
                read += self.driver.read(page, address, count)
            self.go_on()
            return read

    def write(self, offset, length, data):
        """Writes the first so many of these bytes, and says that it is done."""
        data = bytes(iter(data))
        if len(data) < length:
            raise Problem("%d bytes are to be written, here are %d" % (length, len(data)))
        with self.live.lock:
            at = 0
            for page, address, count in accesses(offset, length, MOST_DATA):
                self.driver.write(page, address, data[at : at + count])
                at += count
            self.go_on()
            return True

    def go_on(self):
        if self.events:
            self.live.own_events()
