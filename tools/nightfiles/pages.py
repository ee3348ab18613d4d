"""The module's memory: lower memory, then pages of 128 bytes, and the page that upper addresses go to."""

from . import Problem

HALF = 128
# Stands for lower memory where a page could be.
LOWER = None
BANK_SELECT = 126
PAGE_SELECT = 127
MODULE_CONTROLS = 26
SOFTWARE_RESET = 0x08
# The pages as they follow lower memory in an image; of each, whether it can be reached only while the bank is 0.
PAGES = {0x00: False, 0x01: False, 0x02: False, 0x10: True, 0x11: True, 0x9F: True}
NAMES = {page: "%02Xh" % page for page in PAGES}


def page_named(name, address):
    """The page of a name that stands before an address."""
    for page, own_name in NAMES.items():
        if own_name.lower() == name.lower():
            if address < HALF:
                raise Problem("lower address %d takes no page" % address)
            return page
    raise Problem("there is no page %s (only %s)" % (name, ", ".join(NAMES.values())))


def halves(image_length):
    """Lower memory and the pages that an image of this length holds, each with its place there."""
    return zip([LOWER, *PAGES], range(0, image_length, HALF))


class Selection:
    """Follows bytes 126 and 127 through a night's writes. At start both are 0, and so they are after a reset."""

    def __init__(self):
        self.bank = 0
        self.page = 0

    def write(self, address, count, data):
        # Only an access that can be done counts; any other changes nothing.
        if not 1 <= count <= 8 or address + count > HALF:
            return
        for place, byte in enumerate(data[:count], address):
            if place == MODULE_CONTROLS and byte & SOFTWARE_RESET:
                self.bank = 0
                self.page = 0
            elif place == BANK_SELECT:
                self.bank = byte
            elif place == PAGE_SELECT:
                if byte in PAGES and not (PAGES[byte] and self.bank):
                    self.page = byte
                else:
                    self.bank = 0
                    self.page = 0

    def upper(self):
        """The page that upper addresses go to."""
        return 0 if PAGES[self.page] and self.bank else self.page
