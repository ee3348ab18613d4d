"""Accesses that name their page, as a host's driver makes them."""

from nightfiles.pages import BANK_SELECT, HALF, PAGE_SELECT


class Driver:
    """Selects the page of an upper address, if it is not selected yet, and then makes the one access asked for.

    A lower address has no page: None, or any. A page that the module does not have cannot be selected, and page 00h
    answers in its place, as CMIS has it; no host is told.
    """

    def __init__(self, live):
        self.live = live

    def read(self, page, address, count):
        with self.live.lock:
            self.select(page, address)
            return self.live.read(address, count)

    def write(self, page, address, data):
        with self.live.lock:
            self.select(page, address)
            self.live.write(address, data)

    def select(self, page, address):
        selection = self.live.selection
        if address < HALF or selection.upper() == page:
            return
        if selection.bank:
            self.live.write(BANK_SELECT, [0, page])
        else:
            self.live.write(PAGE_SELECT, [page])
