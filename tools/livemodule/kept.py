"""The night file of what a live module was asked, whole after every record: whenever it is looked at, and however the
dialogue ends, it is a night that can be replayed."""

import os

from nightfiles.nightfile import RECORD_LENGTH, header


class KeptNight:
    def __init__(self, path, edition, image):
        self.edition = edition
        self.count = 0
        self.file = open(path, "wb", buffering=0)
        try:
            self.put(0, header(edition, 0) + image)
        except OSError:
            self.file.close()
            raise

    def put(self, place, data):
        try:
            while data:
                done = os.pwrite(self.file.fileno(), data, place)
                place, data = place + done, data[done:]
        except OSError as error:
            error.filename = self.file.name
            raise

    def keep(self, record):
        """A record more: first its bytes, then the count that makes them part of the night."""
        self.put(self.edition.records_at + RECORD_LENGTH * self.count, record)
        self.count += 1
        self.put(0, header(self.edition, self.count))

    def close(self):
        self.file.close()
