"""The running program behind a live module: the streaming form, with a pipe to it and a pipe from it.

It prints the line of a record as soon as the record is whole. One record is under way at a time, so neither pipe ever
fills up, and neither side waits for the other to read. When this process ends, however it does, the program finds the
end of its input and ends too.
"""

import functools
import os
import select
import signal
import subprocess
import tempfile
import time

from nightfiles.printed import BAD

from .errors import Broken, Refused

TOOLS = os.path.dirname(os.path.dirname(os.path.abspath(__file__)))
MUCH = 1 << 16
# How long a program may take to end once it has closed a pipe.
GRACE = 1
# Of what it has printed or said no more than this is repeated.
SHOWN = 200


@functools.lru_cache(maxsize=None)
def stream_command():
    """The words that run the program stream, by tools/run."""
    done = subprocess.run([os.path.join(TOOLS, "run"), "--words", "stream"], capture_output=True, text=True)
    if done.returncode:
        raise Broken("the program stream cannot be run: %s" % (done.stderr.strip() or "tools/run fails"))
    return done.stdout.splitlines()


def how_ended(status):
    if status is None:
        return "had to be ended"
    if status >= 0:
        return "ended with status %d" % status
    try:
        return "was ended by %s" % signal.Signals(-status).name
    except ValueError:
        return "was ended by signal %d" % -status


class Program:
    def __init__(self, command, patience):
        self.patience = patience
        self.unread = b""
        self.arrivals = select.poll()
        self.said = tempfile.TemporaryFile()
        try:
            # Apart from the terminal: an interrupt there is for this process alone.
            self.process = subprocess.Popen(
                command,
                stdin=subprocess.PIPE,
                stdout=subprocess.PIPE,
                stderr=self.said,
                bufsize=0,
                start_new_session=True,
            )
        except OSError as error:
            self.said.close()
            raise Broken("%s cannot be started: %s" % (command[0], error.strerror)) from None
        self.arrivals.register(self.process.stdout, select.POLLIN)

    def send(self, data):
        """Sends what a pipe takes at once: a header with its image, or a record."""
        try:
            self.process.stdin.write(data)
        except BrokenPipeError:
            raise self.broken("nothing more is taken", GRACE) from None

    def line(self):
        """The next line, without its newline."""
        deadline = time.monotonic() + self.patience
        while b"\n" not in self.unread:
            more = self.arriving(deadline)
            if more is None:
                raise self.broken("no answer within %g s" % self.patience)
            if not more:
                raise self.broken("no answer", GRACE)
            self.unread += more
        line, _, self.unread = self.unread.partition(b"\n")
        return line.decode("latin-1")

    def arriving(self, deadline):
        """What arrives next: nothing at the end, None when the time is up."""
        left = max(0, deadline - time.monotonic())
        return os.read(self.process.stdout.fileno(), MUCH) if self.arrivals.poll(1000 * left) else None

    def finish(self):
        """The end of the input: what the program prints then, and its status; None while it goes on."""
        self.process.stdin.close()
        deadline = time.monotonic() + self.patience
        rest = self.unread
        while True:
            more = self.arriving(deadline)
            if not more:
                return rest.decode("latin-1"), self.waited(max(0, deadline - time.monotonic()))
            rest += more

    def waited(self, seconds):
        """The status of a program that ends within this time; None of one that does not."""
        try:
            return self.process.wait(seconds)
        except subprocess.TimeoutExpired:
            return None

    def broken(self, what, seconds=0):
        """Ends the program, if it does not end by itself within this time, and gives the error that says so."""
        end = how_ended(self.waited(seconds))
        self.said.seek(0)
        said = " ".join(self.said.read(SHOWN).decode("utf-8", "replace").split())
        self.drop()
        return Broken("%s: the program %s%s" % (what, end, " and said: " + said if said else ""))

    def drop(self):
        """Ends the program, if it goes on, and leaves nothing of it."""
        if self.process.poll() is None:
            self.process.kill()
            self.process.wait()
        for file in (self.process.stdin, self.process.stdout, self.said):
            file.close()


def ask_start(command, night, patience):
    """Asks whether start takes the image of a night without records; Refused if it does not.

    A program that has taken an image prints nothing, so a module would not say so before its first record.
    """
    program = Program(command, patience)
    try:
        program.send(night)
        printed, status = program.finish()
        bad = BAD.fullmatch(printed)
        if bad:
            raise Refused("start", int(bad.group(1)))
        if printed or status != 0:
            raise program.broken("an image gets %s" % ascii(printed[:SHOWN]), GRACE)
    finally:
        program.drop()
