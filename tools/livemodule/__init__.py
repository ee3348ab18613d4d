"""A live module: the proved core behind the program `stream`, one call at a time, each answered at once.

    from livemodule import LiveModule, Memory, image_of

    with LiveModule(image_of("image 88 [44 11]")) as live:
        live.write(127, [0x10])
        live.read(145, 4)

What is done is a night like any other, and can be kept as one.

  errors    what is raised: a refusal with its number, a module that is gone
  images    an image from text
  program   the running program, and how it is started
  kept      the night file of what was done, whole after every record
  live      the module: write, read, work, hardware, condition, lasting, sample, module, line
  driver    accesses that name their page, as a host's driver makes them
  memory    a reader and a writer over flat offsets, as host stacks call them
  command   lines in, answers out
  bring_up  an example: an Application brought up by a host
"""

from nightfiles import Problem

from .driver import Driver
from .errors import Broken, Refused
from .images import image_of
from .live import LiveModule
from .memory import Memory

__all__ = ["Broken", "Driver", "LiveModule", "Memory", "Problem", "Refused", "image_of"]
