"""Night files for nightkit: as bytes, as text, and with what their replay printed.

  pages      the module's memory: its pages, and which one is selected
  records    the kinds of record, each as bytes and as text
  editions   the table of editions: what an image holds, which kinds there are
  nightfile  a night from the file's bytes and back
  text       a night as text and back
  printed    the lines that a replay prints, held against their night
  words      what answers and registers mean
  shown      a night with its answers, in words
"""


class Problem(Exception):
    """A one-line message for the user."""
