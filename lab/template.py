"""The two ends of a link, to be written by you: lab/check_ends.py judges them.

All that an end remembers is in its attributes: numbers, texts, None, items, or tuples of them. An
item may be kept and handed on, and no more. Neither end sees the line, a clock, or the other end.
"""


class Sender:
    # What an attribute may be at the start, beside all that runs leave in it: {"tired": (0, 1)}
    MAY_BE = {}

    def __init__(self, labels, label):
        """There are `labels` labels, 0 to labels - 1; it happens to begin with this one, which may
        be any number below 65536."""

    def offer(self, item):
        """Whether it takes the item: not while another one waits for its acknowledgement."""

    def send(self):
        """What it sends now: a label and an item, or None."""

    def ack(self, label):
        """Whether the item that waits counts as acknowledged, now that this label has arrived."""


class Receiver:
    MAY_BE = {}

    def __init__(self, labels, label):
        """It happens to remember this label, which may be any number below 65536."""

    def frame(self, label, item):
        """The item, if it is to be delivered now that this frame has arrived, or None."""

    def acknowledge(self):
        """The label that it sends as its acknowledgement now, or None."""
