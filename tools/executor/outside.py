"""What a session has outside of its store: what the host keeps and answers, the bodies of its functions, and the epochs.

Written from the rules of the session language alone.
"""

KEPT_EVENTS = 64
MOST_EPOCH = 2**64 - 1


class Asked:
    """The answers of the host's own lists, each asking taking the next one of its list."""

    def __init__(self, data):
        limiter = data.limiter
        self.number = data.number
        self.growths = iter(limiter.answers if limiter else ())
        self.hooks = iter(data.hook or ())
        self.deadlines = iter(data.deadline or ())
        self.events = []

    def growth(self):
        """yes, no or fault."""
        return next(self.growths, "yes")

    def hook(self, event):
        """Whether the hook lets the call go on."""
        if len(self.events) < KEPT_EVENTS:
            self.events.append(event)
        return next(self.hooks, "ok") == "ok"

    def deadline(self):
        """A number of ticks, interrupt or fault."""
        return next(self.deadlines, "interrupt")


class CountedEpochs:
    """An epoch that is 0 where it is first read, and one more for each reading."""

    def __init__(self):
        self.next = 0

    def read(self):
        reading = self.next
        self.next = min(reading + 1, MOST_EPOCH)
        return reading
