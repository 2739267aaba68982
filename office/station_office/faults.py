"""The faults that station-office reports."""

# The status if what is known is old, lacks an update, or has lost much.
REPORTED = 5


class Fault(Exception):
    """Why something isn't done: a status of docker, the file at fault, and lines that say why and what to do."""

    # The kinds of faults by their status, as the last line of a morning counts them.
    KINDS = {1: "refused", 2: "wrong words", 3: "out of memory", 4: "failed", REPORTED: "thinned"}

    @property
    def kind(self):
        return self.KINDS[self.status]

    def __init__(self, status, subject, *lines):
        super().__init__(status, subject, *lines)
        self.status, self.subject, self.lines = status, subject, list(lines)


class PutAside(Fault):
    """A fault of a file that came. The file goes to a folder of its own, with the reason beside it."""

    folder = None


class Refused(PutAside):
    """The file isn't an extract, or it is withdrawn."""

    folder = "refused"


class Held(PutAside):
    """The file is an extract that isn't believed until somebody has checked it."""

    folder = "held"
    kind = "held back"
