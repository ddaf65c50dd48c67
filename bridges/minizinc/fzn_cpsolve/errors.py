"""What ends a translation or a run early."""


class Refused(Exception):
    """The model says what a CpModel cannot say, or the program did not answer; the text is the cause."""


class Stopped(Exception):
    """A signal came, or nobody reads the answer any more."""


class TimeIsUp(Exception):
    """The time limit came while the program was running."""
