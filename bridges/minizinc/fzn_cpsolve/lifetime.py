"""Ends with its caller, and ends with it what it started, however the caller goes."""

import ctypes
import os
import select
import signal
import sys
from collections.abc import Callable
from types import FrameType

from .errors import Stopped

# Linux: the signal that a process gets when its parent is gone.
PR_SET_PDEATHSIG = 1
LIBC = ctypes.CDLL(None)
# What the end of the caller is told by. It comes too where only the thread ended that called, and then it says nothing.
CALLER_SIGNAL = signal.SIGUSR1
STOP_SIGNALS = (signal.SIGTERM, signal.SIGINT, signal.SIGHUP)


def ask_for_signal(number: int) -> None:
    """Asks for a signal when the parent is gone, where the system has that."""
    if hasattr(LIBC, "prctl"):
        LIBC.prctl(PR_SET_PDEATHSIG, number, 0, 0, 0)


def ending_with_this_process() -> Callable[[], None]:
    """What a child calls before it becomes another program, so that it is killed when this process is gone."""
    this_process = os.getpid()

    def prepare() -> None:
        ask_for_signal(signal.SIGKILL)
        if os.getppid() != this_process:
            os._exit(1)

    return prepare


class Caller:
    """The process that called this one."""

    def __init__(self) -> None:
        self.process = os.getppid()
        self.reader = select.poll()
        self.reader.register(sys.stdout.fileno(), 0)

    def is_gone(self) -> bool:
        """Whether it has ended, or nobody reads standard output any more."""
        return os.getppid() != self.process or bool(self.reader.poll(0))

    def watch(self) -> None:
        """From now on its end, and each signal that asks for an end and was not to be ignored, raises `Stopped`."""
        signal.signal(CALLER_SIGNAL, self.check)
        for number in STOP_SIGNALS:
            if signal.getsignal(number) != signal.SIG_IGN:
                signal.signal(number, stop)
        ask_for_signal(CALLER_SIGNAL)

    def check(self, number: int, frame: FrameType | None) -> None:
        """Raises `Stopped` where the caller is gone."""
        if os.getppid() != self.process:
            stop(number, frame)


def stop(number: int, frame: FrameType | None) -> None:
    """Raises `Stopped`, and lets no further signal come between."""
    for other in (*STOP_SIGNALS, CALLER_SIGNAL):
        signal.signal(other, signal.SIG_IGN)
    raise Stopped
