"""Commands that run beside this process, and end with it."""

import os
import signal
import subprocess
import sys
import time

# The status where a command could not do its work. The program itself never ends with it.
CANNOT = 125
# The most bytes of memory that a check of a crate by one processor takes, and `rt try` while it compiles the program.
TO_CHECK, TO_COMPILE = 3_000_000_000, 4_000_000_000


def begin(words, folder, **how):
    """Begins a command in a folder. It stands apart from the terminal's keys, so that it is told once to end, by `end`,
    and clears up undisturbed."""
    return subprocess.Popen(words, cwd=folder, start_new_session=True, **how)


def end(*runs):
    """Tells commands to end, and waits until they did."""
    for run in runs:
        if run.poll() is None:
            run.terminate()
    for run in runs:
        run.wait()


def side_by_side(starts, most):
    """Begins commands by these calls, at most so many at once, in their order, and yields (number of the call, command)
    as each ends. Those that still run where nobody asks on are ended."""
    waiting, running = list(enumerate(starts)), []
    try:
        while waiting or running:
            while waiting and len(running) < most:
                number, start = waiting.pop(0)
                running.append((number, start()))
            time.sleep(0.1)
            for one in [it for it in running if it[1].poll() is not None]:
                running.remove(one)
                yield one
    finally:
        end(*(run for _, run in running))


def free_memory():
    """The bytes of memory that are free."""
    with open("/proc/meminfo") as told:
        return next(int(line.split()[1]) * 1024 for line in told if line.startswith("MemAvailable:"))


def lanes(room):
    """How many commands run side by side that take `room` bytes each: one a processor, as far as memory reaches."""
    return max(1, min(len(os.sched_getaffinity(0)), free_memory() // room))


def exit_on_signals():
    """Has an interrupt raise SystemExit, so that what was begun is ended and what was made is removed."""

    def leave(number, _):
        sys.exit(128 + number)

    for number in (signal.SIGINT, signal.SIGTERM, signal.SIGHUP):
        # (a shell has a background job ignore interrupts)
        if signal.getsignal(number) != signal.SIG_IGN:
            signal.signal(number, leave)
