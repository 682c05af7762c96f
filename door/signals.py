"""Signals that end a command. They are taken only where the command waits, so that whatever it makes in between is noted and can be removed.
The first is raised as a failure, and every command cleans up in that one way; later ones are ignored.

One that comes just before a call begins to wait is only noted by Python, and the call would wait on. So an alarm ends every wait after a
second: Python then looks at what it noted, and goes on waiting where that was nothing."""

import contextlib
import signal

from door.failure import Failure

ENDING = (signal.SIGHUP, signal.SIGINT, signal.SIGQUIT, signal.SIGTERM)
LOOK_AGAIN_SECONDS = 1


def ignore():
    """From here on nothing interrupts: what is left is to clean up and to say how it went."""
    signal.setitimer(signal.ITIMER_REAL, 0)
    for number in ENDING:
        signal.signal(number, signal.SIG_IGN)


def stop(number, _):
    ignore()
    raise Failure(f"ended by {signal.Signals(number).name}")


def listen():
    """Whoever started this may have it ignore some, as nohup does: they stay ignored."""
    signal.pthread_sigmask(signal.SIG_BLOCK, ENDING)
    for number in ENDING:
        if signal.getsignal(number) is not signal.SIG_IGN:
            signal.signal(number, stop)
    signal.signal(signal.SIGALRM, lambda number, _: None)
    signal.setitimer(signal.ITIMER_REAL, LOOK_AGAIN_SECONDS, LOOK_AGAIN_SECONDS)


@contextlib.contextmanager
def taken():
    """Here the command waits, and a signal ends it."""
    try:
        signal.pthread_sigmask(signal.SIG_UNBLOCK, ENDING)
        yield
    finally:
        signal.pthread_sigmask(signal.SIG_BLOCK, ENDING)
