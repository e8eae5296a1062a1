"""Being stopped: Ctrl-C, SIGTERM and SIGHUP end the command where that leaves nothing behind."""

import signal
import threading
import time
from contextlib import contextmanager

SIGNALS = (signal.SIGINT, signal.SIGTERM, signal.SIGHUP)
TICK = signal.SIGURG  # one that nobody minds who does not know it


class Asked:
    """Whether it was asked to stop, and whether that has to wait. Written: what is in its place already, so that a stop comes too late for it."""

    over = held = pending = False
    written = None


def ask(*_):
    """Once is enough: a second one would break off the tidying. (The handlers stay: Python has words of its own for a signal that comes while they change.)"""
    if Asked.over:
        return
    Asked.over = True
    if Asked.held:
        Asked.pending = True
    else:
        raise KeyboardInterrupt


def watch():
    """From here on a signal raises KeyboardInterrupt; they were blocked up to here (./rovinuset). One that is ignored, as nohup does it, stays so."""
    signal.signal(TICK, lambda *_: None)
    threading.Thread(target=tick, args=(threading.get_ident(),), daemon=True).start()  # while they are blocked: none goes there
    for number in SIGNALS:
        if signal.getsignal(number) != signal.SIG_IGN:
            signal.signal(number, ask)
    signal.pthread_sigmask(signal.SIG_UNBLOCK, (*SIGNALS, TICK))


def tick(thread):
    """Python hears a signal that comes right before a call that waits when that call is over, and there may be no end of it. So none of them waits for long:
    each is interrupted, looks for signals, and goes on."""
    while True:
        time.sleep(0.2)
        signal.pthread_kill(thread, TICK)


def over():
    """From here on no signal stops it."""
    Asked.over = True


@contextmanager
def held(writing=None):
    """What is inside is done as one: a signal waits until it is over. Where it puts what was asked for into its place, there is nothing more to stop: the
    command ends as it would have."""
    outer, Asked.held = Asked.held, True
    try:
        yield
        Asked.written = writing or Asked.written
    finally:
        Asked.held = outer
    if Asked.pending and not outer and writing is None:
        raise KeyboardInterrupt
