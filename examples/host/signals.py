"""Signals as bytes in a pipe, so that a wait for other things ends with them and nothing is done in a handler."""
import os
import signal


def orders():
    """The signals that ask to end. One that is ignored stays so, as nohup wants."""
    return {number for number in (signal.SIGTERM, signal.SIGINT, signal.SIGHUP) if signal.getsignal(number) != signal.SIG_IGN}


def listen(numbers):
    """The reading end of a pipe in which each of these signals leaves its number, from now on."""
    reading, writing = os.pipe()
    for end in (reading, writing):
        os.set_blocking(end, False)
    signal.set_wakeup_fd(writing, warn_on_full_buffer=False)
    for number in numbers:
        signal.signal(number, lambda *_: None)
    return reading


def heard(pipe):
    """Empties the pipe: the numbers of the signals that came since. It does not wait."""
    try:
        return set(os.read(pipe, 65536))
    except BlockingIOError:
        return set()
