"""A line on standard error for work that takes longer than a second, where it is asked for."""

import contextlib
import sys
import threading
import time

AFTER = 1.0


@contextlib.contextmanager
def telling(asked, what):
    """Tells of the work inside, if it is asked for and takes longer than a second: what is done and for how long. On a
    terminal the line is written anew each second; else there is one line at the start and one at the end."""
    if not asked:
        yield
        return
    done, told = threading.Event(), []
    begun = time.monotonic()
    teller = threading.Thread(target=_tell, args=(what, begun, done, told), daemon=True)
    teller.start()
    try:
        yield
    finally:
        done.set()
        teller.join()
        if told:
            end = "\r" if sys.stderr.isatty() else ""
            print("%slohandema: %s: %.1f s" % (end, what, time.monotonic() - begun), file=sys.stderr)


def _tell(what, begun, done, told):
    terminal = sys.stderr.isatty()
    while not done.wait(AFTER):
        if terminal:
            print("\rlohandema: %s .. %.0f s" % (what, time.monotonic() - begun), end="", file=sys.stderr, flush=True)
        elif not told:
            print("lohandema: %s .." % what, file=sys.stderr, flush=True)
        told.append(what)
