"""Waiting without fixed sleeps: something is asked again and again until it holds, up to a
generous limit."""

import time

# Seconds. On a machine with nothing else to do all of this takes milliseconds.
LIMIT = 60


def until(what, ask, holds=bool, limit=LIMIT, pause=0.02):
    """What `ask` gives, as soon as it holds. `what` says what is awaited."""
    end = time.monotonic() + limit
    while True:
        came = ask()
        if holds(came):
            return came
        if time.monotonic() > end:
            raise AssertionError(f"expected {what} within {limit} s, came {shown(came)}")
        time.sleep(pause)


def seconds_since(when):
    return time.monotonic() - when


def expect(what, wanted, came):
    """That what came is what was wanted."""
    if came != wanted:
        raise AssertionError(f"expected {what}: {shown(wanted)}, came {shown(came)}")


def expect_that(holds, what, came):
    """That something holds of what came."""
    if not holds:
        raise AssertionError(f"expected {what}, came {shown(came)}")


def shown(value):
    text = repr(value)
    return text if len(text) < 300 else text[:300] + " .."
