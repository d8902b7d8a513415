"""Plays cases, one after another or beside each other. One that fails is played once more, since a
busy machine may be late for a promise of time; its line says so."""

import functools
import multiprocessing
import signal
import subprocess
import sys
import time

from field import CASES


class OutOfTime(Exception):
    """No fault that a case can take for one of its own."""


def check_program(program):
    """That it runs; bin/pg_node may build it first."""
    try:
        done = subprocess.run(
            [program, "--version"], stdin=subprocess.DEVNULL, stdout=subprocess.DEVNULL, check=False
        )
    except OSError as fault:
        sys.exit(f"{program} can't be run: {fault.strerror}")
    if done.returncode != 0:
        sys.exit(f"{program} --version ended with status {done.returncode}")


def by_name():
    return {case.__name__: case for case in CASES}


def check_names(parser, names):
    """That each is the name of a case."""
    for name in names:
        if name not in by_name():
            parser.error(f"no such case: {name}")


def chosen(names):
    """The cases of these names, or all."""
    return [by_name()[name] for name in names] or list(CASES)


def print_promises(cases):
    for case in cases:
        print(f"{case.__name__}: {' '.join(case.__doc__.split())}")


def out_of_time(_signal, _frame):
    raise OutOfTime


def stopped(_signal, _frame):
    sys.exit("stopped")


def ended(_signal, _frame):
    """One of several players ends, with all that its case has begun."""
    sys.exit(1)


def take_signals(end=stopped):
    signal.signal(signal.SIGALRM, out_of_time)
    for number in (signal.SIGTERM, signal.SIGINT):
        signal.signal(number, end)


def play(case, make_field, limit):
    """Plays a case; gives the line of its failure, or None."""
    signal.alarm(limit)
    try:
        with make_field() as field:
            case(field)
            field.check_errors()
    except OutOfTime:
        return f"expected an end within {limit} s, came none"
    except (
        Exception
    ) as fault:  # whatever a case meets is its failure, and the others are played all the same
        kind = "" if isinstance(fault, AssertionError) else f"{type(fault).__name__}: "
        return " ".join(f"{kind}{fault}".split())
    finally:
        signal.alarm(0)
    return None


def judge(case, make_field, limit):
    """Whether a case passes, and its line."""
    began = time.monotonic()
    first = play(case, make_field, limit)
    second = first and play(case, make_field, limit)
    seconds = f"({time.monotonic() - began:.1f} s)"
    if first is None:
        return True, f"ok   {case.__name__} {seconds}"
    if second is None:
        return True, f"ok (second try) {case.__name__} {seconds}, after: {first}"
    return False, f"FAIL {case.__name__} {seconds}: {second}; the first time: {first}"


def judge_named(make_field, limit, name):
    return judge(by_name()[name], make_field, limit)


def verdicts(cases, make_field, limit, at_once):
    """Whether each case passes, and its line, in their order; where several are played beside each
    other, each in a process of its own."""
    if at_once == 1:
        yield from (judge(case, make_field, limit) for case in cases)
        return
    with multiprocessing.get_context("fork").Pool(at_once, take_signals, (ended,)) as players:
        yield from players.imap(
            functools.partial(judge_named, make_field, limit), [case.__name__ for case in cases]
        )
        # A player that is ended by a signal while it waits may miss it, and is waited for then.
        players.close()
        players.join()


def play_all(cases, make_field, limit, at_once=1):
    """Plays cases, each in a new field and in so many seconds, and prints their lines and
    `N passed, M failed`. The status of the program."""
    take_signals()
    passed = failed = 0
    for has_passed, line in verdicts(cases, make_field, limit, at_once):
        passed, failed = passed + has_passed, failed + (not has_passed)
        print(line, flush=True)
    print(f"{passed} passed, {failed} failed")
    return 0 if failed == 0 else 1
