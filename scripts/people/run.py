"""Runs a command of this folder, `python3 -B run.py MODULE [ARGUMENT ..]`: the module's `main` writes what it has to say and gives the exit status.

A status of 0 or 1 is a verdict. So whatever keeps `main` from its verdict, or the verdict from being written, gives 2 and a reason on the standard
error. A reader that has seen enough, as `head`, takes nothing from the verdict.
"""
import contextlib
import importlib
import io
import os
import sys
import traceback

from check_ask import CannotRun


def opened():
    """Makes the standard streams writable: closed ones lead nowhere, and what a terminal cannot show is written as it can."""
    for name in ('stdout', 'stderr'):
        if getattr(sys, name) is None:
            setattr(sys, name, open(os.devnull, 'w', encoding='utf-8'))
        getattr(sys, name).reconfigure(encoding='utf-8', errors='backslashreplace')


def verdict(module, given):
    """The status, what there is to write, and why there is no verdict where there is none."""
    written = io.StringIO()
    try:
        with contextlib.redirect_stdout(written):
            return importlib.import_module(module).main(given), written.getvalue(), ''
    except CannotRun as why:
        return 2, written.getvalue(), f'{module}: {why}'
    except Exception:
        return 2, written.getvalue(), traceback.format_exc().rstrip()


def run(module, given):
    opened()
    status, text, why = verdict(module, given)
    try:
        sys.stdout.write(text)
        sys.stdout.flush()
    except OSError as error:
        # What is left in the stream goes nowhere, else it would fail again at the end.
        os.dup2(os.open(os.devnull, os.O_WRONLY), sys.stdout.fileno())
        if not isinstance(error, BrokenPipeError):
            status, why = 2, f'{module}: what was found cannot be written: {error.strerror}'
    if why:
        print(why, file=sys.stderr)
    return status


if __name__ == '__main__':
    sys.exit(run(sys.argv[1], sys.argv[2:]))
