"""The first moments of the command line: once this is imported, Ctrl-C ends it without a word while other modules are
still loaded. Later it is wound up, as `stopping` says.

Nothing is imported here that Python has not loaded already: `signal` itself would load others."""

from __future__ import annotations

import _signal as signal  # type: ignore[import]
import sys

COMMANDS = ("quadq-remesh", "quadq-check")


def is_command_line() -> bool:
    """Whether this process is a command line of this package, and no program that uses it."""
    words = getattr(sys, "orig_argv", [])
    name = (getattr(sys, "argv", None) or [""])[0].rpartition("/")[2]
    return ("-m", "quadq") in zip(words, words[1:]) or name in COMMANDS


def end_by_interrupts() -> None:
    """Has an interrupt end the process at once, where it would raise an error in this command line."""
    if is_command_line() and signal.getsignal(signal.SIGINT) is signal.default_int_handler:
        try:
            signal.signal(signal.SIGINT, signal.SIG_DFL)
        except ValueError:
            # Another thread than the main one cannot, and is not interrupted.
            pass


end_by_interrupts()
