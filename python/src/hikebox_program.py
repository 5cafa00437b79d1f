"""The program `hikebox`, from before its package is loaded: control-C ends it without a traceback, and so does a pipe
that nobody reads, or an engine that can't be loaded."""

import signal
import sys

__all__ = ["main"]


def main() -> int:
    """The program: its exit status."""
    if signal.getsignal(signal.SIGINT) is signal.default_int_handler:
        signal.signal(signal.SIGINT, signal.SIG_DFL)
    if hasattr(signal, "SIGPIPE"):  # which Windows lacks
        signal.signal(signal.SIGPIPE, signal.SIG_DFL)
    try:
        from hikebox.cli.main import main as program
    except ImportError as error:
        if sys.stderr is not None:
            sys.stderr.write(f"hikebox: {error}\n")
        return 4
    return program()
