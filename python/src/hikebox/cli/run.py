"""`hikebox run`: runs a command until it succeeds."""

from __future__ import annotations

import errno
import logging
import os
import signal
import sys
import tempfile
from dataclasses import dataclass
from typing import Any, FrozenSet, Optional, Sequence, Union

from ..budgets.limit import Limit
from ..errors import NotAdmitted, StoreError, TooSoon
from ..leased import LeasedPace, LeasedQuota
from ..leased.shared import SharedLimit
from ..policy import Policy
from ..retry.state import RetryState
from ..retrying import Retrying
from .command import Environment
from .status_line import StatusLine
from .streams import named, tell
from .values import size_text

__all__ = ["TIMED_OUT", "Ended", "Failed", "OutputTooLong", "RunOptions", "Runner", "TimedOut", "run_command"]

logger = logging.getLogger("hikebox")

#: The status of an attempt that took too long, as of timeout(1).
TIMED_OUT = 124
#: The status of a run that a limit did not admit: that of a failure for a time, as in sysexits.h.
NOT_ADMITTED = 75
#: The statuses of a command that was not found, and of one that could not be run, as of a shell.
NOT_FOUND, NOT_RUN = 127, 126

#: Where a file without a name is kept if TMPDIR says nothing: on a disk, and not in memory, as /tmp may be.
_KEPT_IN = "/var/tmp"
#: How many bytes of an attempt's output are held back at most.
MAX_OUTPUT = 1 << 30


@dataclass
class RunOptions:
    """How a command is run."""

    policy: Policy
    limit: Optional[Limit] = None
    #: What each attempt waits for.
    pace: Optional[LeasedPace] = None
    #: The statuses that are retried; None for all but 0 and those of a command that can't be run.
    on: Optional[FrozenSet[int]] = None
    #: Seconds that an attempt may take, and that it is given after SIGTERM before it gets SIGKILL.
    timeout: Optional[float] = None
    grace: float = 5.0
    #: Seconds after the first attempt's begin past which none begins.
    deadline: Optional[float] = None
    verbose: bool = False
    #: Tells nothing on a terminal either.
    quiet: bool = False
    #: Gives each attempt the whole standard input, and lets out the last attempt's output alone.
    replay_input: bool = False
    last_output: bool = False
    #: How many bytes of output are held back at most.
    max_output: int = MAX_OUTPUT


class Failed(Exception):
    """An attempt ended with this status. `run` says whether the command could be run."""

    def __init__(self, status: int, run: bool = True) -> None:
        super().__init__(f"status {status}")
        self.status = status
        self.run = run


class TimedOut(Failed, TimeoutError):
    """An attempt took too long."""

    def __init__(self) -> None:
        super().__init__(TIMED_OUT)


class Ended(BaseException):
    """A signal ended the run; `status` is what it ends with."""

    def __init__(self, status: int) -> None:
        self.status = status


class OutputTooLong(BaseException):
    """An attempt had more output than may be held back."""


def run_command(command: Sequence[str], options: RunOptions) -> int:
    """Runs the command until it succeeds, and gives its last status."""
    with _runner(command, options) as runner:
        retrying = Retrying(
            options.policy,
            limit=options.limit,
            deadline=options.deadline,
            on=runner.retries,
            code=lambda error: error.status if isinstance(error, Failed) else 0,
            before=_tell_request if isinstance(options.limit, LeasedQuota) else None,
            before_sleep=runner.tell_wait,
            sleep=runner.wait,
        )
        try:
            retrying(runner.paced_attempt)
            status = 0
        except Failed as failed:
            status = failed.status
            runner.tell_end(failed)
        except NotAdmitted as refused:
            status = NOT_ADMITTED
            runner.tell_refusal(refused)
        except (TooSoon, StoreError) as error:
            status = NOT_ADMITTED if runner.last is None else runner.last.status
            runner.tell_no_pace(error)
        except Ended as ended:
            status = ended.status
        except OutputTooLong:
            limit = size_text(options.max_output)
            raise OSError(errno.EFBIG, f"the output is longer than {limit} (--output-limit)") from None
        runner.let_out()
        return status


def _runner(command: Sequence[str], options: RunOptions) -> Runner:
    """What runs the command on this system."""
    if hasattr(signal, "sigtimedwait"):
        from .run_group import GroupRunner

        return GroupRunner(command, options)
    from .run_alone import LoneRunner

    return LoneRunner(command, options)


def _tell_request(state: RetryState) -> None:
    """Tells the store of a quota that there is one more run, as its first attempt begins: also of one that succeeds."""
    quota = state.retry_object.limit if state.retry_object is not None else None
    if state.attempt_number == 1 and isinstance(quota, LeasedQuota):
        try:
            quota.seen()
        except StoreError as error:
            text = "%s: %s; it grants nothing until it can be reached"
            logger.warning(text, quota.name, error, extra={"hikebox_limit": quota.name})


class Runner:
    """The attempts of one run."""

    def __init__(self, command: Sequence[str], options: RunOptions) -> None:
        self.command = list(command)
        self.options = options
        self.environment = Environment()
        self.input: Optional[int] = None
        self.output: Optional[int] = None
        self.number = 0
        #: How the latest attempt failed.
        self.last: Optional[Failed] = None
        #: The signal that ended the run.
        self.ended_by: Optional[int] = None
        #: Whether the attempt took too long.
        self.is_late = False
        #: What is told while it waits, on a terminal.
        self.line = StatusLine(sys.stderr, wanted=not (options.quiet or options.verbose))
        self.waits_for = ""

    def __enter__(self) -> Runner:
        # (a signal ends hikebox while it reads, since there is no command yet that it could go to)
        if self.options.replay_input:
            self.input = _spooled(0)
        if self.options.last_output:
            self.output = _unnamed()
        return self

    def __exit__(self, *_: Any) -> None:
        for file in (self.input, self.output):
            if file is not None:
                os.close(file)

    def paced_attempt(self) -> None:
        """Runs the command once, at the moment that the pace says."""
        pace = self.options.pace
        if pace is not None:
            pace.sleep = self.wait_for_pace
            pace.wait()
        try:
            self.attempt()
        except Failed as failed:
            self.last = failed
            raise

    def wait_for_pace(self, seconds: float) -> None:
        """Waits until the pace lets the next attempt begin."""
        self.waits_for = f"attempt {self.number + 1}"
        self.tell(f"attempt {self.number + 1}: begins in {seconds:.3f} s, by its pace")
        self.wait(seconds)

    def attempt(self) -> None:
        """Runs the command once."""
        raise NotImplementedError

    def wait(self, seconds: float) -> None:
        """Waits between two attempts; a signal that ends the run ends it now."""
        raise NotImplementedError

    def begins(self) -> None:
        """Begins an attempt: with the whole input, and no output yet."""
        self.number += 1
        if self.input is not None:
            os.lseek(self.input, 0, os.SEEK_SET)
        if self.output is not None:
            os.ftruncate(self.output, 0)
            os.lseek(self.output, 0, os.SEEK_SET)
        sys.stdout.flush()

    def not_started(self, error: OSError) -> Failed:
        """The command can't be run: what the attempt raises."""
        is_missing = isinstance(error, FileNotFoundError)
        self.tell(f"{self.command[0]}: {'command not found' if is_missing else error.strerror}", always=True)
        return Failed(NOT_FOUND if is_missing else NOT_RUN, run=False)

    def judged(self, status: int) -> None:
        """Raises what the end of an attempt asks for, if it did not succeed."""
        if self.ended_by is not None:
            raise Ended(status)
        if self.has_too_long_output():
            raise OutputTooLong()
        if self.is_late:
            raise TimedOut()
        if status != 0:
            raise Failed(status)

    def has_too_long_output(self) -> bool:
        return self.output is not None and os.fstat(self.output).st_size > self.options.max_output

    def retries(self, error: BaseException) -> bool:
        """Whether a failed attempt is retried."""
        if not isinstance(error, Failed):
            return False
        if self.options.on is None:
            return error.run
        return error.status in self.options.on

    def let_out(self) -> None:
        """Writes the last attempt's output, where it was held back."""
        if self.output is None:
            return
        os.lseek(self.output, 0, os.SEEK_SET)
        with os.fdopen(os.dup(self.output), "rb") as held, named("write failed: standard output"):
            while True:
                part = held.read(1 << 16)
                if not part:
                    return
                _write_all(1, part)

    def tell_wait(self, state: RetryState) -> None:
        outcome = state.outcome
        failed = outcome.exception() if outcome is not None else None
        number = state.attempt_number
        self.waits_for = f"attempt {number}: {failed}; attempt {number + 1}"
        self.tell(f"attempt {number}: {failed}; next in {state.upcoming_sleep:.3f} s")

    def tell_end(self, failed: Failed) -> None:
        state = getattr(failed, "retry_state", None)
        if isinstance(state, RetryState) and state.ending is not None:
            refusal = state.refusal if isinstance(self.options.limit, SharedLimit) else None
            why = state.ending.value if refusal is None else refusal.reason.value
            self.tell(f"attempt {state.attempt_number}: {failed}; {why}")
        else:
            self.tell(f"{failed}, which is not retried")

    def tell_no_pace(self, error: Union[TooSoon, StoreError]) -> None:
        """Its pace, or the store of that, lets no attempt begin, or no other one."""
        is_broken = isinstance(error, StoreError)
        if self.last is None:
            self.tell(f"not run: {error}", always=True)
        else:
            why = str(error) if is_broken else "its pace leaves no time for another attempt"
            self.tell(f"attempt {self.number}: {self.last}; {why}", always=is_broken)

    def tell_refusal(self, refused: NotAdmitted) -> None:
        refusal, limit = refused.refusal, self.options.limit
        left = ""
        if refusal.again_at is not None and isinstance(limit, SharedLimit):
            left = f" for {max(0.0, refusal.again_at - limit.clock()):.3f} s more"
        self.tell(f"not run: {refusal.reason.value}{left}", always=True)

    def tell(self, line: str, always: bool = False) -> None:
        if always or self.options.verbose:
            tell(f"hikebox: {line}\n")


def _unnamed() -> int:
    """A temporary file without a name."""
    folder = None if "TMPDIR" in os.environ or not os.access(_KEPT_IN, os.W_OK | os.X_OK) else _KEPT_IN
    with named("a temporary file can't be made"), tempfile.TemporaryFile(dir=folder) as file:
        return os.dup(file.fileno())


def _spooled(source: int) -> int:
    """All that can be read of a file, in a temporary one."""
    file = _unnamed()
    while True:
        with named("read failed: standard input"):
            part = os.read(source, 1 << 16)
        if not part:
            return file
        with named("write failed: temporary file"):
            _write_all(file, part)


def _write_all(file: int, text: bytes) -> None:
    while text:
        text = text[os.write(file, text) :]
