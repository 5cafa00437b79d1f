"""How a retry is told: by records of the logger `hikebox`, and on the exception that is raised in the end."""

from __future__ import annotations

from typing import TYPE_CHECKING, Any, Dict, List, Optional

from .state import Ending, Outcome, RetryState

if TYPE_CHECKING:
    import logging

__all__ = ["DEBUG", "late", "log_end", "log_wait", "mark"]

#: The levels of records, as `logging` has them, which is imported at the first failure.
DEBUG, INFO, WARNING = 10, 20, 30


class _Late:
    """The logger `hikebox`, once it is needed."""

    __slots__ = ("logger",)

    def __init__(self) -> None:
        self.logger: Optional[logging.Logger] = None

    def made(self) -> logging.Logger:
        """It: a program that configures no logging is told nothing."""
        import logging

        logger = logging.getLogger("hikebox")
        logger.addHandler(logging.NullHandler())
        self.logger = logger
        return logger


late = _Late()

#: The most notes of its own that an exception keeps, where one object is raised again and again.
_MAX_NOTES = 8


def log_wait(state: RetryState, delay: float) -> None:
    """Logs how an attempt ended that another one follows, after so many seconds."""
    text, told = "%s: attempt %d %s; next in %.3f s", _told(state.outcome)
    (late.logger or late.made()).debug(
        text, state.name, state.attempt_number, told, delay, extra=_fields(state, hikebox_delay=delay)
    )


def log_end(state: RetryState, outcome: Optional[Outcome]) -> str:
    """Logs how the retry ended, and answers the note on that."""
    ending = state.ending
    assert ending is not None
    tries = "1 attempt" if state.attempt_number == 1 else f"{state.attempt_number} attempts"
    why = "" if state.refusal is None else f" ({state.refusal.reason.value})"
    note = f"gave up after {tries} in {state.seconds_since_start or 0.0:.3f} s: {ending.value}{why}"
    level, logger = INFO if ending is Ending.STOPPED else WARNING, late.logger or late.made()
    if logger.isEnabledFor(level):
        text, fields = "%s: %s; the last attempt %s", _fields(state, hikebox_ending=ending.name)
        logger.log(level, text, state.name, note, _told(outcome), extra=fields)
    return f"hikebox: {note}"


def mark(error: BaseException, state: RetryState, note: str) -> None:
    """Puts the retry's state, and the note on how it ended, on the exception that is raised in the end."""
    state.outcome = None
    try:
        setattr(error, "retry_state", state)
        setattr(error, "__notes__", _with_note(getattr(error, "__notes__", []), note))
    except Exception:
        pass  # an exception that takes no attributes is raised as it is


def _fields(state: RetryState, **more: Any) -> Dict[str, Any]:
    """The fields of a log record."""
    fields: Dict[str, Any] = {"hikebox_call": state.name, "hikebox_attempt": state.attempt_number, **more}
    error = None if state.outcome is None else state.outcome.error
    if error is not None:
        fields["hikebox_error"] = type(error).__qualname__
    if state.refusal is not None:
        fields["hikebox_refusal"] = state.refusal.reason.name
    return fields


def _told(outcome: Optional[Outcome]) -> str:
    """How an attempt ended, as text: a log record that is kept keeps no exception, and with it no frames."""
    if outcome is None:
        return "was not made"
    try:
        return repr(outcome)
    except Exception as error:
        return f"ended in a way that can't be told: {type(error).__name__}"


def _with_note(notes: List[str], note: str) -> List[str]:
    """An exception's notes with one more."""
    own = [old for old in notes if old.startswith("hikebox: ")]
    dropped = own[: max(0, len(own) - _MAX_NOTES + 1)]
    return [*(old for old in notes if old not in dropped), note]
