"""Hooks that log, by tenacity's names."""

from __future__ import annotations

from typing import TYPE_CHECKING, Any, Callable, Dict

from .retry.state import RetryState

if TYPE_CHECKING:
    import logging

__all__ = ["after_log", "before_log", "before_sleep_log"]

Hook = Callable[[RetryState], None]


def _fields(state: RetryState, **more: Any) -> Dict[str, Any]:
    """The fields of a log record: what is called, and the attempt's number."""
    return {"hikebox_call": state.name, "hikebox_attempt": state.attempt_number, **more}


def before_log(logger: logging.Logger, log_level: int) -> Hook:
    """Returns a hook for `before` that logs the beginning of an attempt."""

    def log(state: RetryState) -> None:
        logger.log(log_level, "%s: attempt %d begins", state.name, state.attempt_number, extra=_fields(state))

    return log


def after_log(logger: logging.Logger, log_level: int, sec_format: str = "%0.3f") -> Hook:
    """Returns a hook for `after` that logs that an attempt failed, and the seconds since the first one began."""

    def log(state: RetryState) -> None:
        seconds = state.seconds_since_start or 0.0
        text = f"%s: attempt %d failed after {sec_format} s"
        fields = _fields(state, hikebox_seconds=seconds)
        logger.log(log_level, text, state.name, state.attempt_number, seconds, extra=fields)

    return log


def before_sleep_log(logger: logging.Logger, log_level: int, exc_info: bool = False) -> Hook:
    """Returns a hook for `before_sleep` that logs how an attempt ended and the wait that follows."""

    def log(state: RetryState) -> None:
        error = state.outcome.exception() if state.outcome is not None else None
        logger.log(
            log_level,
            "%s: attempt %d %s; next in %.3f s",
            state.name,
            state.attempt_number,
            state.outcome,
            state.upcoming_sleep,
            exc_info=error if exc_info else None,
            extra=_fields(state, hikebox_delay=state.upcoming_sleep),
        )

    return log
