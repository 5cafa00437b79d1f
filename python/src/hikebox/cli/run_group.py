"""How `hikebox run` runs a command on Linux: each attempt is a process group, and all signals are waited for."""

from __future__ import annotations

import math
import os
import signal
import time
from typing import Any, List, Optional, Sequence, Tuple

from .command import spawned
from .group import Group
from .run import TIMED_OUT, Ended, OutputTooLong, RunOptions, Runner
from .terminal import Terminal, signals_of

__all__ = ["GroupRunner"]

#: Signals that end the run: no attempt follows. After some of them a command gets a SIGKILL where it does not end.
_ENDING = signals_of("SIGINT SIGTERM SIGHUP SIGQUIT")
_INSISTING = signals_of("SIGTERM SIGHUP")
#: Signals that are passed on and change nothing else, and one that stops hikebox with its command.
_PASSED = signals_of("SIGUSR1 SIGUSR2 SIGWINCH SIGCONT")
_STOPPING: Any = getattr(signal, "SIGTSTP", None)
#: Those that stop a command which is not in the foreground where it uses the terminal.
_USING = signals_of("SIGTTIN SIGTTOU")

#: How many seconds pass until the length of an attempt's output is looked at.
_LOOKS = 0.1


class GroupRunner(Runner):
    """The attempts of one run, with the signals that come meanwhile."""

    def __init__(self, command: Sequence[str], options: RunOptions) -> None:
        super().__init__(command, options)
        #: Whether the command was told to stop, as hikebox was.
        self.is_stopping = False
        self.terminal = Terminal()
        self.watched = {signal.SIGCHLD}
        for number in (*_ENDING, *_PASSED, _STOPPING):
            if signal.getsignal(number) is not signal.SIG_IGN:
                self.watched.add(number)

    def __enter__(self) -> GroupRunner:
        # (of a command that ends while SIGCHLD is ignored, the system tells nothing)
        signal.signal(signal.SIGCHLD, signal.SIG_DFL)
        super().__enter__()
        # (with SIGTTOU hikebox would be stopped as it takes the terminal back)
        self.mask = signal.pthread_sigmask(signal.SIG_BLOCK, {*self.watched, signal.SIGTTOU})
        return self

    def __exit__(self, *_: Any) -> None:
        super().__exit__()
        self.terminal.close()
        signal.pthread_sigmask(signal.SIG_SETMASK, self.mask)

    def attempt(self) -> None:
        try:
            group = self._spawn()
        except OSError as error:
            raise self.not_started(error) from None
        self._heed_all(group, is_new=True)
        try:
            status = self._await(group)
        finally:
            self.terminal.take()
        self.is_stopping = False
        self._heed_all(group)
        if status != 0 or self.ended_by is not None or self.has_too_long_output():
            self._end_rest(group)
        if self.is_stopping and status != 0 and self.ended_by is None:
            # (by a signal that came once the command was over)
            self._stop(None, whole=False)
        self.judged(status)

    def _spawn(self) -> Group:
        self.begins()
        actions: List[Tuple[Any, ...]] = []
        if self.input is not None:
            actions.append((os.POSIX_SPAWN_DUP2, self.input, 0))
        if self.output is not None:
            actions.append((os.POSIX_SPAWN_DUP2, self.output, 1))
        leader = self.terminal.lead() if self.terminal.is_to_give() else 0
        how = {
            "file_actions": actions,
            "setpgroup": leader,
            "setsigmask": list(self.mask),
            "setsigdef": [signal.SIGPIPE, signal.SIGXFSZ, *(_USING if self.terminal.file >= 0 else ())],
        }
        try:
            command = spawned(self.command, self.environment.of_attempt(self.number), how)
        except OSError:
            self.terminal.take()
            raise
        return Group(command, leader or command, self.options.timeout, self.options.grace)

    def _await(self, group: Group) -> int:
        """Waits for the command, and heeds signals meanwhile: its status, or that of an attempt that took too long."""
        self.is_late = False
        while True:
            status = self._look(group)
            if status is not None:
                return TIMED_OUT if self.is_late else status
            came = self._signal(self._until(group))
            if came is not None:
                self._heed(came, group)
            elif group.until is not None and time.monotonic() >= group.until:
                self.is_late = self.is_late or not group.is_told
                group.end()
            elif self.has_too_long_output():
                self._end_rest(group)
                raise OutputTooLong()

    def _until(self, group: Group) -> Optional[float]:
        """The moment up to which hikebox waits for a signal."""
        looks = None if self.output is None else time.monotonic() + _LOOKS
        moments = [moment for moment in (group.until, looks) if moment is not None]
        return min(moments) if moments else None

    def _look(self, group: Group) -> Optional[int]:
        """The status of a command that has ended."""
        done, status = os.waitpid(group.command, os.WNOHANG | os.WUNTRACED)
        if not done:
            return None
        if os.WIFSTOPPED(status):
            self._has_stopped(group, os.WSTOPSIG(status))
            return None
        code = os.waitstatus_to_exitcode(status)
        return code if code >= 0 else 128 - code

    def _end_rest(self, group: Group) -> None:
        """Ends what an attempt left running."""
        pause = 0.002
        while group.is_living():
            if not group.is_told or (group.until is not None and time.monotonic() >= group.until):
                group.end()
            until = time.monotonic() + pause
            came = self._signal(until if group.until is None else min(until, group.until))
            if came is not None:
                self._heed(came, group)
            pause = min(2 * pause, 0.1)

    # Signals

    def _heed_all(self, group: Group, is_new: bool = False) -> None:
        """Heeds the signals that have come. A new command may have begun after they were sent to its group."""
        while True:
            came = signal.sigtimedwait(self.watched, 0)
            if came is None:
                return
            self._heed(came, group, is_new)

    def _heed(self, came: Any, group: Group, is_new: bool = False) -> None:
        """Does what a signal to hikebox asks for, while it has a command."""
        number, sender = came.si_signo, came.si_pid
        if number == signal.SIGCHLD or sender == os.getpid():
            return
        by_terminal = sender == self.terminal.witness
        if number == _STOPPING:
            self.is_stopping = True
            group.send(number)
            return
        if number == signal.SIGCONT:
            self._continue(group)
            return
        if by_terminal:
            # (others in hikebox's group would have it from the terminal too)
            os.killpg(self.terminal.group, number)
        if is_new or not by_terminal:
            group.send(number)
        if number in _ENDING:
            self.ended_by = number
            group.send(signal.SIGCONT)
        if number in _INSISTING and not group.is_told:
            group.expect_end()

    def _give(self, group: Group) -> None:
        """Puts a command in the foreground."""
        self.terminal.give(group.number)
        group.send(signal.SIGCONT)

    def _has_stopped(self, group: Group, by: int) -> None:
        """A command was stopped by this signal. Only then does hikebox stop too, so that the command takes nothing of
        what is typed next."""
        if by in _USING:
            self._is_wanted(group)
        elif self.terminal.holder is not None and not self.terminal.is_here():
            self._stop(group, whole=True)
        elif self.is_stopping:
            self._stop(group, whole=False)

    def _is_wanted(self, group: Group) -> None:
        """A command was stopped since it uses the terminal, and is not in the foreground."""
        if self.terminal.is_here():
            self._give(group)
            return
        if self.terminal.is_given():
            group.send(signal.SIGCONT)
            return
        self._stop(group, whole=True)
        if not self.terminal.is_here() and signal.SIGCONT not in signal.sigpending():
            # (nobody can continue it, so it is told as the system tells such)
            group.send(signal.SIGHUP)
            group.send(signal.SIGCONT)

    def _stop(self, group: Optional[Group], whole: bool) -> None:
        """Stops hikebox, until somebody continues it, and then its command; with `whole`, all of its own group."""
        began = time.monotonic()
        self.is_stopping = False
        if whole:
            os.killpg(self.terminal.group, _STOPPING)
        else:
            os.kill(os.getpid(), _STOPPING)
        signal.pthread_sigmask(signal.SIG_UNBLOCK, {_STOPPING})
        signal.pthread_sigmask(signal.SIG_BLOCK, {_STOPPING})
        if group is not None:
            if group.until is not None:
                group.until += time.monotonic() - began
            self._continue(group)

    def _continue(self, group: Group) -> None:
        """Continues a command, in the foreground where hikebox is there."""
        if self.terminal.is_to_give():
            self._give(group)
        else:
            group.send(signal.SIGCONT)

    def wait(self, seconds: float) -> None:
        until = time.monotonic() + seconds
        try:
            while True:
                left = until - time.monotonic()
                if left <= 0:
                    return
                shown = max(1, math.ceil(left - 0.01))
                self.line.show(f"hikebox: {self.waits_for} in {shown} s")
                came = self._signal(until - (shown - 1) if self.line.is_on else until)
                if came is not None and came.si_signo == _STOPPING:
                    self.line.clear()
                    self._stop(None, whole=False)
                if came is not None and came.si_signo in _ENDING:
                    raise Ended(128 + came.si_signo)
        finally:
            self.line.clear()

    def _signal(self, until: Optional[float]) -> Any:
        """The next signal, or None where the moment came first."""
        if until is None:
            return signal.sigwaitinfo(self.watched)
        while True:
            left = until - time.monotonic()
            if left <= 0:
                return None
            came = signal.sigtimedwait(self.watched, min(left, 1e6))
            # (if hikebox was stopped until then, Python returns a result that no signal filled)
            if came is not None and came.si_signo in self.watched:
                return came
