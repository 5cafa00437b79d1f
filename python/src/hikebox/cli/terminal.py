"""The terminal that `hikebox run` was started on, which its command has in the foreground."""

from __future__ import annotations

import ctypes
import os
import signal
from typing import Any, Dict, NamedTuple, NoReturn, Optional, Tuple

__all__ = ["Process", "Terminal", "processes", "signals_of"]


def signals_of(names: str) -> Tuple[signal.Signals, ...]:
    """The signals of these names that the system has."""
    return tuple(number for number in (getattr(signal, name, None) for name in names.split()) if number is not None)


#: What the terminal sends to the processes in the foreground. Of SIGTSTP hikebox hears as its command stops.
_SENT = frozenset(signals_of("SIGINT SIGQUIT SIGHUP"))
#: Asks a witness to tell what it still has, and to end. Real-time signals come after all others.
_ENOUGH = getattr(signal, "SIGRTMIN", 0) + 5
#: prctl's PR_SET_PDEATHSIG: the signal of a process whose parent ends.
_AT_PARENTS_DEATH = 1


class Process(NamedTuple):
    """A process, as /proc has it."""

    state: str
    parent: int
    group: int
    threads: int


def processes() -> Dict[int, Process]:
    """All processes that are there, by their ids."""
    found: Dict[int, Process] = {}
    for name in os.listdir("/proc"):
        if name.isdigit():
            try:
                with open(f"/proc/{name}/stat", "rb") as file:
                    fields = file.read().rpartition(b")")[2].split()
            except OSError:
                continue  # it is gone
            found[int(name)] = Process(fields[0].decode(), int(fields[1]), int(fields[2]), int(fields[17]))
    return found


class Terminal:
    """The controlling terminal, where there is one.

    A command that is put in the foreground has the terminal's signals, and hikebox has none of them. So a witness, a
    process of hikebox's own in the command's group, passes on what it gets.
    """

    def __init__(self) -> None:
        self.group = os.getpgrp()
        #: The group that has it from hikebox.
        self.holder: Optional[int] = None
        #: The witness in that, or the last one that there was; and whether it is there.
        self.witness: Optional[int] = None
        self._has_witness = False
        try:
            self.file = os.open("/dev/tty", os.O_RDWR | os.O_NOCTTY)
        except OSError:
            self.file = -1

    def close(self) -> None:
        """Closes its file."""
        if self.file >= 0:
            os.close(self.file)

    def is_here(self) -> bool:
        """Whether hikebox is in the foreground."""
        return self._front() == self.group

    def is_given(self) -> bool:
        """Whether a command is."""
        return self.holder is not None and self._front() == self.holder

    def is_to_give(self) -> bool:
        """Whether a command is put in the foreground as it begins.

        It is not where hikebox runs in the background of a script, nor where others in its group may use the terminal
        themselves: `less` in a pipe, or a program that goes on while hikebox runs.
        """
        return self.is_here() and signal.getsignal(signal.SIGINT) is not signal.SIG_IGN and self._is_waited_for()

    def lead(self) -> int:
        """Puts a new group in the foreground, for a command to be started in, so that it can read the terminal from its
        beginning on."""
        self._witness(0)
        assert self.witness is not None
        self.give(self.witness)
        return self.witness

    def give(self, group: int) -> None:
        """Puts a group in the foreground."""
        if not self._has_witness:
            self._witness(group)
        try:
            os.tcsetpgrp(self.file, group)
            self.holder = group
        except OSError:
            pass  # the terminal, or the group, is gone

    def take(self) -> None:
        """Puts hikebox in the foreground again, and waits for what its witness has to tell."""
        front = self._front()
        if self.holder is not None and front != self.group and (front == self.holder or not _is_there(front)):
            try:
                os.tcsetpgrp(self.file, self.group)
            except OSError:
                pass  # the terminal is gone
        self.holder = None
        if self._has_witness and self.witness is not None:
            os.kill(self.witness, _ENOUGH)
            os.kill(self.witness, signal.SIGCONT)
            os.waitpid(self.witness, 0)
        self._has_witness = False

    def _witness(self, group: int) -> None:
        """Has a witness in a group, or, for 0, in one of its own."""
        self.witness = _witness(group)
        self._has_witness = True

    def _front(self) -> Optional[int]:
        """The group in the foreground."""
        try:
            return os.tcgetpgrp(self.file) if self.file >= 0 else None
        except OSError:
            return None

    def _is_waited_for(self) -> bool:
        """Whether hikebox descends from all others in its group, as from a script's shell, and they wait for it."""
        there = processes()
        members = {number for number, own in there.items() if own.group == self.group} - {os.getpid()}
        above = os.getppid()
        while above in members and _waits(above, there[above]):
            members.remove(above)
            above = there[above].parent
        return not members


def _waits(number: int, process: Process) -> bool:
    """Whether a process waits for another one, or for its output, and does nothing else."""
    try:
        with open(f"/proc/{number}/wchan") as file:
            place = file.read()
    except OSError:
        return False
    return process.threads == 1 and (place in ("do_wait", "sigsuspend") or place.endswith("pipe_read"))


def _is_there(group: Optional[int]) -> bool:
    try:
        os.killpg(group or 0, 0)
    except ProcessLookupError:
        return False
    except PermissionError:
        pass
    return True


def _witness(group: int) -> int:
    """Starts a witness in a group, or, for 0, in one of its own."""
    hikebox = os.getpid()
    old = signal.pthread_sigmask(signal.SIG_BLOCK, {*_SENT, signal.SIGTERM, signal.SIGTSTP, _ENOUGH})
    witness = os.fork()
    if witness == 0:
        _tells(hikebox, group)
    try:
        os.setpgid(witness, group)
    except OSError:
        pass  # it did that itself, or the group is over
    signal.pthread_sigmask(signal.SIG_SETMASK, old)
    return witness


def _tells(hikebox: int, group: int) -> NoReturn:
    """What the witness does: it sends hikebox each signal that the terminal sends to the group. If hikebox is killed,
    it hangs the group up."""
    try:
        os.setpgid(0, group)
        ctypes.CDLL(None).prctl(_AT_PARENTS_DEATH, _ENOUGH)
        os.closerange(0, 1024)  # (a pipe that it held open would not end)
        while os.getppid() == hikebox:
            came: Any = signal.sigwaitinfo({*_SENT, _ENOUGH})
            if came.si_signo == _ENOUGH:
                break
            os.kill(hikebox, came.si_signo)
        if os.getppid() != hikebox:
            os.killpg(0, signal.SIGHUP)
            os.killpg(0, signal.SIGCONT)
    finally:
        os._exit(0)
