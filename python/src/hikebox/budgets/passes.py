"""What a `Budget` and a `Quota` are made of: passes of the engine.

A signal handler may raise an exception between any two steps of this code. So each pass and each retry of the engine is
noted here before it is made, those that somebody has with a weak reference to that: what an exception leaves behind is
found again.
"""

from __future__ import annotations

import contextlib
import threading
from typing import Any, Callable, Iterator, List, Optional, Protocol, Set
from weakref import ref

from .._engine.handles import Handle, Pass, PolicyHandle
from .._engine.machine import Loan, Machine, end_retry, free_retry
from ..errors import EngineError, LimitClosed, LimitError, LimitInUse, TicketError

__all__ = ["UNLIMITED", "Ends", "Grants", "Keep", "Passes", "Unlimited"]


class Keep(ref[Any]):
    """A pass that is kept, and a reference to its keeper: a ticket, or what draws for a retry."""

    __slots__ = ("part", "is_of_retry")

    part: Pass
    is_of_retry: bool


class _Retry(ref[Loan]):
    """A retry of the engine, and a reference to the loan of who steps it."""

    __slots__ = ("handle",)

    handle: Handle


class Passes:
    """The passes of one budget or quota, which all threads of a process share. A forked child has others.

    A finalizer, or the handler of a signal, may run between any two steps of this code too, on the same thread: it may
    draw, end a retry, close the budget, or fork. So the lock may be taken again by the thread that has it, and each
    pass goes back to where it was lent from.
    """

    __slots__ = (
        *("kind", "generation", "_make", "_lock", "_root", "_parts", "idle", "_kept", "_dropped"),
        *("_retries", "_ended", "__weakref__"),
    )

    def __init__(self, kind: str, make: Callable[[], Pass], generation: int = 0) -> None:
        #: What these are passes of, in the texts of errors.
        self.kind = kind
        #: How often it began anew.
        self.generation = generation
        self._make = make
        #: Taken where a retry begins or ends, where a pass is split off, and where all are closed or counted.
        self._lock = threading.RLock()
        #: The pass that others are split off.
        self._root = make()
        #: All that were.
        self._parts: Set[Pass] = set()
        #: Those that nobody uses now. `pop` and `append` are each one step, so no lock is taken for them.
        self.idle: List[Pass] = []
        #: Those that are kept, and of these those whose ticket is gone.
        self._kept: Set[Keep] = set()
        self._dropped: List[Keep] = []
        #: The retries under way, and how many are over.
        self._retries: Set[_Retry] = set()
        self._ended = 0

    def of_a_child(self) -> Passes:
        """Those of a forked child, with nothing drawn. A retry that was under way goes on with the parent's, whose lock
        another thread may have held."""
        self._lock = threading.RLock()
        return Passes(self.kind, self._make, self.generation + 1)

    @property
    def closed(self) -> Optional[int]:
        """How many tickets were drawn in all, once it is closed."""
        return None if self._root.handle.held else self._root.total

    def look_open(self) -> None:
        """Raises a `LimitClosed` where it was closed."""
        if self.closed is not None:
            raise LimitClosed(f"this {self.kind} was closed")

    def look_again(self, lent: Pass) -> bool:
        """Whether a call that failed is to be made again, with another pass: a close has taken in the one that it used,
        and did not come to its end. Raises a `LimitClosed` where it did."""
        with self._lock:  # (another thread may be closing it)
            self.look_open()
        return not lent.handle.held

    def lend(self) -> Pass:
        """A pass for a call or two of the engine. `give_back` takes it back."""
        if self._dropped:
            self._sweep()
        try:
            return self.idle.pop()
        except IndexError:
            pass
        return self._split()

    def give_back(self, lent: Pass) -> None:
        """Takes a pass back that was lent."""
        lent.home.append(lent)

    @contextlib.contextmanager
    def root(self) -> Iterator[Pass]:
        """The first pass, under the lock."""
        with self._lock:
            self.look_open()
            try:
                yield self._root
            except EngineError:
                self.look_open()
                raise

    # Passes that are kept

    def keep(self, lent: Pass, keeper: Any, is_of_retry: bool = False) -> Keep:
        """Leaves a pass that was lent to this keeper, until `drop`, or until the keeper is gone."""
        dropped: Any = self._dropped.append
        kept = Keep(keeper, None if is_of_retry else dropped)
        kept.part, kept.is_of_retry = lent, is_of_retry
        self._kept.add(kept)
        return kept

    def keep_for_retry(self, keeper: Any) -> Keep:
        """Leaves a pass to what draws for a retry."""
        with self._lock:
            self.look_open()
            return self.keep(self.lend(), keeper, is_of_retry=True)

    def end_kept(self, kept: Keep, hands_back: bool) -> None:
        """Takes back what was kept for a retry, with its latest ticket where that is so."""
        with self._lock:
            if self.closed is None:  # (the collector frees a quota before what draws on it)
                if hands_back:
                    kept.part.hand_back()
                self._take_back(kept)

    def drop(self, kept: Keep) -> None:
        """Takes back what was kept for a ticket, which is handed back."""
        try:
            self._kept.remove(kept)
        except KeyError:
            says = f"expected a ticket of this process, got one of the {self.kind} before the fork"
            raise TicketError(says) from None
        try:
            kept.part.hand_back()
        except EngineError:
            self.look_again(kept.part)
            raise
        self.give_back(kept.part)

    # Retries

    def begin(self, machine: Machine, policy: PolicyHandle, deadline: int) -> None:
        """Begins a retry in this machine, with a pass of its own."""
        loan = machine.loan = Loan()
        loan.granted = 0
        retry = loan.noted = _Retry(loan)
        retry.handle = machine.handle
        with self._lock:
            if not self._root.handle.held:
                self.look_open()
            self._retries.add(retry)
            try:
                begun = machine.begin(policy, self._root, deadline)
            except EngineError:
                self._retries.discard(retry)
                self.look_open()
                raise
            if not begun:
                self._retries.discard(retry)
                raise LimitError(f"more retries draw on one {self.kind} at once than it has passes")

    def end(self, machine: Machine, hands_back: bool) -> None:
        """Ends the retry of this machine, which began here. Its latest ticket is handed back where that is so, and it
        is a quota's."""
        loan = machine.loan
        assert loan is not None
        with self._lock:
            if self._root.handle.held:  # (the collector frees a budget before a retry of the same cycle)
                self._ended += 1
                if hands_back:
                    self._end_and_hand_back(machine)
                else:
                    machine.end(self._root)
        self._retries.discard(loan.noted)
        if machine.loan is not None:
            machine.leave()

    def _end_and_hand_back(self, machine: Machine) -> None:
        lent = self.lend()
        try:
            machine.end(lent)
            lent.hand_back()
        except EngineError:
            if self.closed is None:  # (else a finalizer has closed it meanwhile)
                raise
        finally:
            self.give_back(lent)

    # The end

    def drawn(self) -> int:
        """How many tickets were drawn and not handed back."""
        with self._lock:
            while self.closed is None:
                self._find_all()
                ended = self._ended
                try:
                    count = self._counted()
                except EngineError:
                    if self.closed is None:
                        raise
                    continue
                if ended == self._ended:  # (where a finalizer has ended a retry meanwhile, it is counted again)
                    return count
            return self.closed

    def _counted(self) -> int:
        loans = [retry() for retry in list(self._retries) if retry.handle.held]
        parts = [self._root, *(part for part in list(self._parts) if part.handle.held)]
        return sum(part.count() for part in parts) + sum(loan.granted for loan in loans if loan is not None)

    def close(self) -> int:
        """Ends it: how many tickets were drawn, exactly; a `LimitInUse` where a retry is under way."""
        with self._lock:
            if self.closed is not None:
                return self.closed
            self._find_all()
            draws = any(kept.is_of_retry for kept in list(self._kept))
            if draws or any(retry.handle.held for retry in list(self._retries)) or not self._joins_all():
                raise LimitInUse(f"a retry under this {self.kind} is under way")
            return self._root.total

    def _joins_all(self) -> bool:
        """Joins all passes into the first one, and closes it: False where a finalizer has begun a retry meanwhile."""
        parts = [part for part in list(self._parts) if part.handle.held]
        # (none of them is lent any more, also where this does not come to its end)
        self.idle = []
        try:
            for part in parts:
                self._root.join(part)
            if self._root.close() is not None:
                return True
        except EngineError:
            if self.closed is None:  # (else a finalizer has closed it meanwhile)
                raise
            return True
        # (a finalizer that drew by hand has left a pass)
        return any(part.handle.held for part in list(self._parts)) and self._joins_all()

    def _sweep(self) -> None:
        """Takes back the passes of tickets that are gone."""
        with contextlib.suppress(IndexError):  # another thread may take the last one just now
            while self._dropped:
                self._take_back(self._dropped.pop())

    def _find_all(self) -> None:
        """Takes back each pass and ends each retry that nobody has any more."""
        for kept in list(self._kept):
            if kept() is None:
                self._take_back(kept)
        for retry in list(self._retries):
            if retry() is None:
                self._end_lost(retry)
                self._retries.discard(retry)

    def _end_lost(self, retry: _Retry) -> None:
        if not retry.handle.held:
            return
        try:
            end_retry(retry.handle, self._root)
        except EngineError:
            if retry.handle.held:  # (else a finalizer has ended it meanwhile)
                raise
        self._ended += 1

    def _take_back(self, kept: Keep) -> None:
        try:
            self._kept.remove(kept)
        except KeyError:
            return  # it was taken back already
        self.give_back(kept.part)

    def _split(self) -> Pass:
        """A pass more, since all are in use."""
        with self.root() as root:
            part = Pass()
            part.home = self.idle
            self._parts.add(part)
            if root.split(part) is None:
                self._parts.discard(part)
                raise LimitError(f"more threads draw on one {self.kind} at once than it has passes")
            return part

    def __del__(self) -> None:
        for retry in getattr(self, "_retries", ()):
            free_retry(retry.handle)
        for drawn in (*getattr(self, "_parts", ()), getattr(self, "_root", None)):
            if drawn is not None:
                drawn.free()


class Ends(Protocol):
    """What begins retries of the engine, and ends them where they began."""

    def begin(self, machine: Machine, policy: PolicyHandle, deadline: int) -> None:
        """Begins a retry in this machine, with a pass of its own, and a moment past which it plans no attempt."""

    def end(self, machine: Machine, hands_back: bool) -> None:
        """Takes the pass of the machine's retry back, with its tickets; the latest one is handed back where that is so,
        and where it is a quota's."""


class Grants(Protocol):
    """What the engine's retry draws on by itself: a budget, a quota of the same clock, or nothing."""

    @property
    def reads_clock(self) -> bool:
        """Whether it draws at moments of its clock."""

    @property
    def passes(self) -> Ends:
        """What begins retries, and ends those that it began."""


class Unlimited:
    """Nothing to draw on: the policy alone bounds the retry, or a `Drawing` does."""

    __slots__ = ("passes",)

    reads_clock = False

    def __init__(self) -> None:
        self.passes: Ends = self

    begin = staticmethod(Machine.begin_unlimited)

    def end(self, machine: Machine, hands_back: bool) -> None:
        machine.free()


UNLIMITED = Unlimited()
