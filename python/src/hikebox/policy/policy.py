"""`Policy`: when to call again, as plain data that the engine reads."""

from __future__ import annotations

import os
from typing import TYPE_CHECKING, Any, Callable, Dict, Iterable, List, Optional, Tuple, Union

from .._time import Duration, seconds
from ..errors import Fault, PolicyError, shown
from .checks import interval, ratio, whole
from .nodes import FOLDS, MAX_DEPTH
from .plan import Plan
from .preview import Step, played

__all__ = ["HOW_TO_JOIN", "Policy", "Step"]

#: What is told where another operator stands between two policies.
HOW_TO_JOIN = "join policies by & or |"


_new = object.__new__


class Policy:
    """A retry policy: at each failure it says when to call again, or that it is done. A repeat asks it at each success.

    Builders make one, such as `recurs`, and so do `from_json`, `from_dict`, `from_file` and `parse`. It never changes,
    equal policies are `==`, and its `repr` is the expression that builds it. A policy that the engine refuses raises a
    `PolicyError`.

    >>> from hikebox import exponential, recurs
    >>> policy = recurs(5) & exponential(0.1, 2).cap(1)
    >>> policy.to_json()
    '{"meet":[{"recurs":5},{"cap":[1000,{"exponential":[100,2]}]}]}'
    >>> Policy.from_json(policy.to_json())
    recurs(5) & exponential(0.1, 2).cap(1)
    """

    __slots__ = ("_plan", "_node", "_nodes", "__weakref__")

    #: What the engine has of it, once that is needed.
    _plan: Optional[Plan]
    #: Its topmost node, where a builder made it: the name, the parameters, and the policies under it.
    _node: Optional[Tuple[str, Tuple[Any, ...], Optional[Policy], Optional[Policy]]]
    _nodes: int

    def __init__(self, *_: Any, **__: Any) -> None:
        raise TypeError("a policy is made by a builder, as recurs(5), or by Policy.from_json, from_dict or from_file")

    @classmethod
    def _of_plan(cls, plan: Plan) -> Policy:
        policy = object.__new__(cls)
        policy._plan, policy._node, policy._nodes = plan, None, plan.size()[0]
        return policy

    @staticmethod
    def of_node(
        name: str, own: Tuple[Any, ...], first: Optional[Policy] = None, second: Optional[Policy] = None
    ) -> Policy:
        """The policy of a node, with parameters that were looked at, over other policies: for builders."""
        policy = _new(Policy)
        policy._plan = None
        policy._node = (name, own, first, second)
        if first is None:
            policy._nodes = 1
            return policy
        nodes = policy._nodes = first._nodes + 1 + (0 if second is None else second._nodes)
        if nodes > MAX_DEPTH:
            policy.plan  # (which the engine refuses where it is too deep, or has too many nodes)
        return policy

    @classmethod
    def from_json(cls, text: Union[str, bytes]) -> Policy:
        """Reads a policy from a JSON text, as `zsched plan` does.

        >>> Policy.from_json('{"recurs":3}')
        recurs(3)
        >>> Policy.from_json('{"fixed":0}')
        Traceback (most recent call last):
        ...
        hikebox.errors.PolicyError: number out of range: expected {"fixed":D}, D from 1 to \
4611686018427387903, got {"fixed":0}
        """
        if isinstance(text, str):
            text = text.encode("utf-8", "surrogatepass")
        elif not isinstance(text, (bytes, bytearray, memoryview)):
            # (`bytes` of a number is as many zeros)
            raise TypeError(f"from_json: expected a text of JSON, got {shown(text)}")
        return cls._of_plan(Plan.of_text(bytes(text)))

    @classmethod
    def from_dict(cls, value: Any) -> Policy:
        """Reads a policy from a value of `json.loads`: a dict, or a string for a node without parameters.

        >>> Policy.from_dict({"cap": [1000, {"exponential": [100, 2]}]})
        exponential(0.1, 2).cap(1)
        """
        import json

        try:
            text = json.dumps(value, allow_nan=False)
        except (ValueError, RecursionError) as error:
            raise PolicyError(Fault.NOT_JSON, hint=str(error)) from None
        return cls._of_plan(Plan.of_text(text.encode()))

    @classmethod
    def from_file(cls, path: Union[str, os.PathLike[str]]) -> Policy:
        """Reads a policy from a file of JSON."""
        with open(path, "rb") as file:
            return cls.from_json(file.read())

    @classmethod
    def parse(cls, text: str) -> Policy:
        """Reads a policy from an expression, as `repr` writes it. It accepts builders and numbers, and runs no Python.

        >>> Policy.parse("recurs(5) & exponential(0.1, 2).cap(1)").nodes
        4
        """
        from .parsing import parse

        if not isinstance(text, str):
            raise TypeError(f"parse: expected an expression, got {shown(text)}")
        return parse(text)

    @classmethod
    def of(cls, value: Union[Policy, str, bytes, Dict[str, Any]]) -> Policy:
        """Returns a policy itself, or reads one from a JSON text or a dict."""
        if isinstance(value, Policy):
            return value
        if isinstance(value, (str, bytes)):
            try:
                return cls.from_json(value)
            except PolicyError as error:
                if error.fault is Fault.NOT_JSON and isinstance(value, str) and "(" in value:
                    hint = f"{value!r} is an expression, which Policy.parse reads"
                    raise PolicyError(Fault.NOT_JSON, error.place, hint) from None
                raise
        if isinstance(value, dict):
            return cls.from_dict(value)
        raise TypeError(f"expected a policy, its JSON text or a dict, got {value!r}")

    # What it is

    def to_json(self) -> str:
        """Returns the policy as JSON, which `from_json` and `zsched plan` read."""
        return self.plan.text

    def to_dict(self) -> Any:
        """Returns the policy as a new value that `from_dict` reads."""
        import json

        return json.loads(self.plan.text)

    @property
    def nodes(self) -> int:
        """The number of its nodes, at most 256."""
        return self.plan.size()[0]

    @property
    def depth(self) -> int:
        """Its depth, at most 32. A leaf has depth 1.

        >>> from hikebox import recurs, spaced
        >>> (recurs(5) & spaced(1).cap(2)).depth
        3
        """
        return self.plan.size()[1]

    @property
    def most_retries(self) -> Optional[int]:
        """The most failures at which it goes on, or None if its nodes alone don't bound that.

        >>> from hikebox import recurs, spaced
        >>> (recurs(5) & spaced(1)).most_retries, spaced(1).up_to(60).most_retries
        (5, None)
        """
        return self.plan.size()[2]

    def __repr__(self) -> str:
        from .spelling import spelt

        return spelt(self.plan.tree)

    def __eq__(self, other: object) -> bool:
        if not isinstance(other, Policy):
            return NotImplemented
        return self.plan.text == other.plan.text

    def __hash__(self) -> int:
        return hash(self.plan.text)

    def __bool__(self) -> bool:
        raise TypeError(f"{HOW_TO_JOIN}: `and`, `or` and `not` would drop one of them")

    if not TYPE_CHECKING:  # (a type checker refuses the operator, where a method would allow it)

        def __add__(self, other: object) -> Policy:
            if not isinstance(other, Policy):
                return NotImplemented
            raise TypeError(f"{HOW_TO_JOIN}, got +")

    def __reduce__(self) -> Any:
        return (Policy.from_json, (self.plan.text,))

    def __copy__(self) -> Policy:
        return self

    def __deepcopy__(self, _: Any) -> Policy:
        return self

    @property
    def plan(self) -> Plan:
        """The policy in the engine, which is made when it is first needed: for the retries of this package."""
        plan = self._plan
        if plan is None:
            assert self._node is not None
            name, own, first, second = self._node
            plan = self._plan = Plan.of_node(
                name, own, None if first is None else first.plan, None if second is None else second.plan
            )
        return plan

    @property
    def reads(self) -> Tuple[Tuple[int, ...], bool]:
        """The lanes by which its nodes pick at random, and whether one of them reads the code of a failure, as the
        engine says."""
        return self.plan.reads()

    def preview(
        self,
        steps: int = 10,
        *,
        start: Duration = 0,
        took: Duration = 0,
        input: Union[int, Iterable[int]] = 0,
        random: Optional[Callable[[], float]] = None,
    ) -> List[Step]:
        """Returns what it does at its first failures, on a clock of its own: at most `steps`, up to the one at which it
        is done.

        The first failure is at `start`, and each further one `took` after its planned start. `input` is the code of all
        failures, or their codes in turn, the last one repeated. `random` returns numbers from 0 up to 1 that pick
        jitter; None picks the middle.

        >>> from hikebox import exponential, recurs, spaced
        >>> for step in (recurs(2) & exponential(0.1, 2)).preview():
        ...     print(step)
        0: (0, 100) next 100
        100: (1, 200) next 300
        300: (2, 400) done
        >>> [step.next_ms for step in spaced(1).while_input(equal=202).preview(input=[202, 202, 200])]
        [1000, 2000, None]
        """
        codes = [input] if isinstance(input, int) else list(input)
        return played(self.plan, steps, seconds(start), seconds(took), codes, random)

    # Two policies

    def __and__(self, other: Policy) -> Policy:
        """Goes on while both do, at the later start; gives the pair. ZIO's `&&`, JSON's `meet`."""
        return Policy.of_node("meet", (), self, other) if isinstance(other, Policy) else NotImplemented

    def __or__(self, other: Policy) -> Policy:
        """Goes on while one does, at the earlier start; gives the pair. ZIO's `||`, JSON's `join`."""
        return Policy.of_node("join", (), self, other) if isinstance(other, Policy) else NotImplemented

    def __rshift__(self, other: Policy) -> Policy:
        """The other one, whose inputs are this one's outputs; goes on while both do. ZIO's `>>>`, JSON's `feed`."""
        return Policy.of_node("feed", (), self, other) if isinstance(other, Policy) else NotImplemented

    def and_then(self, other: Policy) -> Policy:
        """This one until it is done; that event and all later ones go to the other. JSON's `follow`.

        >>> from hikebox import recurs, spaced
        >>> [step.next_ms for step in recurs(2).and_then(spaced(0.05)).preview(steps=4)]
        [0, 0, 50, 100]
        """
        if not isinstance(other, Policy):
            raise TypeError(f"expected a policy, got {other!r}")
        return Policy.of_node("follow", (), self, other)

    # One policy

    def cap(self, longest: Duration) -> Policy:
        """Limits each delay to this."""
        return Policy.of_node("cap", (seconds(longest, "cap"),), self)

    def add_delay(self, more: Duration) -> Policy:
        """Adds this to each delay. JSON's `add`."""
        return Policy.of_node("add", (seconds(more, "add_delay"),), self)

    def set_delay(self, delay: Duration) -> Policy:
        """Replaces each delay by this. JSON's `set`."""
        return Policy.of_node("set", (seconds(delay, "set_delay"),), self)

    def add_output(self) -> Policy:
        """Adds the output to each delay, in milliseconds, if it is a number. JSON's `add_out`."""
        return Policy.of_node("add_out", (), self)

    def jittered(self, least: float = 0.8, most: float = 1.2, *, lane: int = 0) -> Policy:
        """Multiplies each delay by a random ratio from `least` up to `most`. JSON's `jitter`.

        `jittered()` is 20 % less to 20 % more, `jittered(0, 1)` is full jitter, and `jittered(0.2)` is a ratio from 0.2
        up to 1.2. Ratios are rounded to thousandths. Jitters of one `lane`, from 0 to 3, use the same random number.

        >>> from hikebox import spaced
        >>> spaced(1).jittered(0.5, 1.5).preview(1, random=lambda: 0.0)[0].delay
        0.5
        """
        low, high = ratio(least, "jittered"), ratio(most, "jittered")
        if low > high:
            raise PolicyError(Fault.OUT_OF_RANGE, hint=f"jittered({least}, {most}): the range is empty")
        if low == high and least != most:
            hint = f"jittered({least}, {most}): the range is less than a thousandth"
            raise PolicyError(Fault.OUT_OF_RANGE, hint=hint)
        return Policy.of_node("jitter", (whole(lane, "jittered: a lane", 0, 3), low, high), self)

    def up_to(self, duration: Duration) -> Policy:
        """Ends once this much time has passed since the first failure. ZIO's `upTo`, JSON's `within`."""
        return Policy.of_node("within", (seconds(duration, "up_to"),), self)

    def ends_by(self, duration: Duration) -> Policy:
        """Ends if the next call would begin later than this after the first failure, so that none does.

        >>> from hikebox import spaced
        >>> [step.next_ms for step in spaced(0.45).ends_by(1).preview()]
        [450, 900, None]
        """
        return Policy.of_node("ends_by", (seconds(duration, "ends_by"),), self)

    def renew(self, duration: Duration) -> Policy:
        """Begins anew at the first failure at which this much time has passed since it last began."""
        return Policy.of_node("renew", (interval(duration, "renew"),), self)

    def renew_idle(self, duration: Duration) -> Policy:
        """Begins anew at each failure that comes this long or longer after the one before."""
        return Policy.of_node("renew_idle", (interval(duration, "renew_idle"),), self)

    def gather(self, fold: str) -> Policy:
        """Changes the output to the "sum", "count", "max" or "list" of the outputs at the earlier failures."""
        if fold not in FOLDS:
            raise PolicyError(Fault.NOT_A_PLAN, hint=f"gather: expected one of {', '.join(FOLDS)}, got {fold!r}")
        return Policy.of_node("gather", (fold,), self)

    def first(self) -> Policy:
        """Changes the output to its first part, if it is a pair."""
        return Policy.of_node("first", (), self)

    def second(self) -> Policy:
        """Changes the output to its second part, if it is a pair."""
        return Policy.of_node("second", (), self)

    def nothing(self) -> Policy:
        """Changes the output to nothing."""
        return Policy.of_node("nothing", (), self)

    def while_input(
        self, *, below: Optional[int] = None, at_least: Optional[int] = None, equal: Optional[int] = None
    ) -> Policy:
        """Ends at a failure whose code does not pass the test.

        >>> from hikebox import spaced
        >>> [step.next_ms for step in spaced(1).while_input(equal=503).preview(input=404)]
        [None]
        """
        return self._gate("input", True, below=below, at_least=at_least, equal=equal)

    def until_input(
        self, *, below: Optional[int] = None, at_least: Optional[int] = None, equal: Optional[int] = None
    ) -> Policy:
        """Ends at a failure whose code passes the test."""
        return self._gate("input", False, below=below, at_least=at_least, equal=equal)

    def while_output(
        self, *, below: Optional[int] = None, at_least: Optional[int] = None, equal: Optional[int] = None
    ) -> Policy:
        """Ends when its output does not pass the test."""
        return self._gate("output", True, below=below, at_least=at_least, equal=equal)

    def until_output(
        self, *, below: Optional[int] = None, at_least: Optional[int] = None, equal: Optional[int] = None
    ) -> Policy:
        """Ends when its output passes the test."""
        return self._gate("output", False, below=below, at_least=at_least, equal=equal)

    def _gate(self, side: str, want: bool, **tests: Optional[int]) -> Policy:
        given = [(test, number) for test, number in tests.items() if number is not None]
        if len(given) != 1:
            raise TypeError("expected one of below, at_least and equal")
        ((test, number),) = given
        bound = whole(number, f"{'while' if want else 'until'}_{side}")
        return Policy.of_node("gate", (side, want, test, bound), self)
