"""The table of nodes: what each takes, and how it is written in Python and in Rust."""

from __future__ import annotations

from typing import Any, Dict, List, Tuple

from .._values import NamedTuple

__all__ = ["FOLDS", "Item", "MAX_DEPTH", "NODES", "Node", "parts_of"]

#: The most nodes of a policy that lie one below another.
MAX_DEPTH = 32


class Item(NamedTuple):
    """What a node takes: a policy ("plan"), a word, a truth value ("truth"), or a number of some unit."""

    letter: str
    unit: str
    words: Tuple[str, ...] = ()


class Node(NamedTuple):
    """A row of the table."""

    #: What its JSON has beside its name: nothing, the only item, or a list of items.
    items: Tuple[Item, ...]
    #: The expressions that build it, of which the first is taken that can spell its items.
    python: Tuple[str, ...]
    rust: Tuple[str, ...]

    @property
    def takes_words(self) -> bool:
        """Whether something is among its items that is no policy and no number."""
        return any(item.unit in ("word", "truth") for item in self.items)


#: The nodes by their names in JSON.
NODES: Dict[str, Node] = {
    # bin/nodes writes these rows.
    # fmt: off
    "forever": Node(
        (),
        ("forever()",),
        ("Schedule::forever()",),
    ),
    "recurs": Node(
        (Item("N", "number"),),
        ("recurs({N})",),
        ("Schedule::recurs({N})",),
    ),
    "spaced": Node(
        (Item("D", "ms"),),
        ("spaced({D})",),
        ("Schedule::spaced({D})",),
    ),
    "fixed": Node(
        (Item("D", "ms"),),
        ("fixed({D})",),
        ("Schedule::fixed({D})",),
    ),
    "windowed": Node(
        (Item("D", "ms"),),
        ("windowed({D})",),
        ("Schedule::windowed({D})",),
    ),
    "linear": Node(
        (Item("D", "ms"),),
        ("linear({D})",),
        ("Schedule::linear({D})",),
    ),
    "exponential": Node(
        (Item("D", "ms"), Item("F", "factor")),
        ("exponential({D}, {F})",),
        ("Schedule::exponential({D}, {F})",),
    ),
    "exponential_milli": Node(
        (Item("D", "ms"), Item("F", "thousandths")),
        ("exponential({D}, {F:part})", "exponential_milli({D}, {F})"),
        ("Schedule::exponential_milli({D}, {F})",),
    ),
    "fibonacci": Node(
        (Item("D", "ms"),),
        ("fibonacci({D})",),
        ("Schedule::fibonacci({D})",),
    ),
    "decorrelated": Node(
        (Item("LANE", "lane"), Item("D", "ms"), Item("F", "thousandths"), Item("MAX", "ms")),
        ("decorrelated({D}, {MAX}, {F:ratio}{LANE:option})",),
        (
            "Schedule::decorrelated({D}, {F:whole}, {MAX}){LANE:none}",
            "Schedule::decorrelated_milli({LANE}, {D}, {F}, {MAX})",
        ),
    ),
    "elapsed": Node(
        (),
        ("elapsed()",),
        ("Schedule::elapsed()",),
    ),
    "identity": Node(
        (),
        ("identity()",),
        ("Schedule::identity()",),
    ),
    "unfold": Node(
        (Item("S", "number"), Item("M", "number"), Item("A", "number")),
        ("unfold({S}, {M}, {A})",),
        ("Schedule::unfold({S}, {M}, {A})",),
    ),
    "lone": Node(
        (Item("D", "ms"),),
        ("from_duration({D})",),
        ("Schedule::from_duration({D})",),
    ),
    "meet": Node(
        (Item("A", "plan"), Item("B", "plan")),
        ("{A} & {B}",),
        ("{A} & {B}",),
    ),
    "join": Node(
        (Item("A", "plan"), Item("B", "plan")),
        ("{A} | {B}",),
        ("{A} | {B}",),
    ),
    "follow": Node(
        (Item("A", "plan"), Item("B", "plan")),
        ("{A}.and_then({B:inner})",),
        ("{A}.and_then({B:inner})",),
    ),
    "feed": Node(
        (Item("A", "plan"), Item("B", "plan")),
        ("{A} >> {B}",),
        ("{A} >> {B}",),
    ),
    "gate": Node(
        (
            Item("SIDE", "word", ("input", "output")),
            Item("WANT", "truth"),
            Item("TEST", "word", ("below", "at_least", "equal")),
            Item("N", "number"),
            Item("A", "plan"),
        ),
        ("{A}.{WANT:way}_{SIDE}({TEST}={N})",),
        ("{A}.{WANT:way}_{SIDE}(Test::{TEST:camel}({N}))",),
    ),
    "gather": Node(
        (Item("KIND", "word", ("sum", "count", "max", "list")), Item("A", "plan")),
        ("{A}.gather(\"{KIND}\")",),
        ("{A}.gather(Fold::{KIND:camel})",),
    ),
    "add": Node(
        (Item("D", "ms"), Item("A", "plan")),
        ("{A}.add_delay({D})",),
        ("{A}.add_delay({D})",),
    ),
    "set": Node(
        (Item("D", "ms"), Item("A", "plan")),
        ("{A}.set_delay({D})",),
        ("{A}.set_delay({D})",),
    ),
    "cap": Node(
        (Item("D", "ms"), Item("A", "plan")),
        ("{A}.cap({D})",),
        ("{A}.cap({D})",),
    ),
    "add_out": Node(
        (Item("A", "plan"),),
        ("{A}.add_output()",),
        ("{A}.add_output()",),
    ),
    "jitter": Node(
        (Item("LANE", "lane"), Item("MIN", "thousandths"), Item("MAX", "thousandths"), Item("A", "plan")),
        ("{A}.jittered({MIN:ratio}, {MAX:ratio}{LANE:option})",),
        ("{A}.jittered({MIN:ratio}..{MAX:ratio}){LANE:none}", "{A}.jitter({LANE}, {MIN}, {MAX})"),
    ),
    "within": Node(
        (Item("D", "ms"), Item("A", "plan")),
        ("{A}.up_to({D})",),
        ("{A}.up_to({D})",),
    ),
    "ends_by": Node(
        (Item("D", "ms"), Item("A", "plan")),
        ("{A}.ends_by({D})",),
        ("{A}.ends_by({D})",),
    ),
    "renew": Node(
        (Item("D", "ms"), Item("A", "plan")),
        ("{A}.renew({D})",),
        ("{A}.renew({D})",),
    ),
    "renew_idle": Node(
        (Item("D", "ms"), Item("A", "plan")),
        ("{A}.renew_idle({D})",),
        ("{A}.renew_idle({D})",),
    ),
    "first": Node(
        (Item("A", "plan"),),
        ("{A}.first()",),
        ("{A}.first()",),
    ),
    "second": Node(
        (Item("A", "plan"),),
        ("{A}.second()",),
        ("{A}.second()",),
    ),
    "nothing": Node(
        (Item("A", "plan"),),
        ("{A}.nothing()",),
        ("{A}.nothing()",),
    ),
    # fmt: on
}

#: How outputs are gathered.
FOLDS = NODES["gather"].items[0].words


def parts_of(tree: Any) -> Tuple[str, List[Any], List[Any]]:
    """The node at the top of a policy that was accepted: its name, its own parameters and the policies under it."""
    if isinstance(tree, str):
        return tree, [], []
    ((name, value),) = tree.items()
    kinds = NODES[name].items
    items = [value] if len(kinds) == 1 else value
    own = [item for kind, item in zip(kinds, items) if kind.unit != "plan"]
    return name, own, [item for kind, item in zip(kinds, items) if kind.unit == "plan"]
