"""A policy as the engine has it: its handle, its text, and what is read off that."""

from __future__ import annotations

from ctypes import c_size_t
from typing import Any, Dict, Optional, Tuple

from .._engine.calls import NOT_A_POLICY, NOT_JSON, OUT_OF_RANGE, TOO_DEEP, TOO_MANY
from .._engine.handles import PolicyHandle, Spelt
from ..errors import Fault, PolicyError
from .nodes import NODES

__all__ = ["Plan"]

_FAULTS = {
    NOT_JSON: Fault.NOT_JSON,
    NOT_A_POLICY: Fault.NOT_A_PLAN,
    OUT_OF_RANGE: Fault.OUT_OF_RANGE,
    TOO_DEEP: Fault.TOO_DEEP,
    TOO_MANY: Fault.TOO_MANY,
}

#: The names of the nodes that have numbers alone among their parameters; of the others the engine reads the JSON.
_NAMES: Dict[str, Spelt] = {
    name: (name.encode(), c_size_t(len(name))) for name, node in NODES.items() if not node.takes_words
}

#: Handles that hold nothing stand for no policy under a node.
_NONE, _NONE_EITHER = PolicyHandle(), PolicyHandle()


class Plan(PolicyHandle):
    """What a policy is made of. Threads may share it: it never changes, but what was read off it is kept."""

    _text: Optional[str] = None
    _tree: Any = None
    _reads: Optional[Tuple[Tuple[int, ...], bool]] = None

    @classmethod
    def of_text(cls, text: bytes) -> Plan:
        """The plan that this JSON text spells."""
        made = cls()
        refusal = made.read(text)
        if refusal is not None:
            raise PolicyError(_FAULTS[refusal.status], refusal.place, refusal.hint)
        return made

    @classmethod
    def of_node(cls, name: str, own: Tuple[Any, ...], first: Optional[Plan], second: Optional[Plan]) -> Plan:
        """The plan of a node with these parameters, which its builder has looked at, over these plans."""
        if name in _NAMES:
            made = cls()
            other: Optional[PolicyHandle] = second
            if second is first and second is not None:
                other = second.share()
            if made.make(_NAMES[name], own, first or _NONE, other or _NONE_EITHER):
                return made
        # it has words, or is refused, and the text tells where and why
        items = [*map(_written, own), *(part.text for part in (first, second) if part is not None)]
        text = items[0] if len(items) == 1 else f"[{','.join(items)}]"
        return cls.of_text(f'{{"{name}":{text}}}'.encode())

    @property
    def text(self) -> str:
        """Its JSON, without spaces."""
        if self._text is None:
            self._text = self.json()
        return self._text

    @property
    def tree(self) -> Any:
        """The value of `json.loads` that spells it."""
        if self._tree is None:
            import json

            self._tree = json.loads(self.text)
        return self._tree

    def reads(self) -> Tuple[Tuple[int, ...], bool]:
        if self._reads is None:
            self._reads = PolicyHandle.reads(self)
        return self._reads


def _written(value: Any) -> str:
    """The JSON of a value."""
    import json

    return json.dumps(value)
