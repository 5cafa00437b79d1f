"""Frozen values with names: as `dataclasses` makes them, which imports `inspect`, and as
`typing.NamedTuple` does, which compiles annotations. Either took a fifteenth of `import hikebox`, or more."""

from __future__ import annotations

from collections import namedtuple
from typing import TYPE_CHECKING, Any, Dict, Tuple

__all__ = ["NamedTuple", "dataclass", "field"]

if TYPE_CHECKING:
    from dataclasses import dataclass, field
    from typing import NamedTuple
else:

    class _Names(type):
        """Makes a named tuple of a class of annotations."""

        def __new__(meta, name: str, bases: Any, own: Any) -> Any:
            if not bases:
                return type.__new__(meta, name, bases, own)
            names = own["__annotations__"]
            defaults = [own.pop(each) for each in names if each in own]
            made = namedtuple(name, names, defaults=defaults, module=own["__module__"])
            made.__new__.__annotations__ = names
            for each, value in own.items():
                setattr(made, each, value)
            return made

    class NamedTuple(metaclass=_Names):
        """What a named tuple is written as."""

    class field:
        """The default of a field that comparisons may leave out."""

        __slots__ = ("default", "compare")

        def __init__(self, default: Any, compare: bool = True) -> None:
            self.default, self.compare = default, compare

    def dataclass(frozen: bool) -> Any:
        """Makes a class of annotations a frozen dataclass."""
        assert frozen
        return _made


def _made(kind: Any) -> Any:
    names = tuple(kind.__annotations__)
    defaults: Dict[str, Any] = {}
    compared = names
    for name in [name for name in names if name in kind.__dict__]:
        given = kind.__dict__[name]
        defaults[name] = getattr(given, "default", given)
        if not getattr(given, "compare", True):
            compared = tuple(each for each in compared if each != name)
        setattr(kind, name, defaults[name])

    takes = ", ".join(f"{name}=defaults[{name!r}]" if name in defaults else name for name in names)
    made: Dict[str, Any] = {"defaults": defaults}
    exec(f"def __init__(self, {takes}): self.__dict__.update({', '.join(f'{name}={name}' for name in names)})", made)
    kind.__init__ = made["__init__"]
    kind.__init__.__annotations__ = dict(kind.__annotations__)

    def values(self: Any) -> Tuple[Any, ...]:
        return tuple([self.__dict__[name] for name in compared])

    setattr(kind, "__match_args__", names)
    kind.__eq__ = lambda self, other: values(self) == values(other) if other.__class__ is kind else NotImplemented
    kind.__hash__ = lambda self: hash(values(self))
    kind.__repr__ = (
        lambda self: f"{kind.__qualname__}({', '.join(f'{name}={self.__dict__[name]!r}' for name in names)})"
    )
    kind.__setattr__ = kind.__delattr__ = _frozen
    kind.__dataclass_fields__ = _Fields(defaults, compared)
    return kind


def _frozen(self: Any, name: str, *_: Any) -> None:
    from dataclasses import FrozenInstanceError

    raise FrozenInstanceError(f"cannot assign to field {name!r}")


class _Fields:
    """The fields as `dataclasses` tells them, once somebody asks."""

    __slots__ = ("_defaults", "_compared")

    def __init__(self, defaults: Dict[str, Any], compared: Tuple[str, ...]) -> None:
        self._defaults, self._compared = defaults, compared

    def __get__(self, _: Any, kind: Any) -> Any:
        import dataclasses

        fields: Dict[str, Any] = {
            name: dataclasses.field(
                default=self._defaults.get(name, dataclasses.MISSING), compare=name in self._compared
            )
            for name in kind.__annotations__
        }
        pairs: Any = [(name, Any, each) for name, each in fields.items()]
        alike: Any = dataclasses.make_dataclass(kind.__name__, pairs)
        return alike.__dataclass_fields__
