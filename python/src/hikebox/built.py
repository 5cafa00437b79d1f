"""What the engine is built for."""

from __future__ import annotations

import ctypes

from ._engine.calls import library
from ._values import NamedTuple
from .version import VERSION


class BuildInfo(NamedTuple):
    """What the engine is built for, as `build_info` returns it."""

    #: The version of the package.
    version: str
    #: The target, as ``x86_64-unknown-linux-gnu``.
    target: str
    #: The target for which the engine's module is proved: the same one, or Linux on the same processor.
    proved_for: str

    @property
    def is_proved(self) -> bool:
        """Whether the engine is proved for its own target."""
        return self.proved_for == self.target


def build_info() -> BuildInfo:
    """What the engine is built for, and for which target it is proved."""
    call = library.hikebox_build
    call.argtypes, call.restype = (), ctypes.c_char_p
    target, _, *other = call().decode().split()
    return BuildInfo(VERSION, target, other[0] if other else target)
