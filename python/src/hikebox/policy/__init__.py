"""Policies: when to call again, as plain data that the engine reads. `hikebox.policy.builders` makes them."""

from .policy import Policy
from .preview import Step

__all__ = ["Policy", "Step"]
