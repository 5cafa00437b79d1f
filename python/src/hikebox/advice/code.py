"""A policy and a limit as lines to paste, in Python, in Rust and for the shell."""

from __future__ import annotations

import re
import shlex

from ..policy import Policy
from ..policy.spelling import spelt_in_rust
from ..storms.code import imports_of
from .candidates import Candidate

__all__ = ["in_python", "in_rust", "in_shell"]

#: The folder that runs share, as an example.
_FOLDER = "/run/lock/peer"


def in_python(policy: Policy, limit: Candidate) -> str:
    """Lines that make a `Retrying` of the policy under the limit."""
    given = "policy" if limit.tickets is None else f"policy, limit={limit.python}"
    names = {"Retrying", *re.findall(r"^[A-Z]\w+(?=[.(])", limit.python)}
    imported = imports_of(f"{policy!r} {limit.python}", names)
    return f"{imported}\n\npolicy = {policy!r}\nretrying = Retrying({given})\n"


def in_rust(policy: Policy, limit: Candidate) -> str:
    """Lines of a function that make the policy and the limit."""
    schedule = spelt_in_rust(policy.to_dict())
    spelt = f"{schedule} {limit.rust}"
    names = {name for name in re.findall(r"\b[A-Z]\w+", spelt) if name not in ("Duration", "None", "Some")}
    names |= {"Policy", "Schedule"}
    timed = "use std::time::Duration;\n" if "Duration::" in spelt else ""
    return (
        f"use hikebox::{{{', '.join(sorted(names))}}};\n{timed}"
        f"let policy = Policy::new(&({schedule}))?;\nlet limit = {limit.rust};\n"
    )


def in_shell(policy: Policy, limit: Candidate) -> str:
    """The line that runs a command under both; or that there is none."""
    if limit.tickets is not None and not limit.shell:
        return f"# hikebox run can't share {limit.name}\n"
    words = ["hikebox", "run", "--policy", repr(policy)]
    words += ["--limit", f"{limit.shell}@{_FOLDER}"] if limit.shell else []
    words += ["--open", f"spaced({limit.open_for})"] if limit.open_for else []
    return f"{shlex.join([*words, '--'])} COMMAND\n"
