"""A fixture for pytest, which finds it where the package is installed. Nothing else is loaded before a test uses it."""

from __future__ import annotations

from typing import Iterator

import pytest

__all__ = ["hikebox_no_waits"]


@pytest.fixture
def hikebox_no_waits() -> Iterator[None]:
    """Skips the waits of all retries while the test runs, as `hikebox.testing.no_waits` does."""
    from hikebox.testing import no_waits

    with no_waits():
        yield
