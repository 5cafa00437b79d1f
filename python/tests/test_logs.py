"""The fields of log records, by which a collector finds them."""

from __future__ import annotations

import logging
from typing import Any, Dict, List

import pytest

from hikebox import Breaker, Budget, Retrying, recurs, spaced
from hikebox.leased import Leased
from hikebox.errors import StoreError
from hikebox.testing import VirtualClock


def fields(records: List[Any]) -> List[Dict[str, Any]]:
    """The fields of this package."""
    return [{name: value for name, value in vars(each).items() if name.startswith("hikebox_")} for each in records]


def fails() -> None:
    raise ConnectionResetError("scripted")


def test_the_records_of_a_retry(caplog: Any, clock: VirtualClock) -> None:
    caplog.set_level(logging.DEBUG, "hikebox")
    how: Any = {"clock": clock, "sleep": clock.sleep, "fallback": lambda state: None}
    Retrying(recurs(3) & spaced(2), limit=Budget(1), **how)(fails)
    breaker = Breaker(1, spaced(60), clock=clock)
    for _ in range(2):
        Retrying(recurs(3), limit=breaker, **how)(fails)
    call: Dict[str, Any] = {"hikebox_call": "fails", "hikebox_error": "ConnectionResetError"}
    assert fields(caplog.records) == [
        {**call, "hikebox_attempt": 1, "hikebox_delay": 2},
        {**call, "hikebox_attempt": 2, "hikebox_ending": "LIMIT_REFUSED"},
        {**call, "hikebox_attempt": 1, "hikebox_ending": "LIMIT_REFUSED", "hikebox_refusal": "BREAKER_OPEN"},
        {
            "hikebox_call": "fails",
            "hikebox_attempt": 0,
            "hikebox_ending": "NOT_ADMITTED",
            "hikebox_refusal": "BREAKER_OPEN",
        },
    ]


def test_the_records_of_a_store(caplog: Any) -> None:
    class Gone:
        def take(self, *_: Any) -> Any:
            raise StoreError("gone")

    store: Any = Gone()
    assert not Leased(store, "retries", 5).draw()
    assert fields(caplog.records) == [{"hikebox_limit": "retries"}]


@pytest.mark.parametrize("level", [logging.WARNING, logging.ERROR])
def test_a_record_that_is_turned_off_is_not_made(level: int, caplog: Any) -> None:
    caplog.set_level(level, "hikebox")
    Retrying(recurs(1), fallback=lambda state: None)(fails)
    assert len(caplog.records) == (1 if level == logging.WARNING else 0)
