"""Loops over attempts that are left early, and coroutines and generators that are closed in an attempt."""

from __future__ import annotations

import asyncio
import gc
from typing import Any, AsyncIterator, Generator, Iterator, List

import pytest

from hikebox import AsyncRetrying, Attempt, Ending, Quota, Retrying, recurs
from hikebox._engine import machine


def fails(attempt: Attempt) -> None:
    with attempt:
        raise KeyError()


def test_the_retry_of_a_loop_that_is_left_ends() -> None:
    quota = Quota(10, 0, 10**6)
    retrying, retrying_async = Retrying(recurs(5), limit=quota), AsyncRetrying(recurs(5), limit=quota)

    async def main() -> Any:
        async for attempt in retrying_async:
            fails(attempt)
            break
        return attempt

    kept = [asyncio.run(main())]
    for attempt in retrying:
        fails(attempt)
        break
    kept.append(attempt)
    with pytest.raises(KeyError) as caught:
        for attempt in retrying:
            fails(attempt)
            raise KeyError("outside")
    kept.append(attempt)
    for attempt in retrying:
        if attempt.number == 3:
            break
        fails(attempt)
    # of the last one two retries began; the tickets of the others came back
    assert quota.close() == 2
    assert [each.retry_state.ending for each in (*kept, attempt)] == [Ending.CANCELLED] * 4
    assert attempt.number == 3 and caught.value.args == ("outside",)
    with pytest.raises(RuntimeError, match="its loop was left"):
        fails(attempt)


def test_a_loop_goes_on_where_its_iterator_is_kept() -> None:
    attempts = iter(Retrying(recurs(5)))
    attempt = next(attempts)
    with attempt:
        del attempts  # which the block keeps
        raise KeyError()
    assert attempt.number == 1
    with pytest.raises(RuntimeError, match="its loop was left"):
        fails(next(iter(Retrying(recurs(5)))))


def test_what_the_collector_frees_serves_no_other_retry() -> None:
    retrying = Retrying(recurs(5))
    attempts: Any = iter(retrying)
    fails(next(attempts))
    idle = list(machine.idle)
    cycle = [attempts]
    cycle.append(cycle)
    del attempts, cycle
    gc.collect()
    # (another thread could begin a retry in a machine before the collector frees what it has)
    assert retrying.statistics.cancelled == 1 and list(map(id, machine.idle)) == list(map(id, idle))


def test_an_attempt_has_one_block() -> None:
    runs = 0
    with pytest.raises(RuntimeError, match="an attempt can't be entered again within its `with` block"):
        for attempt in Retrying(recurs(2)):
            with attempt:
                runs += 1
                with attempt:
                    raise KeyError()
    # a block within its own fails the attempt, which is retried as others are
    assert runs == 3


class Pending:
    def __await__(self) -> Generator[None, None, None]:
        yield


@pytest.mark.parametrize("on", [BaseException, (KeyError, BaseException)])
@pytest.mark.parametrize("how", [{}, {"before_sleep": print}], ids=["plain", "with a hook"])
def test_what_is_closed_in_an_attempt_ends(on: Any, how: Any) -> None:
    quota = Quota(10, 0, 10**6)
    retrying_async: Any = AsyncRetrying(recurs(3), on=on, limit=quota, **how)
    retrying = Retrying(recurs(3), on=on, limit=quota, **how)

    async def waits() -> None:
        await Pending()

    def numbers() -> Iterator[int]:
        for attempt in retrying:
            with attempt:
                yield attempt.number

    async def numbers_async() -> AsyncIterator[int]:
        async for attempt in retrying_async:
            with attempt:
                yield attempt.number

    call = retrying_async(waits)
    call.send(None)
    call.close()
    generator: Any = numbers()
    assert next(generator) == 1
    generator.close()
    async_generator: Any = numbers_async()
    with pytest.raises(StopIteration, match="1"):
        async_generator.__anext__().send(None)
    with pytest.raises(StopIteration):
        async_generator.aclose().send(None)
    assert (retrying.statistics.not_retried, retrying_async.statistics.not_retried, quota.close()) == (1, 2, 0)


def test_a_generator_exit_is_retried_where_it_is_named() -> None:
    runs: List[int] = []

    def leaves() -> None:
        runs.append(1)
        raise GeneratorExit()

    cases: List[Any] = [(BaseException, 1), ((KeyError, GeneratorExit), 4)]
    for on, most in cases:
        runs.clear()
        with pytest.raises(GeneratorExit):
            Retrying(recurs(3), on=on)(leaves)
        assert len(runs) == most
