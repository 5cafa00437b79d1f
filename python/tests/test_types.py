"""What a type checker says of decorated functions: the uses that are right, and those that are not."""

from __future__ import annotations

import os
import re
import shutil
import subprocess
from pathlib import Path
from typing import List, Tuple

import pytest

from hikebox.retry.options import DEFAULTS

HERE = Path(__file__).parent

RIGHT = """
from __future__ import annotations

import asyncio
from typing import Callable, Dict, Generic, List, Optional, Protocol, Tuple, TypeVar

from hikebox import AsyncRetrying, Repeating, Retrying, poll_until, recurs, repeat, retry, spaced

T = TypeVar("T")
U = TypeVar("U")
policy = recurs(3) & spaced(0.001)
shared = Retrying(policy, on=OSError)


@retry(policy, on=(TimeoutError, ConnectionError))
def fetch(url: str, *, size: int = 1) -> bytes:
    return url.encode() * size


@retry(policy)
async def fetch_later(url: str, size: int = 0) -> bytes:
    return url.encode()


@retry(policy)
def first(items: List[T]) -> T:
    return items[0]


@retry(policy)
async def first_later(items: List[T]) -> T:
    return items[0]


@retry(policy)
def nothing() -> None:
    return None


@retry(policy)
def by_name(*, size: int) -> int:
    return size


@retry(policy)
def many(*sizes: int, **names: str) -> Dict[str, str]:
    return names


@shared.wraps
def also(number: int) -> str:
    return str(number)


@repeat(policy)
def tick() -> int:
    return 1


@poll_until(policy, lambda state: state == "done")
def job(name: str) -> str:
    return name


class Client:
    def __init__(self, size: int = 0) -> None:
        self.size = size

    @retry(policy)
    def ask(self, url: str, *, size: Optional[int] = None) -> int:
        return self.size + (size or 0)

    @retry(policy)
    async def ask_later(self, url: str) -> int:
        return len(url)

    @retry(policy)
    def close(self) -> None:
        return None

    @staticmethod
    @retry(policy)
    def plain(url: str) -> int:
        return len(url)

    @retry(policy)
    @staticmethod
    def inner_plain(url: str) -> int:
        return len(url)

    @classmethod
    @retry(policy)
    def made(cls, size: int) -> Client:
        return cls(size)


class Sub(Client):
    pass


class Reads(Protocol):
    @property
    def size(self) -> int:
        ...

    def read(self, name: str) -> bytes:
        ...

    async def read_later(self, name: str) -> bytes:
        ...


class Reader(Reads):
    @property
    def size(self) -> int:
        return shared(len, "abc")

    def read(self, name: str) -> bytes:
        return shared(self._read, name)

    async def read_later(self, name: str) -> bytes:
        return await AsyncRetrying(policy)(fetch_later, name)

    def _read(self, name: str) -> bytes:
        return name.encode()


class Box(Generic[T]):
    def __init__(self, value: T) -> None:
        self.value = value

    @retry(policy)
    def get(self) -> T:
        return self.value

    @retry(policy)
    def set(self, value: T) -> None:
        self.value = value

    @retry(policy)
    def either(self, other: U, first: bool = True) -> U:
        return other


def takes(fn: Callable[[str], object]) -> None:
    fn("a")


def use(client: Client, box: Box[int], sub: Sub) -> None:
    data: bytes = fetch("a", size=2) + fetch(url="a")
    names: Dict[str, str] = many(1, 2, a="b")
    nothing()
    numbers: int = by_name(size=3) + first([1, 2]) + tick()
    texts: str = also(3) + job("done") + first(["a"]) + box.either("b")
    sizes: int = client.ask("a", size=3) + client.ask(url="a") + sub.ask("a") + Client.ask(client, "a")
    client.close()
    plain: int = client.plain("a") + Client.plain("b") + client.inner_plain("a") + Client.inner_plain("a")
    made: Client = Client.made(3)
    again: Client = client.made(size=3)
    held: int = box.get()
    box.set(3)
    takes(fetch)
    takes(client.ask)
    counts: int = fetch.retry.statistics.calls + client.ask.retry.statistics.won + Client.ask.retry.statistics.calls
    other: bytes = fetch.retry_with(policy=recurs(1))("a")
    direct: int = Retrying(policy)(len, "abc") + Repeating(policy)(len, "abc")


async def use_later(client: Client) -> None:
    data: bytes = await fetch_later("a", size=3) + await AsyncRetrying(policy)(fetch_later, "a")
    size: int = await client.ask_later("a") + await first_later([1])
    task: asyncio.Task[bytes] = asyncio.create_task(fetch_later("a"))
    both: Tuple[int, int] = await asyncio.gather(client.ask_later("a"), client.ask_later(url="b"))
"""

WRONG = """
from hikebox import NotAdmitted, Retrying, recurs, retry


@retry(recurs(3))
def fetch(url: str, size: int = 0) -> bytes:
    return b""


class Client:
    @retry(recurs(3))
    def ask(self, url: str) -> int:
        return 0

    @retry(recurs(3))
    async def ask_later(self, url: str) -> int:
        return 0


async def use(client: Client) -> None:
    fetch(3)  # call-overload
    text: str = fetch("a")  # assignment
    client.ask(3)  # arg-type
    client.ask()  # call-arg
    client.ask("a", 3)  # call-arg
    number: str = client.ask("a")  # assignment
    later: int = client.ask_later("a")  # assignment
    fetch.retries  # attr-defined
    Retrying(recurs(1), None)  # misc
    Retrying(recurs(1), budgt=3)  # call-arg
    Retrying(recurs(1), deadline="a minute")  # arg-type
    retry(recurs(1), max_retry_after="a minute")  # arg-type
    fetch.retry.deadline = 3  # misc
    fetch.retry.policy = recurs(1)  # misc
    try:
        fetch("a")
    except NotAdmitted as error:
        error.refusal.until  # attr-defined
"""


def complaints(tmp_path: Path, text: str) -> List[Tuple[int, str]]:
    """The lines and kinds of the errors that mypy finds in a program."""
    mypy = shutil.which("mypy")
    if mypy is None:
        pytest.skip("there is no mypy")
    program = tmp_path / "program.py"
    program.write_text(text)
    words = [mypy, "--strict", "--config-file", "pyproject.toml", "--cache-dir", str(tmp_path), str(program)]
    environment = {**os.environ, "MYPYPATH": "src"}
    ran = subprocess.run(words, cwd=HERE.parent, env=environment, capture_output=True, text=True, timeout=300)
    assert ran.stderr == ""
    found = re.findall(r"^(.*):(\d+): error: .*\[(.*)\]$", ran.stdout, re.MULTILINE)
    assert all(name == str(program) for name, _, _ in found), ran.stdout
    return [(int(line), kind) for _, line, kind in found]


def test_every_use_of_a_retried_function_has_its_type(tmp_path: Path) -> None:
    assert complaints(tmp_path, RIGHT) == []


def test_each_option_is_an_attribute_of_the_type_that_it_takes(tmp_path: Path) -> None:
    options = "".join(f"    {name}=shared.{name},\n" for name in DEFAULTS)
    program = (
        f"from hikebox import Retrying, recurs\n\nshared = Retrying(recurs(3))\nRetrying(shared.policy,\n{options})\n"
    )
    assert complaints(tmp_path, program) == []


def test_a_wrong_use_is_found(tmp_path: Path) -> None:
    expected = [(number, line.partition("# ")[2]) for number, line in enumerate(WRONG.splitlines(), 1) if "# " in line]
    assert len(expected) == 15 and sorted(set(complaints(tmp_path, WRONG))) == expected
