"""The examples of other clients, in examples/clients: with a redis-server, with SQLite, with PostgreSQL where it is
installed, and with botocore's stub."""

from __future__ import annotations

import os
import shutil
import sqlite3
import subprocess
import tempfile
import threading
import time
from pathlib import Path
from typing import Any, Dict, Iterator

import pytest

from conftest import TOP
from hikebox import state_of
from hikebox.testing import VirtualClock


def names_of(example: str) -> Dict[str, Any]:
    """What an example defines."""
    path = TOP / "examples" / "clients" / example
    # (on a busy machine a server may take longer than a second to answer)
    text = path.read_text().replace("socket_timeout=1,", "socket_timeout=60,")
    names: Dict[str, Any] = {}
    exec(compile(text, str(path), "exec"), names)
    return names


def test_redis_comes_back(redis_server: Any, monkeypatch: Any) -> None:
    server = redis_server()
    monkeypatch.setenv("REDIS_PORT", str(server.port))
    names = names_of("with_redis.py")
    assert names["write"]("name", "Ada") is True
    server.stop()
    clock = VirtualClock()
    again = {"before_sleep": lambda state: server.start(), "clock": clock, "sleep": clock.sleep}
    # (the server keeps nothing over its end)
    assert names["read"].retry_with(**again)("name") is None and len(clock.slept) == 1
    assert names["write"]("name", "Grace") is True and names["read"]("name") == b"Grace"


def test_redis_says_what_is_wrong_at_once(redis_server: Any, monkeypatch: Any) -> None:
    redis = pytest.importorskip("redis")
    monkeypatch.setenv("REDIS_PORT", str(redis_server().port))
    names = names_of("with_redis.py")
    names["client"].lpush("list", "one")
    with pytest.raises(redis.ResponseError):
        names["read"]("list")
    assert names["read"].retry.statistics.not_retried == 1


def test_sqlite_is_locked_for_a_while(tmp_path: Path, monkeypatch: Any) -> None:
    pytest.importorskip("sqlalchemy")
    path = tmp_path / "names.sqlite"
    monkeypatch.setenv("DATABASE", f"sqlite:///{path}?timeout=0")
    names = names_of("with_sqlalchemy.py")
    other = sqlite3.connect(str(path))
    other.execute("create table names (name text)")
    other.execute("begin exclusive")
    clock, attempts = VirtualClock(), []

    def unlock(state: Any) -> None:
        attempts.append(state.attempt_number)
        if state.attempt_number == 2:
            other.rollback()

    names["add"].retry_with(before_sleep=unlock, clock=clock, sleep=clock.sleep)("Ada")
    assert attempts == [1, 2] and other.execute("select name from names").fetchall() == [("Ada",)]
    other.close()
    names["engine"].dispose()


def test_sqlalchemy_says_what_is_wrong_at_once(monkeypatch: Any) -> None:
    exceptions = pytest.importorskip("sqlalchemy.exc")
    monkeypatch.delenv("DATABASE", raising=False)
    names = names_of("with_sqlalchemy.py")
    with pytest.raises(exceptions.OperationalError, match="no such table"):
        names["add"]("Ada")
    assert names["add"].retry.statistics.not_retried == 1
    names["engine"].dispose()


@pytest.fixture
def postgres() -> Iterator[str]:
    """A server of PostgreSQL of its own: what a client connects to."""
    pytest.importorskip("psycopg")
    programs = sorted(Path("/usr/lib/postgresql").glob("*/bin"))
    if not programs:
        pytest.skip("there is no server of PostgreSQL")
    folder = tempfile.mkdtemp(prefix="hikebox-", dir="/tmp")  # (the name of a socket is short)
    how: Dict[str, Any] = {"stdout": subprocess.DEVNULL, "stderr": subprocess.DEVNULL}
    if os.getuid() == 0:  # (it does not run as root)
        shutil.chown(folder, "postgres", "postgres")
        how.update(user="postgres", group="postgres", extra_groups=[])
    made = [
        f"{programs[-1]}/initdb",
        "-D",
        f"{folder}/data",
        "-A",
        "trust",
        "-U",
        "postgres",
        "--no-sync",
        "--locale=C",
        "-EUTF8",
    ]
    subprocess.run(made, check=True, cwd=folder, **how)
    words = [f"{programs[-1]}/postgres", "-D", f"{folder}/data", "-k", folder, "-c", "listen_addresses=", "-F"]
    server = subprocess.Popen(words, cwd=folder, **how)
    try:
        database = f"host={folder} user=postgres dbname=postgres"
        connected(database, server).close()
        yield database
    finally:
        server.send_signal(2)
        server.wait()
        shutil.rmtree(folder)


def connected(database: str, server: Any) -> Any:
    """A connection, as soon as the server answers."""
    import psycopg

    while True:
        try:
            return psycopg.connect(database)
        except psycopg.OperationalError:
            assert server.poll() is None, "the server of PostgreSQL ended"
            time.sleep(0.05)


#: Each row that is inserted waits for a lock, which a transaction holds up to its end.
NAMES = """
create table names (number integer, name text);
create function waits() returns trigger language plpgsql as $$
    begin perform pg_advisory_xact_lock(1); return new; end $$;
create trigger waits before insert on names for each row execute function waits()
"""


def test_postgres_finds_a_conflict(postgres: str, monkeypatch: Any) -> None:
    other = pytest.importorskip("psycopg").connect(postgres, autocommit=True)
    other.execute(NAMES)
    monkeypatch.setenv("DATABASE", postgres)
    names = names_of("with_psycopg.py")
    clock, errors = VirtualClock(), []

    def note(state: Any) -> None:
        errors.append(type(state.outcome.exception()).__name__)

    add = names["add"].retry_with(before_sleep=note, clock=clock, sleep=clock.sleep)
    # The first attempt has counted, and waits for the lock; then another transaction, which counted too, commits.
    other.execute("select pg_advisory_lock(1)")
    thread = threading.Thread(target=add, args=("Ada",))
    thread.start()
    while other.execute("select count(*) from pg_locks where locktype = 'advisory' and not granted").fetchone() != (1,):
        assert thread.is_alive()
        time.sleep(0.01)
    other.execute("begin isolation level serializable")
    other.execute("select count(*) from names")
    other.execute("insert into names values (1, 'Grace')")
    other.execute("commit")
    other.execute("select pg_advisory_unlock(1)")
    thread.join()
    assert errors == ["SerializationFailure"]
    assert other.execute("select * from names order by number").fetchall() == [(1, "Grace"), (2, "Ada")]
    other.close()
    names["connection"].close()


def test_aws_throttles_and_then_answers(monkeypatch: Any) -> None:
    exceptions: Any = pytest.importorskip("botocore.exceptions")
    stub: Any = pytest.importorskip("botocore.stub")
    for name in ("AWS_ACCESS_KEY_ID", "AWS_SECRET_ACCESS_KEY"):
        monkeypatch.setenv(name, "an example")
    names = names_of("with_botocore.py")
    clock = VirtualClock()
    get = names["get"].retry_with(clock=clock, sleep=clock.sleep, random=lambda: 0.5)
    with stub.Stubber(names["client"]) as service:
        service.add_client_error("get_item", "ThrottlingException", http_status_code=400)
        service.add_client_error("get_item", "InternalServerError", http_status_code=500)
        service.add_response("get_item", {"Item": {"name": {"S": "Ada"}}})
        assert get("Ada") == {"name": {"S": "Ada"}}
        # (full jitter: halves of 50 and of 100 ms)
        assert clock.slept == [0.025, 0.05]
        service.add_client_error("get_item", "ResourceNotFoundException", http_status_code=400)
        with pytest.raises(exceptions.ClientError) as raised:
            get("Ada")
    assert state_of(raised.value) is None and get.retry.statistics.not_retried == 1
