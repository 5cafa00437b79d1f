"""Retries of transactions by SQLAlchemy. Each attempt is a transaction of its own, from its first statement."""

import os

from sqlalchemy import create_engine, text
from sqlalchemy.exc import DBAPIError

from hikebox import exponential, recurs, retry

engine = create_engine(os.environ.get("DATABASE", "sqlite://"))


def may_pass(error):
    """Whether the database refused for now: by a lock of SQLite, or by a conflict of transactions, as psycopg tells it.

    A connection that broke (`connection_invalidated`) may have broken after the commit: retry that only for
    transactions that may be made twice.
    """
    if not isinstance(error, DBAPIError):
        return False
    return "database is locked" in str(error.orig) or getattr(error.orig, "sqlstate", None) in ("40001", "40P01")


@retry(recurs(4) & exponential(0.05, 2).jittered(), on=may_pass)
def add(name):
    with engine.begin() as connection:
        connection.execute(text("insert into names values (:name)"), {"name": name})
