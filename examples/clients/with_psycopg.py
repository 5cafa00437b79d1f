"""Retries of transactions by psycopg. Each attempt is a transaction of its own, from its first statement. What is
retried here was rolled back: a connection that broke may have broken after the commit."""

import os

import psycopg
from psycopg.errors import DeadlockDetected, SerializationFailure

from hikebox import exponential, recurs, retry

connection = psycopg.connect(os.environ.get("DATABASE", "dbname=names"), autocommit=True)
connection.isolation_level = psycopg.IsolationLevel.SERIALIZABLE


@retry(recurs(4) & exponential(0.05, 2).jittered(), on=(DeadlockDetected, SerializationFailure))
def add(name):
    with connection.transaction():
        row = connection.execute("select count(*) from names").fetchone()
        connection.execute("insert into names values (%s, %s)", (row[0] + 1, name))
