"""Retries of redis-py's commands. One that may not be made twice, such as INCR, is no function to retry: the server may
have made it although its answer did not come."""

import os

import redis
from redis.backoff import NoBackoff
from redis.retry import Retry

from hikebox import Quota, exponential, recurs, retry

# (newer versions of redis-py retry by themselves)
client = redis.Redis(port=int(os.environ.get("REDIS_PORT", "6379")), socket_timeout=1, retry=Retry(NoBackoff(), 0))
retried = retry(
    recurs(4) & exponential(0.05, 2).jittered(),
    on=(redis.ConnectionError, redis.TimeoutError),
    limit=Quota(reserve=10, share=0.1, per=60),
)


@retried
def read(key):
    return client.get(key)


@retried
def write(key, value):
    return client.set(key, value)
