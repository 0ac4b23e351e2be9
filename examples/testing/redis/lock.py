"""The adapter of a lock in Redis, with three clients. LOCK=careless gives the lock back without looking at the owner.

REDIS_SOCKET is the socket of the server; without it the server is the one on this machine.
"""
import os

import redis

from cspwatch_client.testing import does

outputs = ["granted", "busy"]
quiet = "0"  # The answer is there when a call returns.

KEY = "lock-of-job-" + os.environ.get("CSPWATCH_TEST_JOB", "1")
LEASE_SECONDS = 3600
GIVE_BACK = "if redis.call('get', KEYS[1]) == ARGV[1] then return redis.call('del', KEYS[1]) end return 0"


class Lock:
    """A client of the lock, under test."""

    def __init__(self, name):
        socket = os.environ.get("REDIS_SOCKET")
        self.name = name
        self.redis = redis.Redis(unix_socket_path=socket) if socket else redis.Redis()

    def acquire(self):
        return self.redis.set(KEY, self.name, nx=True, ex=LEASE_SECONDS)

    def release(self):
        self.redis.eval(GIVE_BACK, 1, KEY, self.name)


class CarelessLock(Lock):
    """The planted fault."""

    def release(self):
        self.redis.delete(KEY)


clients = [(CarelessLock if os.environ.get("LOCK") == "careless" else Lock)("client %d" % number) for number in range(3)]
seen = []


def reset():
    clients[0].redis.delete(KEY)
    seen.clear()


@does("ask.{c}")
def ask(c):
    seen.append("%s.%d" % ("granted" if clients[c].acquire() else "busy", c))


@does("release.{c}")
def release(c):
    clients[c].release()


@does("expire")
def expire():
    clients[0].redis.pexpire(KEY, 0)


def observe(wait):
    answers = list(seen)
    seen.clear()
    return answers
