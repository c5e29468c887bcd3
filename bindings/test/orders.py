"""Reversals of what stands on threading's locks: each kind in turn, by one thread."""

import logging
import queue
import sys
import threading

import witness

assert witness.patch() == (threading.Lock is witness.Lock)
registry = threading.RLock()


class Pool:
    limit = threading.Semaphore(1)

    def __init__(self):
        self.ready = threading.Condition()
        self.locks = [threading.Lock() for _ in range(2)]


def make():
    return threading.Lock()


class Stream:
    def write(self, text):
        with registry:
            sys.stdout.write(text)

    def flush(self):
        pass


pool = Pool()
made = make()
jobs = queue.Queue()
with registry:
    with registry:
        with pool.limit:
            pass
with pool.limit:
    with registry:
        pass
with pool.ready:
    with made:
        assert not pool.ready.wait(0.001)
with made:
    jobs.put(1)
with jobs.mutex:
    with made:
        pass
with pool.locks[0]:
    with pool.locks[1]:
        pass
handler = logging.StreamHandler(Stream())
record = logging.LogRecord("name", 30, __file__, 1, "told", (), None)
with registry:
    with handler.lock:
        pass
handler.handle(record)
