"""A helper takes the locks: its line says nothing, and its callers do."""

import contextlib
import threading

import witness

witness.patch()
accounts = threading.Lock()
journal = threading.Lock()


def take(lock):
    lock.acquire()


@contextlib.contextmanager
def both(first, second):
    take(first)
    take(second)
    yield
    second.release()
    first.release()


def transfer():
    with both(accounts, journal):
        pass


def audit():
    with both(journal, accounts):
        pass


transfer()
audit()
