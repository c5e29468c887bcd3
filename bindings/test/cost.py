"""What a lock and its release take, in microseconds of a processor: the interpreter's, and those that are told."""

import threading
import time
import timeit

import witness


def took(make, turns=20000):
    times = timeit.repeat("with lock: pass", globals={"lock": make()}, number=turns, repeat=9, timer=time.process_time)
    return min(times) / turns * 1e6


kinds = ("Lock", "RLock", "Condition", "Semaphore")
plain = [took(getattr(threading, kind)) for kind in kinds]
print("recorded:", witness.patch())
for kind, before in zip(kinds, plain):
    print("%-10s %6.2f %6.2f" % (kind, before, took(getattr(threading, kind))))
