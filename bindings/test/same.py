"""What the locks answer, as threading's do: run with the recorder and without."""

import os
import threading

import witness

witness.patch()


def refused(function, *words):
    try:
        function(*words)
    except (RuntimeError, ValueError, TypeError, AssertionError) as error:
        return type(error).__name__
    return None


lock, again = threading.Lock(), threading.RLock()
print(lock.acquire(), lock.locked(), lock.acquire(False), lock.acquire(timeout=0.01), lock.release(), lock.locked())
print(refused(lock.release), refused(again.release), refused(lock.acquire, False, 1), refused(lock.acquire, True, -2))
print(again.acquire(), again.acquire(False), again.acquire(timeout=1), again.release(), again.release(), again.release())
print(refused(again.release))

limit, two, bounded = threading.Semaphore(), threading.Semaphore(2), threading.BoundedSemaphore(1)
print(limit.acquire(), limit.acquire(False), limit.acquire(timeout=0.01), limit.release(), limit.acquire())
print(two.acquire(), two.acquire(), two.acquire(False), two.release(), two.release())
print(refused(bounded.release), bounded.acquire(), bounded.release(), refused(bounded.release))
print(refused(threading.Semaphore, -1), refused(limit.acquire, False, 1))
thread = threading.Thread(target=limit.release)
thread.start()
thread.join()
print(limit.acquire(timeout=1))

condition = threading.Condition(lock)
print(refused(condition.wait), refused(condition.notify))
with condition:
    print(condition.wait(0.01), condition.wait_for(lambda: True, 0.01))
with threading.Condition() as got:
    print(got)

child = os.fork()
if child == 0:
    with lock, again:
        os._exit(3)
print(os.waitpid(child, 0)[1] >> 8)
event = threading.Event()
threading.Timer(0.01, event.set).start()
print(event.wait(60), threading.Barrier(1).wait())
