"""A hundred threads that take the same locks, each in its way, and let go of them as it comes; what they count is right."""

import threading

import witness

witness.patch()
total = 0
seen = 0
lock = threading.Lock()
again = threading.RLock()
limit = threading.Semaphore(1)
ready = threading.Condition()
waiting = 0


def work(number):
    global total, seen, waiting
    for turn in range(20):
        with lock:
            total += 1
            with again:
                with again:
                    seen += 1
        if limit.acquire(timeout=60):
            try:
                if lock.acquire(blocking=False):
                    lock.release()
            finally:
                limit.release()
    with ready:
        waiting += 1
        if waiting == 100:
            ready.notify_all()
        assert ready.wait_for(lambda: waiting == 100, timeout=60)


threads = [threading.Thread(target=work, args=(number,)) for number in range(100)]
for thread in threads:
    thread.start()
for thread in threads:
    thread.join()
print(total, seen, waiting)
