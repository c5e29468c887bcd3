"""Two locks without names that one line makes: they are taken in opposite orders, by threads that never meet."""

import threading

import witness

witness.patch()


def both(first, second):
    with first:
        with second:
            pass


def taken(left, right):
    for one, other in ((left, right), (right, left)):
        thread = threading.Thread(target=both, args=(one, other))
        thread.start()
        thread.join()


taken(threading.Lock(), threading.Lock())
