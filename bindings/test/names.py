"""What locks are called by where they go. No recorder is needed: the names are kept here."""

import re
import sys
import threading

import witness

names = []
witness._recorder, witness._handle = True, lambda: 1
witness._made_at = lambda lock, how, place, name: names.append(name.decode())
make_lock, make_again = witness.Lock, witness.RLock


def make():
    return make_lock()


class Pool:
    shared = make_lock()

    def __init__(self, given=None):
        self.first = make_lock()
        self.second, self.third = make_lock(), make_again()
        self.many = [make_lock() for _ in range(2)]
        self.pair = [make_lock(), make_lock()]
        self.by_name = {name: make_lock() for name in "a"}
        self.table = {"a": make_lock()}
        self.ready = threading.Condition(make_lock())
        self.given = given or make_lock()
        self.made = make()
        self.table["b"] = make_lock()
        self.one = self.other = make_lock()
        self.words = dict(lock=make_lock(), number=1)


class Deep(Pool):
    pass


def local():
    alone = make_lock()
    left, right = make_lock(), make_lock()
    with make_lock():
        pass
    return alone, left, right


alone = make_lock()
a, b, c = make_lock(), make_lock(), make_lock()
d, e, f, g = make_lock(), make_lock(), make_lock(), make_lock()
by_lambda = (lambda: make_lock())()
child = by_lambda._at_fork_reinit()
Deep()
local()
wanted = """Pool.shared names.alone names.a names.b names.c names.d names.e names.f names.g names.by_lambda names.by_lambda
Pool.first Pool.second Pool.third Pool.many Pool.many Pool.pair Pool.pair Pool.by_name Pool.table Pool.ready Pool.given
Pool.made Lock_(names.py:32) Pool.one Pool.words local().alone local().left local().right Lock_(names.py:44)"""
wanted = [word.replace("_(", " (") for word in wanted.split()]
# From 3.11 on a lock without a name has its column.
ends = [re.search(r":[0-9]+(:[0-9]+)?\)$", name) for name in names]
assert {bool(end.group(1)) for end in ends if end} == {sys.version_info >= (3, 11)}
names = [re.sub(r"(:[0-9]+):[0-9]+\)$", r"\1)", name) for name in names]
for has, wants in zip(names, wanted):
    if has != wants:
        print("named %s in place of %s" % (has, wants))
assert names == wanted
