"""The calls of a verifier, each with its faults in their order."""

import re

from rules import DEEPEST, Fault, Held, Lock, MOST_FILES, OFF, ON, PER_CHUNK, Request, State, refuse_if
from verdict import verdict


class Verifier(State):
    def known(self, seat, *locks):
        refuse_if(not 1 <= seat <= self.seats, "UnknownSeat")
        for lock in locks:
            refuse_if(not 1 <= lock <= len(self.locks) or not self.locks[lock - 1].live, "UnknownLock")

    def in_place(self, seat, verb, lock=0, mode=""):
        """Whether the seat may do this now: always, where no shares are told."""

    def not_pending(self, seat):
        refuse_if(seat in self.pending, "Pending")

    def enter_file(self, site):
        file = site.rpartition(":")[0]
        refuse_if(file not in self.files and len(self.files) == MOST_FILES, "FilesFull")
        self.files.add(file)

    def init(self, seat, kind, flags, name, type_name=None):
        self.known(seat)
        self.in_place(seat, "init")
        self.not_pending(seat)
        type_name = name if type_name is None else type_name
        number = self.type_named(type_name)
        refuse_if(number is not None and self.types[number - 1].kind != kind, "ClassMismatch")
        refuse_if(number is None and len(self.types) == self.most_types, "TypesFull")
        refuse_if(len(self.locks) == self.most_locks, "LocksFull")
        self.locks.append(Lock(name, self.enroll(type_name, kind), flags))
        return ""

    def destroy(self, seat, lock):
        self.known(seat, lock)
        self.in_place(seat, "destroy")
        self.not_pending(seat)
        refuse_if(any(request.lock == lock for request in self.pending.values()), "Busy")
        refuse_if(any(self.held(other, lock) for other in range(1, self.seats + 1)), "Busy")
        self.locks[lock - 1].live = False
        return ""

    def may_acquire(self, seat, lock, mode):
        refuse_if(mode == "s" and self.type_of(lock).kind in ("mtx", "spin"), "ModeNotAllowed")
        self.not_pending(seat)
        held = self.held(seat, lock)
        refuse_if(self.watch != OFF and held and held.count == DEEPEST, "RecursionTooDeep")

    def check(self, seat, lock, mode, options, site):
        self.enter_file(site)
        self.known(seat, lock)
        self.in_place(seat, "check")
        self.may_acquire(seat, lock, mode)
        text = verdict(self, seat, Request(lock, mode, site), options)
        self.pending[seat] = Request(lock, mode, site)
        return text

    def requested(self, seat, verb, lock):
        self.known(seat, lock)
        self.in_place(seat, verb, lock)
        refuse_if(seat not in self.pending or self.pending[seat].lock != lock, "NotRequested")
        return self.pending.pop(seat)

    def note(self, seat, lock):
        request = self.requested(seat, "lock", lock)
        return self.record(seat, request)

    def give_up(self, seat, lock):
        self.requested(seat, "giveup", lock)
        return ""

    def note_try(self, seat, lock, mode, site):
        self.enter_file(site)
        self.known(seat, lock)
        self.in_place(seat, "try", lock, mode)
        self.may_acquire(seat, lock, mode)
        return self.record(seat, Request(lock, mode, site))

    def record(self, seat, request):
        if self.watch == OFF:
            return ""
        held = self.held(seat, request.lock)
        if held:
            held.count += 1
            held.site = request.site
            return ""
        chunks = self.groups.setdefault((seat, self.is_spin(request.lock)), [])
        if not chunks or len(chunks[-1]) == PER_CHUNK:
            if self.free_chunks() == 0:
                self.watch = OFF
                self.reports += 1
                return "witness exhausted\n"
            chunks.append([])
        chunks[-1].append(Held(request.lock, request.mode, request.site))
        return ""

    def unlock(self, seat, lock, mode):
        self.known(seat, lock)
        self.in_place(seat, "unlock")
        self.not_pending(seat)
        held = self.held(seat, lock)
        if not held:
            refuse_if(self.watch == ON, "NotLocked")
            return None
        if self.watch == ON and held.mode != mode:
            raise Fault("SharedUnlock" if mode == "s" else "ExclusiveUnlock")
        if held.count > 0:
            held.count -= 1
            return ""
        refuse_if(self.watch == ON and held.norelease, "ForbiddenUnlock")
        self.forget(self.groups[seat, self.is_spin(lock)], held)
        return ""

    def forget(self, chunks, held):
        chunk = next(chunk for chunk in chunks if held in chunk)
        chunk.remove(held)
        if not chunk and len(chunks) > 1:
            del chunks[next(at for at, other in enumerate(chunks) if other is chunk)]

    def turn(self, seat, verb, lock, old, new, wrong, recursed):
        self.known(seat, lock)
        self.in_place(seat, verb, lock)
        self.not_pending(seat)
        refuse_if(self.type_of(lock).kind not in ("rw", "sx"), "NotUpgradable")
        held = self.held(seat, lock)
        if not held:
            refuse_if(self.watch == ON, "NotLocked")
            return None
        refuse_if(held.mode != old, wrong)
        refuse_if(held.count > 0, recursed)
        held.mode = new
        return ""

    def upgrade(self, seat, lock):
        return self.turn(seat, "upgrade", lock, "s", "x", "UpgradeOfExclusive", "UpgradeRecursed")

    def downgrade(self, seat, lock):
        return self.turn(seat, "downgrade", lock, "x", "s", "DowngradeOfShared", "DowngradeRecursed")

    def mark(self, seat, lock, norelease):
        self.known(seat, lock)
        self.in_place(seat, "norelease")
        self.not_pending(seat)
        if self.watch != ON:
            return None
        held = self.held(seat, lock)
        refuse_if(not held, "NotLocked")
        held.norelease = norelease
        return ""

    def norelease(self, seat, lock):
        return self.mark(seat, lock, True)

    def releaseok(self, seat, lock):
        return self.mark(seat, lock, False)

    def define_order(self, seat, first, second):
        self.known(seat, first, second)
        self.in_place(seat, "define")
        self.not_pending(seat)
        if self.watch == OFF:
            return None
        parent, child = self.type_number(first), self.type_number(second)
        refuse_if(self.is_spin(first) != self.is_spin(second), "KindMismatch")
        refuse_if(parent == child, "SameType")
        refuse_if(self.orders.before(child, parent), "WrongOrder")
        self.orders.adopt(parent, child, "defined")
        return ""

    def set_watch(self, seat, level):
        self.known(seat)
        self.in_place(seat, "watch")
        self.not_pending(seat)
        refuse_if(self.watch == OFF and level != OFF, "WatchOff")
        self.watch = level
        return ""

    def assert_lock(self, seat, lock, letters):
        self.known(seat, lock)
        words = self.watch == ON and asserted(self.held(seat, lock), letters)
        if not words:
            return ""
        self.reports += 1
        return f'assert "{self.locks[lock - 1].name}": {words}\n'

    def warn(self, seat, lock, letters):
        self.known(seat, *([lock] if lock else []))
        if self.watch != ON:
            return ""
        sleep = [held for held in self.chain(seat, False)[::-1]
                 if held.lock != lock
                 and not ("g" in letters and self.type_of(held.lock).is_giant())
                 and not ("s" in letters and self.is_sleepable(held.lock))]
        spin = self.chain(seat, True)[::-1]
        if not sleep and [held.lock for held in spin] == [lock]:
            spin = []
        if not sleep + spin:
            return ""
        self.reports += 1
        return f"{len(sleep + spin)} locks held:\n" + "".join(map(self.held_text, sleep + spin))


def asserted(held, letters):
    """What an assertion says that fails, or None."""
    if letters != "u" and not re.fullmatch("[lsx][rn]?", letters):
        return "Invalid lock assertion"
    if letters == "u":
        return "locked" if held else None
    if not held:
        return "not locked"
    if "x" in letters and held.mode == "s":
        return "not exclusively locked"
    if "s" in letters and held.mode == "x":
        return "exclusively locked"
    if "r" in letters and held.count == 0:
        return "not recursed"
    if "n" in letters and held.count > 0:
        return "recursed"
    return None
