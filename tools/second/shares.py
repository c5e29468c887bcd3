"""A verifier of which it is told too when a seat gets a share of a lock and when it lets one go:
the second version of the format."""

from dataclasses import dataclass

from calls import Verifier
from rules import Fault, refuse_if

ASKED, ASKED_AGAIN, TAKEN, TRIED, RAISED = "asked", "asked again", "taken", "tried", "raised"
UNLOCKED, UNLOCK_IGNORED, LOWERED, LOWERING_IGNORED = "unlocked", "unlock ignored", "lowered", "lowering ignored"
# What a line of these verbs has to come behind. All others are starts.
BEHIND = {
    "take": [ASKED], "lock": [TAKEN, ASKED_AGAIN], "giveup": [ASKED, ASKED_AGAIN], "try": [TRIED],
    "upgrade": [RAISED], "free": [UNLOCKED, UNLOCK_IGNORED], "rawdown": [LOWERED, LOWERING_IGNORED],
}


@dataclass
class Open:
    """What a seat has begun and may not have ended."""

    step: str
    lock: int
    mode: str = ""
    may_be_left: bool = False


class Shares:
    """How many shares of each lock each seat has, and who has it exclusive."""

    def __init__(self):
        self.counts = {}
        self.exclusive = {}

    def of(self, seat, lock):
        return self.counts.get((seat, lock), 0)

    def admit(self, lock, mode):
        refuse_if(lock in self.exclusive, "RawNotFree")
        anyone = any(count for (_, other), count in self.counts.items() if other == lock)
        refuse_if(mode == "x" and anyone, "RawNotFree")

    def take(self, seat, lock, mode):
        self.admit(lock, mode)
        self.counts[seat, lock] = self.of(seat, lock) + 1
        if mode == "x":
            self.exclusive[lock] = seat

    def free(self, seat, lock):
        self.counts[seat, lock] -= 1
        if self.exclusive.get(lock) == seat:
            del self.exclusive[lock]

    def raise_only(self, seat, lock):
        everyones = sum(count for (_, other), count in self.counts.items() if other == lock)
        refuse_if(lock in self.exclusive or (self.of(seat, lock), everyones) != (1, 1), "RawNotFree")
        self.exclusive[lock] = seat

    def lower(self, seat, lock):
        refuse_if(self.exclusive.get(lock) != seat, "RawNotFree")
        del self.exclusive[lock]


class World(Verifier):
    def __init__(self, *sizes):
        super().__init__(*sizes)
        self.shares = Shares()
        self.open = {}

    def in_place(self, seat, verb, lock=0, mode=""):
        now = self.open.get(seat)
        if verb in BEHIND:
            named = now and now.step in BEHIND[verb] and now.lock == lock
            refuse_if(not named or (verb == "try" and now.mode != mode), "StepOrder")
        else:
            refuse_if(now and not now.may_be_left, "StepOrder")
        self.open.pop(seat, None)
        return now

    def take(self, seat, lock):
        self.known(seat, lock)
        asked = self.in_place(seat, "take", lock)
        self.shares.take(seat, lock, asked.mode)
        self.open[seat] = Open(TAKEN, lock)
        return ""

    def trytake(self, seat, lock, mode):
        self.known(seat, lock)
        self.in_place(seat, "trytake")
        self.shares.take(seat, lock, mode)
        self.open[seat] = Open(TRIED, lock, mode)
        return ""

    def free(self, seat, lock):
        self.known(seat)
        if not 1 <= lock <= len(self.locks):
            raise Fault("UnknownLock")
        self.in_place(seat, "free", lock)
        refuse_if(self.shares.of(seat, lock) == 0, "StepOrder")
        self.shares.free(seat, lock)
        return ""

    def rawup(self, seat, lock):
        self.known(seat, lock)
        self.in_place(seat, "rawup")
        self.shares.raise_only(seat, lock)
        self.open[seat] = Open(RAISED, lock)
        return ""

    def rawdown(self, seat, lock):
        self.known(seat, lock)
        self.in_place(seat, "rawdown", lock)
        self.shares.lower(seat, lock)
        return ""

    def check(self, seat, lock, mode, options, site):
        text = super().check(seat, lock, mode, options, site)
        again = self.held(seat, lock) is not None
        self.open[seat] = Open(ASKED_AGAIN if again else ASKED, lock, mode)
        return text

    def unlock(self, seat, lock, mode):
        recorded = times_held(self, seat, lock)
        text = super().unlock(seat, lock, mode)
        if text is None:
            self.open[seat] = Open(UNLOCK_IGNORED, lock, may_be_left=True)
        else:
            left = recorded > self.shares.of(seat, lock)
            self.open[seat] = Open(UNLOCKED, lock, may_be_left=left)
        return text

    def downgrade(self, seat, lock):
        text = super().downgrade(seat, lock)
        if text is None:
            self.open[seat] = Open(LOWERING_IGNORED, lock, may_be_left=True)
        else:
            self.open[seat] = Open(LOWERED, lock)
        return text


def times_held(verifier, seat, lock):
    """How often the seat holds the lock by the record; none of a lock that was never made."""
    held = 1 <= lock <= len(verifier.locks) and verifier.held(seat, lock)
    return held.count + 1 if held else 0


def awaits(verifier, seat, other):
    """The lock that the seat waits for from the other, or None."""
    request = verifier.pending.get(seat)
    if seat == other or not request or verifier.held(seat, request.lock):
        return None
    if isinstance(verifier, World):
        if verifier.open[seat].step != ASKED or not verifier.shares.of(other, request.lock):
            return None
        exclusive = verifier.shares.exclusive.get(request.lock) == other
    else:
        held = verifier.held(other, request.lock)
        if not held:
            return None
        exclusive = held.mode == "x"
    return request.lock if exclusive or request.mode == "x" else None
