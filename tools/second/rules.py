"""The rules of docs/RULES.md once more, read by themselves and without the definitions of the
crates: what `tools/compare` has the program compared with. It says how things are and doesn't care
how long it takes: what is before what is a set for each type, and a list is looked through.

A call answers the text that it tells, which is empty where it tells nothing, or None where it is
ignored. One that is refused raises a `Fault`, and changes nothing but what `World` has open.
"""

from dataclasses import dataclass

ON, QUIET, OFF = 1, 0, -1
CLASSES = {"mtx": "sleep mutex", "spin": "spin mutex", "rw": "rw", "sx": "sx"}
PER_CHUNK, MOST_FILES, DEEPEST = 5, 65_535, 65_535
NUMBERS = {
    "UnknownSeat": 1, "UnknownLock": 2, "ClassMismatch": 3, "TypesFull": 4, "LocksFull": 5,
    "SleepUnderSpin": 6, "SharedOfExclusive": 7, "ExclusiveOfShared": 8, "Recursed": 9,
    "RecursionTooDeep": 10, "NotLocked": 11, "SharedUnlock": 12, "ExclusiveUnlock": 13,
    "ForbiddenUnlock": 14, "NotUpgradable": 15, "UpgradeOfExclusive": 16, "UpgradeRecursed": 17,
    "DowngradeOfShared": 18, "DowngradeRecursed": 19, "WrongOrder": 20, "SameType": 21,
    "KindMismatch": 22, "Busy": 23, "Pending": 24, "NotRequested": 25, "WatchOff": 30,
    "ModeNotAllowed": 31, "FilesFull": 32, "RawNotFree": 35, "StepOrder": 36,
}


class Fault(Exception):
    def __init__(self, name):
        super().__init__(f"F{NUMBERS[name]} {name}")


def refuse_if(condition, name):
    if condition:
        raise Fault(name)


@dataclass
class Type:
    name: str
    kind: str  # the word of its class in a trace

    def is_giant(self):
        return self.name == "Giant" and self.kind == "mtx"


@dataclass
class Lock:
    name: str
    type: int
    flags: str
    live: bool = True


@dataclass
class Held:
    lock: int
    mode: str
    site: str
    count: int = 0
    norelease: bool = False


@dataclass
class Request:
    lock: int
    mode: str
    site: str


class Orders:
    """The adopted orders between numbers of types, with the place of each."""

    def __init__(self):
        self.origins = {}
        self.ancestors = {}

    def before(self, one, other):
        return one in self.ancestors.get(other, ())

    def adopt(self, parent, child, origin):
        if (parent, child) in self.origins:
            return
        self.origins[parent, child] = origin
        above = {parent} | self.ancestors.get(parent, set())
        below = {child} | {type for type in self.ancestors if self.before(child, type)}
        for type in below:
            self.ancestors[type] = self.ancestors.get(type, set()) | above

    def path(self, first, last):
        """Each time the least child that is the last type or is before it."""
        types = [first]
        while types[-1] != last:
            types.append(min(child for parent, child in self.origins
                             if parent == types[-1] and (child == last or self.before(child, last))))
        return list(zip(types, types[1:]))


class State:
    """What the calls and the views of a trace look at."""

    def __init__(self, seats, types, locks, chunks, all_held):
        self.seats, self.most_types, self.most_locks, self.chunks = seats, types, locks, chunks
        self.all_held = all_held
        self.types, self.locks = [], []
        self.blessed, self.found = set(), set()
        self.orders = Orders()
        self.files = set()
        self.groups = {}  # of a seat and a kind: its held locks in chunks, both oldest first
        self.pending = {}
        self.watch = ON
        self.reports = 0

    def type_named(self, name):
        """Its number, where types count from 1, or None."""
        return next((at for at, type in enumerate(self.types, 1) if type.name == name), None)

    def type_of(self, lock):
        return self.types[self.locks[lock - 1].type - 1]

    def type_number(self, lock):
        return self.locks[lock - 1].type

    def is_spin(self, lock):
        return self.type_of(lock).kind == "spin"

    def is_sleepable(self, lock):
        return self.type_of(lock).kind == "sx"

    def chain(self, seat, spin):
        return [held for chunk in self.groups.get((seat, spin), []) for held in chunk]

    def held(self, seat, lock):
        """How the seat holds the lock, or None."""
        chain = self.chain(seat, self.is_spin(lock))
        return next((held for held in chain if held.lock == lock), None)

    def newest_first(self, seat):
        return self.chain(seat, False)[::-1] + self.chain(seat, True)[::-1]

    def free_chunks(self):
        return self.chunks - sum(len(chunks) for chunks in self.groups.values())

    def enroll(self, name, kind):
        number = self.type_named(name)
        if number is None:
            self.types.append(Type(name, kind))
            number = len(self.types)
        return number

    def enter_list(self, listed):
        """A static list, of (class, name); its first fault of any place."""
        names = [name for _, name in listed]
        known = {type.name: type.kind for type in self.types}
        for kind, name in listed:
            refuse_if(known.setdefault(name, kind) != kind, "ClassMismatch")
        refuse_if(len(known) > self.most_types, "TypesFull")
        refuse_if(len({kind == "spin" for kind, _ in listed}) > 1, "KindMismatch")
        refuse_if(any(one == other for one, other in zip(names, names[1:])), "SameType")
        numbers = [self.enroll(name, kind) for kind, name in listed]
        for parent, child in zip(numbers, numbers[1:]):
            refuse_if(self.orders.before(child, parent), "WrongOrder")
            self.orders.adopt(parent, child, "listed")

    def lock_text(self, place, lock, site):
        type = self.type_of(lock)
        return f' {place} "{self.locks[lock - 1].name}" ({type.name}, {CLASSES[type.kind]}) @ {site}\n'

    def held_text(self, held):
        type = self.type_of(held.lock)
        mode = "exclusive" if held.mode == "x" else "shared"
        return (f'{mode} {CLASSES[type.kind]} "{self.locks[held.lock - 1].name}" ({type.name})'
                f" r = {held.count} @ {held.site}\n")

    def path_text(self, first, last):
        text = "established order:\n"
        for parent, child in self.orders.path(first, last):
            names = f'"{self.types[parent - 1].name}" -> "{self.types[child - 1].name}"'
            text += f" {names} @ {self.orders.origins[parent, child]}\n"
        return text
