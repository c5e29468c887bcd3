"""Traces: their lines, and what the program is to write of them by each word."""

import re

from calls import Verifier
from rules import Fault
from shares import Shares, World, awaits, times_held

LONGEST = 4096
LIMITS = (256, 1023, 65_536, 65_536)
LAST = 2**32 - 1
NUMBERS = ("seat", "lock", "level")
MOST = {"seat": 65_535, "lock": LAST, "site": LAST}
DIGITS = r"(?:0|[1-9][0-9]*)"
NUMBER = rf"({DIGITS})"
NAME = r'"([ !#-~]{1,63})"'
CLASS = r"(mtx|spin|rw|sx)"
FIELDS = {
    "seat": NUMBER, "lock": NUMBER, "class": CLASS, "flags": r"(-|rd?|d)", "name": NAME,
    "mode": r"([sx])", "ops": r"(-|nd?f?|df?|f)", "site": rf"([!#-~]{{1,255}}:{DIGITS})",
    "letters": r"(-|(?=[ulsxrn])u?l?s?x?r?n?)", "warned": r"(-|gs?|s)", "level": r"(1|0|-1)",
}
# The verb of a line, the call, the fields, and of which version it is.
LINES = [
    ("init", "init", "seat class flags name", 1), ("init", "init", "seat class flags name name", 1),
    ("destroy", "destroy", "seat lock", 1), ("check", "check", "seat lock mode ops site", 1),
    ("lock", "note", "seat lock", 1), ("try", "note_try", "seat lock mode site", 1),
    ("giveup", "give_up", "seat lock", 1), ("unlock", "unlock", "seat lock mode", 1),
    ("upgrade", "upgrade", "seat lock", 1), ("downgrade", "downgrade", "seat lock", 1),
    ("norelease", "norelease", "seat lock", 1), ("releaseok", "releaseok", "seat lock", 1),
    ("assert", "assert_lock", "seat lock letters", 1), ("warn", "warn", "seat lock warned", 1),
    ("define", "define_order", "seat lock lock", 1), ("watch", "set_watch", "seat level", 1),
    ("take", "take", "seat lock", 2), ("trytake", "trytake", "seat lock mode", 2),
    ("free", "free", "seat lock", 2), ("rawup", "rawup", "seat lock", 2), ("rawdown", "rawdown", "seat lock", 2),
]


def form(verb, fields):
    return re.compile(" ".join([verb] + [FIELDS[field] for field in fields]))


FORMS = [(form(verb, fields.split()), verb, call, fields.split(), version) for verb, call, fields, version in LINES]
HEADER = re.compile(rf"witness-trace ([12]) seats {NUMBER} types {NUMBER} locks {NUMBER} chunks {NUMBER}")
ORDER = re.compile(rf"order(?: {CLASS} {NAME})+")
BLESS = re.compile(rf"bless {NAME} {NAME}")


class BadLine(Exception):
    def __init__(self, number, cause):
        super().__init__(f"line {number}: {cause}\n")
        self.number = number


def lines_of(text):
    """Each line with what is wrong with its end, if anything."""
    at = 0
    while at < len(text):
        end = text.find("\n", at, at + LONGEST + 1)
        if end < 0:
            yield text[at:], "long" if len(text) - at > LONGEST else "cut"
            return
        yield text[at:end], None
        at = end + 1


def parsed(line, version):
    """The verb, the call and its arguments, or None."""
    for form, verb, call, fields, since in FORMS:
        found = since <= version and form.fullmatch(line)
        if found:
            named = list(zip(fields, found.groups()))
            if any(int(text.rpartition(":")[2]) > MOST[field] for field, text in named if field in MOST):
                return None
            return verb, call, [int(text) if field in NUMBERS else text for field, text in named]
    return None


class Reading:
    """Reads a trace, and has each line of it taken by `takes`, which may refuse it."""

    def __init__(self, text, migrates=False):
        self.text, self.migrates = text, migrates
        self.verifier = None
        self.version, self.all_held = 1, False
        self.lists, self.blessed = [], set()
        self.sizes = None

    def read(self, takes):
        number = 0
        for number, (line, wrong) in enumerate(lines_of(self.text), 1):
            if not self.is_of_prelude(number, line, wrong):
                self.end_prelude()
                self.refuse_if(wrong, number, wrong)
                call = parsed(line, self.version)
                self.refuse_if(call is None, number, "syntax")
                try:
                    takes(number, line, call, self.verifier)
                except Fault as fault:
                    raise BadLine(number, fault) from None
            else:
                takes(number, line, None, None)
        self.refuse_if(number == 0, 1, "cut")
        self.end_prelude()
        return self.verifier

    def refuse_if(self, condition, number, cause):
        if condition:
            raise BadLine(number, cause)

    def is_of_prelude(self, number, line, wrong):
        if number == 1:
            self.refuse_if(wrong, 1, wrong)
            self.take_header(line)
            return True
        if self.verifier:
            return False
        if (number, line, wrong) == (2, "profile all", None):
            self.all_held = True
            return True
        if not line.startswith(("order ", "bless ")):
            return False
        self.refuse_if(wrong, number, wrong)
        if BLESS.fullmatch(line):
            self.blessed.add(frozenset(BLESS.fullmatch(line).groups()))
        else:
            self.refuse_if(not ORDER.fullmatch(line), number, "syntax")
            self.lists.append((number, re.findall(rf" {CLASS} {NAME}", line)))
        return True

    def take_header(self, line):
        found = HEADER.fullmatch(line)
        sizes = found and [int(size) for size in found.groups()[1:]]
        self.refuse_if(not found or max(sizes) > LAST, 1, "syntax")
        self.version, self.sizes = int(found[1]), sizes
        self.refuse_if(self.migrates and self.version == 2, 1, "version")
        self.refuse_if(not all(1 <= size <= most for size, most in zip(sizes, LIMITS)), 1, "limit")

    def end_prelude(self):
        if self.verifier:
            return
        self.verifier = (World if self.version == 2 else Verifier)(*self.sizes, self.all_held)
        self.verifier.blessed = self.blessed
        for number, listed in self.lists:
            try:
                self.verifier.enter_list(listed)
            except Fault as fault:
                raise BadLine(number, fault) from None


def hindrance(line, call, all_held):
    """Why a line stands against a clean trace; None where it doesn't."""
    verb, fields = (call[0], call[2]) if call else (line.partition(" ")[0], [])
    if verb == "bless":
        return "either order of two types is allowed"
    if verb == "init" and "d" in fields[2] or verb == "check" and "n" in fields[3] and "d" in fields[3]:
        return "a second lock of the type is allowed"
    if verb == "init" and fields[1] == "mtx" and fields[-1] == "Giant":
        return "the lock is Giant"
    if verb == "check" and "n" not in fields[3]:
        return "the request teaches no order"
    if verb == "try" and not all_held:
        return "a lock was tried"
    if verb == "watch" and fields[1] != 1:
        return "less than everything is watched"
    return None


def is_report(text):
    return text.startswith(("lock order reversal:", "acquiring duplicate lock of same type: ", "witness exhausted\n"))


def shown(word, text, told):
    """What the program writes by the word, and its status. There may be several circles: one that
    was told is judged."""
    texts, against = [], []
    reading = Reading(text)

    def takes(number, line, call, verifier):
        if call:
            texts.append(getattr(verifier, call[1])(*call[2]) or "")
        why = hindrance(line, call, reading.all_held)
        against.extend([f"line {number}: {why}"] if why else [])

    try:
        verifier = reading.read(takes)
    except BadLine as bad:
        return "".join(texts if word in ("replay", "state") else []) + str(bad), 3
    clean = against[0] if against else "reported" if any(map(is_report, texts)) else "clean"
    if word == "clean":
        return clean + "\n", int(clean != "clean")
    if word == "replay":
        return "".join(texts), min(verifier.reports, 1)
    if word == "state":
        return "".join(texts) + state(verifier, clean, told), min(verifier.reports, 1)
    if word == "graph":
        return graph(verifier), 0
    if word == "locks":
        return locks(verifier), 0
    return (told, int(told != "no circle\n")) if is_circle(verifier, told) else ("another circle, or none", 0)


def tabbed(*fields):
    return "\t".join(map(str, fields)) + "\n"


def state(verifier, clean, told):
    """What is known after the trace, in lines whose fields are parted by tabs."""
    modes = {"s": "shared", "x": "exclusive"}
    text = tabbed("clean", clean)
    for one, other in sorted(verifier.orders.origins):
        origin = verifier.orders.origins[one, other]
        text += tabbed("order", verifier.types[one - 1].name, verifier.types[other - 1].name, origin)
    for seat in range(1, verifier.seats + 1):
        held = verifier.newest_first(seat)
        for spin in (True, False):
            for one in held:
                if verifier.is_spin(one.lock) == spin:
                    text += tabbed("held", seat, one.lock, modes[one.mode], one.site)
        if seat in verifier.pending:
            asked = verifier.pending[seat]
            text += tabbed("asks", seat, asked.lock, modes[asked.mode], asked.site)
    return text + state_circle(verifier, told)


def state_circle(verifier, told):
    """The last line where seats wait in a circle: that which was told, if it is one."""
    last = told.rstrip("\n").rpartition("\n")[2].split("\t")
    if last[0] != "circle":
        return "" if not has_circle(verifier) else "another circle, or none\n"
    seats = [int(seat) for seat in last[1:]]
    waits = [awaits(verifier, one, other) for one, other in zip(seats, seats[1:] + seats[:1])]
    return tabbed("circle", *seats) if seats and all(waits) and seats[0] == min(seats) else "another circle, or none\n"


def graph(verifier):
    names = [f'"{type.name}"' for type in verifier.types]
    return "".join(f"{names[one - 1]},{names[other - 1]}\n" for one, other in sorted(verifier.orders.origins))


def locks(verifier):
    text = ""
    for seat in range(1, verifier.seats + 1):
        held = verifier.newest_first(seat)
        if held:
            text += f"seat {seat} holds:\n" + "".join(map(verifier.held_text, held))
    return text + f"free chunks: {verifier.free_chunks()}\n"


def is_circle(verifier, text):
    """Whether this is a circle of seats that wait, from the least of them on; or none is there."""
    if text == "no circle\n":
        return not has_circle(verifier)
    steps = re.findall(r' seat (\d+) waits for "(.*)" held by seat (\d+)\n', text)
    spelled = (f' seat {one} waits for "{name}" held by seat {other}\n' for one, name, other in steps)
    if text != "circle:\n" + "".join(spelled):
        return False
    seats = [int(seat) for seat, _, _ in steps]
    others = [int(other) for _, _, other in steps]
    awaited = [awaits(verifier, one, other) for one, other in zip(seats, others)]
    return (bool(seats) and others == seats[1:] + seats[:1] and seats[0] == min(seats)
            and all(lock and verifier.locks[lock - 1].name == name for lock, (_, name, _) in zip(awaited, steps)))


def has_circle(verifier):
    """Seats that wait for nobody who waits are struck out until none is left to be."""
    waiting = set(verifier.pending)
    while True:
        stuck = {seat for seat in waiting if any(awaits(verifier, seat, other) for other in waiting)}
        if stuck == waiting:
            return bool(waiting)
        waiting = stuck


def with_steps(verifier, shares, call, line):
    """Makes the call of a line, and gives the line with the raw steps beside it."""
    verb, name, (seat, lock, *others) = call
    lock = lock if isinstance(lock, int) else 0
    recorded, request = times_held(verifier, seat, lock), verifier.pending.get(seat)
    done = getattr(verifier, name)(*call[2])
    if verb == "lock" and not recorded:
        shares.take(seat, lock, request.mode)
        return [f"take {seat} {lock}", line]
    if verb == "try":
        shares.take(seat, lock, others[0])
        return [f"trytake {seat} {lock} {others[0]}", line]
    if verb == "upgrade":
        shares.raise_only(seat, lock)
        return [f"rawup {seat} {lock}", line]
    count = shares.of(seat, lock)
    if verb == "unlock" and count and (done is None or recorded <= count):
        shares.free(seat, lock)
        return [line, f"free {seat} {lock}"]
    if verb == "downgrade" and shares.exclusive.get(lock) == seat:
        shares.lower(seat, lock)
        return [line, f"rawdown {seat} {lock}"]
    return [line]


def migrated(text):
    """What the program writes by `migrate`, and its status."""
    written, shares = [], Shares()

    def takes(number, line, call, verifier):
        if number == 1:
            line = line.replace("witness-trace 1", "witness-trace 2", 1)
        lines = with_steps(verifier, shares, call, line) if call else [line]
        written.extend((number, one + "\n") for one in lines)

    try:
        Reading(text, migrates=True).read(takes)
    except BadLine as bad:
        return "".join(line for number, line in written if number < bad.number) + str(bad), 3
    return "".join(line for _, line in written), 0
