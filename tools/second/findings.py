"""What recordings show, read once more by the rules: what `recorder/test/find` has `witness findings` compared with.

    python3 findings.py < RECORDING
    python3 findings.py --name < RECORDING

The second one writes the recording, with a name for each type before its first lock.
"""

import copy
import json
import re
import sys

from calls import Verifier
from grades import Heard, lost_in
from rules import CLASSES, Fault, ON
from verdict import GIANT, PLAIN, SLEEPABLE

VERSION, LONGEST, SEATS = 8, 4096, 256
PASSED = set("program object called blind place either site stack type crowded lent time errand went answer holder owner"
             .split())
HEARD = {"pair", "many", "life", "joined"}
KINDS = {PLAIN: "reversal", SLEEPABLE: "sleepable", GIANT: "giant"}
NAME = r'"([ !#-~]{1,63})"'
CLASS = "|".join(CLASSES)
# The fields of each word, where a number is one, and `w` any word.
FIELDS = {
    "asked": rb"N version N( .*)?", "name": rb"N " + NAME.encode(), "look": rb"",
    "init": rb"S (" + CLASS.encode() + rb") (-|s|r|rs) N N( .*)?", "thread": rb"S [^ ]* N N",
    "check": rb"S N ([sx]) [nk] N( N)?", "try": rb"S N ([sx]) N( N)?", "lock": rb"S N", "giveup": rb"S N",
    "unlock": rb"S N ([sx])", "again": rb"S N N", "foreign": rb"S N N",
    "error": rb"(ended|destroyed|freed|remade|waited|reread) S N N", "process": rb"N", "grade": rb"N",
}


def numbers(text, bounds):
    """The numbers of these digits, each without a needless zero and below its bound; else None."""
    read = []
    for digits, bound in zip(text, bounds):
        if not re.fullmatch(rb"0|[1-9][0-9]*", digits) or int(digits) >= bound:
            return None
        read.append(int(digits))
    return read


def fields(line):
    """The word of a line and what it says, or None."""
    word, space, rest = line.partition(b" ")
    word = word.decode("latin-1")
    if word in PASSED or word in HEARD:
        return word, [], [rest]
    if word not in FIELDS:
        return None
    if word == "look":
        return None if space else (word, [], [])
    shape, bounds = b"", []
    for part in re.split(rb"([NS])(?![a-z\]])", FIELDS[word]):
        if part in (b"N", b"S"):
            bounds.append(2**32 if part == b"N" else 2**16)
            part = rb"(?P<n%d>[0-9]+)" % len(bounds)
        shape += part
    match = re.fullmatch(shape, rest, re.S)
    if not match:
        return None
    at = [match.group(f"n{place}") for place in range(1, len(bounds) + 1)]
    read = numbers([digits for digits in at if digits is not None], [b for d, b in zip(at, bounds) if d is not None])
    if read is None:
        return None
    words = [group.decode("latin-1") for place, group in enumerate(match.groups(), 1)
             if group is not None and place not in match.re.groupindex.values()]
    return word, read, words


def process_of(line):
    """The process that the lines after this one are of, where it says so."""
    read = fields(line) if len(line) <= LONGEST else None
    return read[1][0] if read and read[0] == "process" else None


class Recording(Verifier):
    def __init__(self, process=None):
        super().__init__(SEATS, 1023, 65_536, 65_536, True)
        self.process = process
        self.names, self.own, self.threads, self.spots = {}, [], {}, []
        self.numbers = {}  # of a lock here, that of the recording
        self.calls = self.bad = 0
        self.giant = False
        self.shown, self.way = [], []
        self.heard, self.circles = Heard(), {}  # of reports of orders, by their lines, the types

    # What a report shows, in place of its text.
    def lock_text(self, place, lock, site):
        self.shown.append((lock, site))
        return ""

    def path_text(self, first, last):
        self.way = self.orders.path(first, last)
        return ""

    def spot(self, site):
        return self.spots[int(site[2:]) - 1]

    def lock_at(self, lock, site):
        type = self.type_of(lock)
        return {"lock": self.numbers[lock], "type": type.name, "class": type.kind, "at": self.spot(site)}

    def order(self, parent, child):
        names = self.types[parent - 1].name, self.types[child - 1].name
        return {"from": names[0], "to": names[1], "at": self.spot(self.orders.origins[parent, child])}

    def lock_number(self, lock):
        return self.own[lock - 1] if 1 <= lock <= len(self.own) else 0

    def asked_at(self, number, seat, place, stack=0):
        thread = self.threads.get(seat, 0)
        self.spots.append({"line": number, "seat": seat, "thread": thread, "place": place, "stack": stack})
        return f"@:{len(self.spots)}"

    def reported(self, number, text):
        heading = text.split("\n")[0]
        if heading == "witness exhausted":
            return [{"finding": "report", "line": number, "kind": "exhausted"}]
        locks = [self.lock_at(*one) for one in self.shown]
        duplicate = heading not in KINDS
        finding = {"finding": "report", "line": number, "kind": "duplicate" if duplicate else KINDS[heading],
                   "held": locks[-2], "asked": locks[-1]}
        if len(locks) == 3:
            finding["third"] = locks[0]
        if not duplicate:
            finding["path"] = [self.order(*step) for step in self.way]
        self.circles[number] = [locks[-1]["type"]] + [step["to"] for step in finding.get("path", [])]
        return [finding]

    def graded(self, line):
        """The grade of the report of that line: there may be several circles, so it says what is against one."""
        if line not in self.circles:
            raise ValueError("syntax")
        circle, heard = self.circles[line], copy.deepcopy(self.heard)
        types = {number for number, name in self.names.items() if name in circle}
        return [{"finding": "grade", "line": line,
                 "against": lambda finding: heard.differs(finding, types, len(circle))}]

    def hears(self, word, rest):
        if word == "many":
            self.heard.many = True
        else:
            {"pair": self.heard.pair, "life": self.heard.life, "joined": self.heard.joined}[word](rest)
        return []

    def called(self, number, call, *arguments):
        self.shown, self.way = [], []
        known = len(self.orders.origins)
        text = call(*arguments)
        self.calls += 1
        if text:
            return self.reported(number, text)
        return [{"finding": "order", "line": number, **self.order(*pair)}
                for pair in list(self.orders.origins)[known:]]

    def made(self, number, seat, kind, flags, type):
        self.own.append(0)
        if type not in self.names:
            raise ValueError("F29 BadName")
        found = self.called(number, self.init, seat, kind, "r" if "r" in flags else "", self.names[type])
        self.own[-1] = len(self.locks)
        self.numbers[len(self.locks)] = len(self.own)
        self.giant = self.giant or (kind == "mtx" and self.names[type] == "Giant")
        return found

    def misused(self, number, what, seat, lock, place):
        here = self.lock_number(lock)
        type = self.type_of(here).name if here else ""
        return [{"finding": "error", "line": number, "what": what, "seat": seat, "thread": self.threads.get(seat, 0),
                 "lock": lock, "type": type, "place": place}]

    def enter(self, number, word, at, words):
        if word in HEARD:
            return self.hears(word, words[0])
        if word == "asked":
            self.heard.lost = self.heard.lost or lost_in("".join(words).encode("latin-1"))
        elif word == "grade":
            return self.graded(at[0])
        elif word == "name":
            if at[0] in self.names:
                raise ValueError("syntax")
            self.names[at[0]] = words[0]
        elif word in ("error", "again", "foreign"):
            return self.misused(number, words[0] if words else word, *at)
        elif word == "init":
            return self.made(number, at[0], words[0], words[1], at[1])
        elif word == "thread":
            if not 1 <= at[0] <= SEATS:
                raise ValueError("F1 UnknownSeat")
            self.threads[at[0]] = at[2]
        elif word == "check":
            site = self.asked_at(number, at[0], *at[2:])
            return self.called(number, self.check, at[0], self.lock_number(at[1]), words[0], "n", site)
        elif word == "try":
            site = self.asked_at(number, at[0], *at[2:])
            return self.called(number, self.note_try, at[0], self.lock_number(at[1]), words[0], site)
        elif word == "lock":
            return self.called(number, self.note, at[0], self.lock_number(at[1]))
        elif word == "giveup":
            return self.called(number, self.give_up, at[0], self.lock_number(at[1]))
        elif word == "unlock":
            return self.called(number, self.unlock, at[0], self.lock_number(at[1]), words[0])
        return []

    def seat_lock(self, finding, seat, one):
        mode = "exclusive" if one.mode == "x" else "shared"
        return {"finding": finding, "seat": seat, "thread": self.threads.get(seat, 0), "mode": mode,
                "lock": self.lock_at(one.lock, one.site)}

    def waits(self, seat, other):
        asked = self.pending.get(seat)
        if not asked or seat == other or self.held(seat, asked.lock):
            return False
        held = self.held(other, asked.lock)
        return bool(held) and "x" in (held.mode, asked.mode)

    def circle(self):
        """The seats that can be followed round to themselves, least first; a way for each, shortest first."""
        seats = sorted(self.pending)
        for first in seats:
            ways = [[first]]
            seen = set()
            for way in ways:
                for other in seats:
                    if self.waits(way[-1], other):
                        if other == first:
                            return way
                        if other not in seen and other > first:
                            seen.add(other)
                            ways.append(way + [other])
        return None

    def state(self):
        found = []
        for seat in range(1, SEATS + 1):
            held = self.chain(seat, True)[::-1] + self.chain(seat, False)[::-1]
            found += [self.seat_lock("held", seat, one) for one in held]
            if seat in self.pending:
                found.append(self.seat_lock("asks", seat, self.pending[seat]))
        circle = self.circle()
        if circle:
            found.append({"finding": "circle", "seats": circle})
        clean = not self.giant and self.reports == 0 and self.watch == ON and self.bad == 0
        return found + [{"finding": "clean", "clean": clean}]

    def end(self):
        return self.state() + [{"finding": "end", "calls": self.calls, "reports": self.reports, "bad": self.bad}]

    def refused(self, number, why):
        self.bad += 1
        return [{"finding": "bad", "line": number, "why": why}]

    def line(self, number, line):
        """The findings of a line, and whether the reading goes on."""
        if len(line) > LONGEST:
            return self.refused(number, "long"), False
        read = fields(line)
        if read is None:
            if line.split(b" ")[0] == b"init":
                self.own.append(0)
            return self.refused(number, "syntax"), True
        word, at, words = read
        if word == "asked" and at[1] != VERSION:
            return self.refused(number, "version"), False
        if word == "look":
            return self.state(), True
        try:
            return self.enter(number, word, at, words), True
        except (Fault, ValueError) as fault:
            return self.refused(number, str(fault)), True


def of(recording, found):
    """These findings, with the number of the process that they are of."""
    for one in found:
        process = {} if recording.process is None else {"process": recording.process}
        yield {"finding": one["finding"], **process, **one}


def ends(recordings):
    """What is told at the end, by the numbers of processes."""
    for process in sorted(recordings, key=lambda number: -1 if number is None else number):
        yield from of(recordings[process], recordings[process].end())


def findings(text):
    """Those of recordings: lines may say which process those after them are of."""
    recording = Recording()
    recordings = {None: recording}
    *lines, last = text.split(b"\n")
    for number, line in enumerate(lines, 1):
        process = process_of(line)
        if process is not None:
            if number == 1:
                del recordings[None]
            recording = recordings.setdefault(process, Recording(process))
            continue
        found, goes = recording.line(number, line)
        yield from of(recording, found)
        if not goes:
            yield from ends(recordings)
            return
    if last:
        yield from of(recording, recording.refused(len(lines) + 1, "long" if len(last) > LONGEST else "cut"))
    yield from ends(recordings)


def named(text):
    """The recording, with names of types."""
    known = set()
    for line in text.rstrip(b"\0").splitlines(keepends=True):
        at = line.split(b" ")
        if at[0] == b"init" and len(at) > 4 and at[4].isdigit() and at[4] not in known:
            known.add(at[4])
            yield b'name %s "type %s"\n' % (at[4], at[4])
        yield line


if __name__ == "__main__":
    if "--name" in sys.argv:
        sys.stdout.buffer.write(b"".join(named(sys.stdin.buffer.read())))
    else:
        for finding in findings(sys.stdin.buffer.read()):
            finding.pop("against", None)
            print(json.dumps(finding, separators=(",", ":"), ensure_ascii=False))
