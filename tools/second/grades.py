"""What recordings tell of single locks and of threads, read once more by the rules, and the grade of a report by that."""

import re
from itertools import permutations

REASONS = ("thread", "gate", "readers", "timed", "apart", "waits")
NOT_KNOWN, TELLINGS = 2**32 - 1, 7
HOW = (("w", "wait"), ("p", "repeated"), ("l", "timed"))
LOST = re.compile(rb" missed seats [^ ]* types [^ ]* locks [^ ]* held ([^ ]*) log ([^ ]*)(?: .*)?", re.S)
MODES = {b"x": "exclusive", b"s": "shared"}


def lost_in(rest):
    """Whether what follows the version says that calls are missing, or what their thread held."""
    match = LOST.fullmatch(rest)
    return bool(match) and any(set(digits) - set(b"0") for digits in match.groups())


def number(digits):
    if not re.fullmatch(rb"0|[1-9][0-9]*", digits) or int(digits) > NOT_KNOWN:
        raise ValueError(digits)
    return int(digits)


def numbers(rest, count):
    """So many numbers, each after a space, and no more."""
    fields = rest.split(b" ")
    if len(fields) != count:
        raise ValueError(rest)
    return [number(field) for field in fields]


def lock_of(fields):
    """A lock of a pair, and the letters that tell more of it."""
    how = fields[3]
    if how[:1] not in MODES:
        raise ValueError(how)
    names = ("lock", "serial", "type")
    return dict(zip(names, map(number, fields[:3])), mode=MODES[how[:1]]), how[1:].decode("latin-1")


class Asking:
    """The one lock was asked for while the other was held."""

    def __init__(self, held, asked, how, under, besides):
        self.held, self.asked, self.how, self.under, self.besides = held, asked, how, under, besides
        self.deeds, self.further = [], None

    def told_again(self, held, asked, besides):
        self.held = held if held["lock"] else self.held
        self.asked = asked if asked["lock"] else self.asked
        both = []
        for one in self.besides:
            same = next((other for other in besides if other["serial"] == one["serial"]), None)
            if same:
                shared = "shared" in (one["mode"], same["mode"])
                both.append(dict(same, mode="shared" if shared else "exclusive"))
        self.besides = both

    def done(self, thread, when, place, further):
        deed = next((deed for deed in self.deeds if deed["thread"] == thread), None)
        if deed:
            deed["last"] = max(deed["last"], when)
        elif not further and len(self.deeds) < 2:
            self.deeds.append({"thread": thread, "first": when, "last": when, "place": place})
        if further and self.further is None:
            self.further = thread


class Heard:
    """What was told of single locks and of threads."""

    def __init__(self):
        self.asked, self.lives, self.reused, self.joins = {}, {}, set(), []
        self.many = self.lost = False

    def pair(self, rest):
        try:
            self.read_pair(rest.split(b" "))
        except ValueError:
            self.many = True

    def read_pair(self, fields):
        if len(fields) not in (13, 17, 21, 25, 29):
            raise ValueError(fields)
        _, thread, when, place, _ = [number(field) for field in fields[:5]]
        locks = [lock_of(fields[at:at + 4]) for at in range(5, len(fields), 4)]
        (held, letters), (asked, more) = locks[:2]
        besides = [lock for lock, _ in locks[2:]]
        how, under = next((word for letter, word in HOW if letter in more), "plain"), "u" in letters
        key = held["serial"], held["mode"], asked["serial"], asked["mode"], under, how
        if key in self.asked:
            self.asked[key].told_again(held, asked, besides)
        else:
            self.asked[key] = Asking(held, asked, how, under, besides)
        self.asked[key].done(thread, when, place, "m" in more)

    def life(self, rest):
        try:
            thread, *made = numbers(rest, 3)
        except ValueError:
            return
        if self.lives.setdefault(thread, made) != made:
            self.reused.add(thread)

    def joined(self, rest):
        try:
            self.joins.append(numbers(rest, 3))
        except ValueError:
            pass

    def tellers(self, types):
        """Who asked for a lock of these types while it held another one of them."""
        for asking in self.asked.values():
            if asking.held["type"] not in types or asking.asked["type"] not in types:
                continue
            for deed in asking.deeds:
                yield self.teller(asking, deed["thread"], deed)
            if asking.further is not None:
                yield self.teller(asking, asking.further, None)

    def teller(self, asking, thread, deed):
        def single(lock):
            return {name: lock[name] for name in ("lock", "serial", "mode")}
        last = NOT_KNOWN if not deed or self.lost or deed["last"] >= TELLINGS else deed["last"]
        place = (deed or (asking.deeds + [{"place": 0}])[0])["place"]
        return {"thread": thread, "known": bool(deed) and thread > 0 and thread not in self.reused,
                "further": not deed, "first": deed["first"] if deed else 0, "last": last, "place": place,
                "held": single(asking.held), "under": asking.under, "asked": single(asking.asked), "how": asking.how,
                "besides": [single(lock) for lock in asking.besides]}

    # ---- when threads were there

    def makings(self, thread):
        """How the thread was made, and its maker, and so on."""
        for _ in self.lives:
            maker, at = self.lives.get(thread, (0, 0))
            if not maker or thread in self.reused or maker in self.reused:
                return
            yield maker, at
            thread = maker

    def descends(self, fact, maker, since):
        return fact["known"] and any(made == (maker, at) and at >= since for made in self.makings(fact["thread"])
                                     for at in (made[1],))

    def had_ended(self, one, other):
        """Whether the one thread was joined before the other did so."""
        for thread, by, at in self.joins:
            if thread in self.reused or by in self.reused or not one["known"] or one["thread"] != thread:
                continue
            if (other["known"] and by == other["thread"] and at < other["first"]) or self.descends(other, by, at + 1):
                return True
        return False

    def is_apart(self, one, other):
        return self.had_ended(one, other) or one["last"] == 0 or (
            one["known"] and self.descends(other, one["thread"], one["last"]))

    # ---- circles

    def leads(self, one, other, why):
        """Whether the one's thread waits for good for the lock that the other's holds, for all that these reasons say."""
        kept_out = one["how"] == "wait" and one["asked"]["mode"] == "exclusive" and other["under"] and any(
            lock["serial"] == other["asked"]["serial"] and lock["mode"] == "exclusive" for lock in held(one))
        both_read = one["asked"]["mode"] == other["held"]["mode"] == "shared"
        return one["asked"]["serial"] == other["held"]["serial"] and not (
            ("readers" in why and both_read) or ("timed" in why and one["how"] == "timed") or ("waits" in why and kept_out))

    def meet(self, one, other, why):
        """Whether both can hold what they held at one time."""
        same = one["known"] and other["known"] and one["thread"] == other["thread"]
        gate = any(a["serial"] == b["serial"] and "exclusive" in (a["mode"], b["mode"])
                   for a in held(one) for b in held(other))
        return not (("thread" in why and same) or ("gate" in why and gate) or (
            "apart" in why and (self.is_apart(one, other) or self.is_apart(other, one))))

    def closes(self, circle, why):
        return bool(circle) and all(self.leads(one, other, why) for one, other in zip(circle, circle[1:] + circle[:1])) \
            and all(self.meet(one, other, why) for at, one in enumerate(circle) for other in circle[at + 1:]) \
            and any("waits" not in why or one["how"] != "wait" for one in circle)

    def any_closes(self, facts, why):
        return any(self.closes(list(circle), why) for length in range(1, len(facts) + 1)
                   for circle in permutations(facts, length))

    def differs(self, finding, types, count):
        """How the grade that was found differs from what may be said of these types; None where it doesn't."""
        facts, circle, everything = list(self.tellers(types)), finding["circle"], set(REASONS)
        alone = [reason for reason in REASONS if not self.closes(circle, {reason})]
        if finding["types"] != count or any(one not in facts for one in circle):
            return f"it isn't of the {count} types, or of what was told of them: {facts}"
        if finding["grade"] == "same":
            return None if self.closes(circle, everything) and not finding["reasons"] else "its circle doesn't close"
        if finding["grade"] == "kept" and (not self.closes(circle, set()) or finding["reasons"] != alone):
            return f"what keeps the circle is {alone}"
        if finding["grade"] in ("types", "unknown") and (circle or finding["reasons"]):
            return "it has a circle"
        if (finding["grade"] == "unknown") != (self.many or self.lost):
            return "facts are missing, or aren't"
        if len(facts) > 7:
            return None
        if self.any_closes(facts, everything):
            return "a circle closes"
        if finding["grade"] == "types":
            return "there is a circle" if self.any_closes(facts, set()) else None
        if finding["grade"] == "kept" and len(alone) > 1 and any(
                self.any_closes(facts, everything - {reason}) for reason in REASONS):
            return "one reason alone keeps a circle"
        return None


def held(fact):
    return [fact["held"]] + fact["besides"]
