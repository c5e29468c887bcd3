"""Traces at random. A line that would be refused is mostly made anew, so that they get long."""

from calls import Verifier
from rules import CLASSES, Fault
from shares import Shares, World, times_held
from traces import parsed

NAMES = ["A", "B", "C", "D", "E", "Giant", "a b", "x:y", "Z" * 63, "'", "\\", "~"]
FILES = ["f", "g", "a:b", ":", "f/g.c", "z" * 255]
NUMBERS = [0, 1, 2, 3, 7, 12, 123, 1234, 99_999, 4_294_967_295]
ASSERTED = "u l s x lr ln sr sn xr xn - ul r rn ulsxrn lx".split()
ODD_WORDS = (
    "0 1 00 01 -1 256 257 1023 1024 65535 65536 65537 4294967295 4294967296 99999999999999999999 x s X - n nd dn ndf nn"
    ' r rd dr ul lu gs sg f:01 f: :1 a:b:2 "a" "" "a mtx sx spin lock order bless profile take free \x7f'
).split() + ["", "f" * 255 + ":1", "f" * 256 + ":1", '"' + "n" * 64 + '"', "z" * 4096, "z" * 4097]
TRIES = 30


class Maker:
    def __init__(self, random):
        self.random = random
        self.version = 2 if random.random() < 0.45 else 1
        self.all_held = random.random() < 0.35
        self.sizes = [random.choice(sizes) for sizes in (
            [1, 2, 2, 3, 3, 4, 6], [2, 3, 4, 6, 8, 12], [3, 6, 10, 16, 40], [1, 2, 3, 5, 8, 20, 40])]
        if random.random() < 0.08:
            self.sizes = [256, 1023, 65_536, 65_536]
        self.names = random.sample(NAMES, random.randint(2, min(len(NAMES), self.sizes[1] + 1)))
        kinds = random.choice([["mtx", "sx", "rw"], ["mtx", "mtx", "rw", "sx", "sx", "spin"]])
        self.kinds = {name: random.choice(kinds) for name in NAMES}
        if random.random() < 0.7:
            self.kinds["Giant"] = "mtx"
        # Whether each lock is free when it is acquired, in the first version too.
        self.admits = random.random() < 0.6
        self.holds = random.choice([0.25, 0.4, 0.6, 0.85])
        self.is_quiet = random.random() < 0.15
        self.lines = []

    def trace(self):
        if not self.make_prelude():
            return self.text()
        random = self.random
        for _ in range(random.choice([5, 20, 50, 100, 200])):
            self.add(self.any_line)
        if random.random() < 0.4:
            # So that some wait for one another in the end.
            for seat in range(1, min(self.verifier.seats, 6) + 1):
                self.add(lambda: self.request_of_held(seat))
        if random.random() < 0.35:
            make = random.choice([self.acquisition, self.on_held, self.other, self.other, self.init])
            while self.accepts(make(random.randint(1, self.verifier.seats))):
                pass
        return self.text()

    def text(self):
        return "\n".join(self.lines) + "\n"

    def fresh(self):
        verifier = (World if self.version == 2 else Verifier)(*self.sizes, self.all_held)
        self.shares = verifier.shares if self.version == 2 else Shares()
        return verifier

    def make_prelude(self):
        """Whether a line behind it is read: a list that is refused ends the trace."""
        random = self.random
        sizes = "seats {} types {} locks {} chunks {}".format(*self.sizes)
        self.lines.append(f"witness-trace {self.version} {sizes}")
        if self.all_held:
            self.lines.append("profile all")
        for _ in range(random.choice([0, 0, 0, 0, 1, 2])):
            self.lines.append('bless "{}" "{}"'.format(*random.choices(self.names, k=2)))
        self.verifier = self.fresh()
        lists = []
        for _ in range(random.choice([0, 0, 0, 1, 1, 2, 3])):
            listed = [(self.kinds[name], name) for name in random.choices(self.names, k=random.randint(1, 4))]
            order = "order " + " ".join(f'{kind} "{name}"' for kind, name in listed)
            try:
                self.verifier.enter_list(listed)
            except Fault:
                if random.random() < 0.1:
                    self.lines.append(order)
                    return False
                self.verifier = self.fresh()
                for entered in lists:
                    self.verifier.enter_list(entered)
            else:
                self.lines.append(order)
                lists.append(listed)
        return True

    def add(self, make):
        """A line that isn't refused, if one is found soon."""
        for _ in range(TRIES):
            if self.accepts(make()):
                return
            self.lines.pop()

    def accepts(self, line):
        """Adds the line, and tells whether it isn't refused."""
        self.lines.append(line)
        verb, call, values = parsed(line, self.version)
        begun = dict(self.verifier.open) if self.version == 2 else {}
        try:
            if self.version == 1 and self.admits:
                self.share(verb, values)
            getattr(self.verifier, call)(*values)
        except Fault:
            self.verifier.open = begun
            return False
        return True

    def share(self, verb, values):
        """Follows who has what, roughly; a line that no lock would admit is refused."""
        seat, lock, *others = values
        if verb == "lock" and seat in self.verifier.pending and not times_held(self.verifier, seat, lock):
            self.shares.take(seat, lock, self.verifier.pending[seat].mode)
        elif verb == "try":
            self.shares.take(seat, lock, others[0])
        elif verb == "upgrade":
            self.shares.raise_only(seat, lock)
        elif verb == "unlock" and self.shares.of(seat, lock) >= max(times_held(self.verifier, seat, lock), 1):
            self.shares.free(seat, lock)
        elif verb == "downgrade" and self.shares.exclusive.get(lock) == seat:
            self.shares.lower(seat, lock)

    def any_line(self):
        random, verifier = self.random, self.verifier
        seats = verifier.seats
        odd = random.random() < 0.01
        seat = random.choice([0, seats, seats + 1, 65_535]) if odd else random.randint(1, min(seats, 6))
        begun = self.behind(seat)
        if begun and random.random() < 0.85:
            return begun
        count = len(verifier.locks)
        if count < 2 or random.random() < (0.25 if count < 6 else 0.08):
            return self.init(seat)
        if random.random() < self.holds:
            return self.acquisition(seat)
        if random.random() < 0.8:
            return self.on_held(seat)
        return self.other(seat)

    def behind(self, seat):
        """What a seat has to do next that has begun something."""
        random, request = self.random, self.verifier.pending.get(seat)
        if self.version == 1:
            return f"{random.choice(['lock'] * 9 + ['giveup'])} {seat} {request.lock}" if request else None
        begun = self.verifier.open.get(seat)
        if not begun:
            return None
        gives_up = random.random() < 0.15
        verb = {"asked": "giveup" if gives_up else "take", "asked again": "giveup" if gives_up else "lock",
                "taken": "lock", "tried": "try", "raised": "upgrade"}.get(begun.step)
        if verb == "try":
            return f"try {seat} {begun.lock} {begun.mode} {self.site()}"
        return f"{verb or ('free' if 'unlock' in begun.step else 'rawdown')} {seat} {begun.lock}"

    def site(self):
        files = FILES if self.random.random() < 0.1 else FILES[:3]
        return f"{self.random.choice(files)}:{self.random.choice(NUMBERS)}"

    def lock(self):
        count = len(self.verifier.locks)
        if self.random.random() < 0.01 or not count:
            return self.random.choice([0, count + 1, 4_294_967_295])
        return self.random.randint(1, count)

    def init(self, seat):
        random = self.random
        name, type_name = random.choice(self.names), random.choice(self.names) if random.random() < 0.6 else None
        kind = self.kinds[type_name or name] if random.random() < 0.97 else random.choice(list(CLASSES))
        line = f'init {seat} {kind} {random.choice(["-", "-", "-", "r", "d", "rd"])} "{name}"'
        return line + f' "{type_name}"' if type_name else line

    def acquisition(self, seat):
        random, lock = self.random, self.lock()
        made = 1 <= lock <= len(self.verifier.locks)
        mode = random.choice("sx") if made and self.verifier.type_of(lock).kind in ("rw", "sx") else "x"
        if random.random() < 0.15:
            return f"trytake {seat} {lock} {mode}" if self.version == 2 else f"try {seat} {lock} {mode} {self.site()}"
        options = "".join(letter for letter, part in (("n", 0.9), ("d", 0.06), ("f", 0.1)) if random.random() < part)
        return f"check {seat} {lock} {mode} {options or '-'} {self.site()}"

    def request_of_held(self, seat):
        others = [other for other in range(1, min(self.verifier.seats, 6) + 1) if other != seat]
        held = [one for other in others for one in self.verifier.newest_first(other)]
        if not held:
            return self.acquisition(seat)
        lock = self.random.choice(held).lock
        mode = self.random.choice("sx") if self.verifier.type_of(lock).kind in ("rw", "sx") else "x"
        return f"check {seat} {lock} {mode} n {self.site()}"

    def on_held(self, seat):
        random, held = self.random, self.verifier.newest_first(seat)
        lock, mode = self.lock(), random.choice("sx")
        if held and random.random() < 0.97:
            one = random.choice(held) if random.random() < 0.5 else held[0]
            lock, mode = one.lock, one.mode if random.random() < 0.95 else mode
        verb = random.choices(["unlock", "upgrade", "downgrade", "norelease", "releaseok"], [70, 10, 10, 3, 6])[0]
        if verb == "unlock":
            return f"unlock {seat} {lock} {mode}"
        return f"{'rawup' if verb == 'upgrade' and self.version == 2 else verb} {seat} {lock}"

    def other(self, seat):
        random, lock = self.random, self.lock()
        verb = random.choices(["assert", "warn", "define", "destroy", "watch", "stray"], [30, 30, 20, 10, 10, 5])[0]
        if verb == "watch" and random.random() < (0.9 if self.is_quiet else 0.1):
            return f"watch {seat} {random.choice([1, 0, 1, 0, -1])}"
        if verb == "warn":
            return f"warn {seat} {random.choice([0, lock])} {random.choice(['-', 'g', 's', 'gs'])}"
        if verb == "define":
            return f"define {seat} {lock} {self.lock()}"
        if verb == "destroy":
            return f"destroy {seat} {lock}"
        if verb == "stray":
            raw = ["take", "free", "rawup", "rawdown"] if self.version == 2 else []
            return f"{random.choice(['lock', 'giveup', 'upgrade', 'downgrade'] + raw)} {seat} {lock}"
        return f"assert {seat} {lock} {random.choice(ASSERTED)}"


def changed(random, text):
    """The trace with a byte, a word or a line added, left out or turned; or cut."""
    for _ in range(random.choice([1, 1, 1, 2, 3])):
        lines = text.split("\n")
        at, one, other = random.randrange(len(text)), random.randrange(len(lines)), random.randrange(len(lines))
        byte = random.choice('0123456789 "sx:-ndfr\r\0\xff\n')
        words = lines[one].split(" ")
        words[random.randrange(len(words))] = random.choice(ODD_WORDS)
        text = random.choice([
            text[:at] + text[at + 1:], text[:at] + byte + text[at:], text[:at] + byte + text[at + 1:],
            "\n".join(lines[:one] + [" ".join(words)] + lines[one + 1:]),
            "\n".join(lines[:one] + lines[one + 1:]), "\n".join(lines[:one] + [lines[other]] + lines[one:]),
            text[:at],
        ]) or "\n"
    return text


def trace(random):
    text = Maker(random).trace()
    return changed(random, text) if random.random() < 0.2 else text
