"""What a check says of a request: the first rule that applies decides."""

from rules import ON, refuse_if

SLEEPABLE = "lock order reversal: (sleepable after non-sleepable)"
GIANT = "lock order reversal: (Giant after non-sleepable)"
PLAIN = "lock order reversal:"


def verdict(state, seat, request, options):
    """The text of the report, if any. A request that is refused raises a `Fault`."""
    if state.watch != ON:
        return ""
    lock = request.lock
    spin = state.is_spin(lock)
    refuse_if(not spin and state.chain(seat, True), "SleepUnderSpin")
    chain = state.chain(seat, spin)
    held = state.held(seat, lock)
    if held:
        recurses(state, held, request.mode, options)
        return ""
    if not chain:
        return ""
    type = state.type_number(lock)
    looked_at = chain if state.all_held else chain[-1:]
    of_type = [held for held in looked_at if state.type_number(held.lock) == type]
    if of_type:
        return doubled(state, of_type[-1], request, options)
    if all((state.type_number(held.lock), type) in state.orders.origins for held in looked_at):
        return ""
    for at in reversed(range(len(chain))):
        heading = violates(state, chain[at].lock, lock)
        if heading:
            return reversed_order(state, heading, chain[:at], chain[at], request)
    if "n" in options:
        learn(state, looked_at, request)
    return ""


def recurses(state, held, mode, options):
    refuse_if(held.mode == "x" and mode == "s", "SharedOfExclusive")
    refuse_if(held.mode == "s" and mode == "x", "ExclusiveOfShared")
    refuse_if("f" in options, "Recursed")
    refuse_if(mode == "x" and "r" not in state.locks[held.lock - 1].flags, "Recursed")


def doubled(state, held, request, options):
    type = state.type_number(request.lock)
    if "d" in options or "d" in state.locks[request.lock - 1].flags or (type, type) in state.found:
        return ""
    state.found.add((type, type))
    state.reports += 1
    return (f'acquiring duplicate lock of same type: "{state.types[type - 1].name}"\n'
            + state.lock_text("1st", held.lock, held.site)
            + state.lock_text("2nd", request.lock, request.site))


def violates(state, held, lock):
    """The heading of the violation, or None."""
    if state.type_of(lock).is_giant():
        return None if state.is_sleepable(held) else GIANT
    if state.is_sleepable(lock):
        if state.type_of(held).is_giant():
            return None
        if not state.is_sleepable(held):
            return SLEEPABLE
    return PLAIN if state.orders.before(state.type_number(lock), state.type_number(held)) else None


def reversed_order(state, heading, older, held, request):
    type, against = state.type_number(request.lock), state.type_number(held.lock)
    if (type, against) in state.found:
        return ""
    state.found |= {(type, against), (against, type)}
    if frozenset((state.types[type - 1].name, state.types[against - 1].name)) in state.blessed:
        return ""
    state.reports += 1
    shown = [held, request]
    of_type = [other for other in older if state.type_number(other.lock) == type]
    if of_type:
        shown.insert(0, of_type[-1])
    text = heading + "\n"
    for place, one in zip(("1st", "2nd", "3rd"), shown):
        text += state.lock_text(place, one.lock, one.site)
    if state.orders.before(type, against):
        text += state.path_text(type, against)
    return text


def learn(state, held_locks, request):
    """Newest first, but for a sleepable lock under Giant and for Giant that is before the other."""
    type = state.type_number(request.lock)
    for held in reversed(held_locks):
        parent = state.type_number(held.lock)
        under_giant = state.type_of(held.lock).is_giant() and state.is_sleepable(request.lock)
        if not under_giant and not state.orders.before(type, parent):
            state.orders.adopt(parent, type, request.site)
