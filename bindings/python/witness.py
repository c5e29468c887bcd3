"""Tells the recorder what a program in Python does with its locks.

    record -- python3 -m witness SCRIPT ARGS..        or -m MODULE ARGS..
    import witness; witness.patch()                   first of all in a program of your own

From then on threading.Lock, RLock, Semaphore and BoundedSemaphore make locks that tell of each step, and so do those that
stand on them: Condition, queue's, logging's. A report has the lines of the Python source. A lock's type is what it is
called where it is made: `Account.lock` of an attribute, `bank.accounts` of a module's variable, `transfer().lock` of a
local one, and else `Lock (bank.py:12)`. Where no recorder is loaded, nothing is changed.

A lock of one's own is told by a Watched. For Python 3.8 and later, CPython, with nothing but its own library.
"""

import atexit
import ctypes
import dis
import importlib.machinery
import itertools
import os
import sys
import threading
import _thread

__version__ = "0.5.0"
__all__ = ["patch", "is_recorded", "nested", "Lock", "RLock", "Semaphore", "BoundedSemaphore", "Watched"]

MUTEX, READ, WRITE = range(3)
_LABEL_MOST = 63
# Functions of these modules say nothing about a call: their caller is its place.
_PASSED = frozenset(("witness", "threading", "queue", "logging", "logging.handlers", "contextlib", "runpy"))
_allocate = _thread.allocate_lock
_get_ident = _thread.get_ident


def _nothing(*_):
    return 0


def _functions():
    """The recorder's functions, as recorder/witness.h declares them, or nothing at all."""
    lock, number, text = ctypes.c_size_t, ctypes.c_uint, ctypes.c_char_p
    found = {}
    for name, answer, words in (
        ("handle", lock, ()),
        ("place", number, (text, number, text)),
        ("made_at", None, (lock, ctypes.c_int, number, text)),
        ("asked_at", None, (lock, ctypes.c_int, number)),
        ("acquired", None, (lock,)),
        ("gave_up", None, (lock,)),
        ("tried_at", None, (lock, ctypes.c_int, number)),
        ("released_at", None, (lock, number)),
        ("destroyed", None, (lock,)),
        ("makes_at", None, (number,)),
        ("callers", None, (ctypes.POINTER(number), number)),
    ):
        try:
            # With the interpreter's lock held: the recorder waits for no lock of the program.
            function = getattr(ctypes.PyDLL(None), "witness_recorder_" + name)
        except (AttributeError, OSError, TypeError):
            return {}
        function.restype, function.argtypes = answer, words
        found[name] = function
    return found


_recorder = _functions()
_handle, _number, _made_at, _asked_at, _acquired_it, _gave_up, _tried_at, _released_at, _destroyed, _makes, _callers = (
    _recorder.get(name, _nothing)
    for name in (
        "handle", "place", "made_at", "asked_at", "acquired", "gave_up", "tried_at", "released_at", "destroyed", "makes_at",
        "callers",
    )
)
# So many callers are told: those of what is asked for while something is held, and of the first acquisitions at each place.
_ABOVE = int(os.environ.get("RECORDER_FRAMES", "1")) - 1 if _recorder else 0
_FIRST = 16


def is_recorded():
    """Whether there is a recorder to be told."""
    return bool(_recorder)


# Places: numbers by code and instruction. The code is kept, so that its number in memory stays its own.
_places = {}


def _outside(frame):
    """The first frame that says something about a call."""
    while frame.f_globals.get("__name__") in _PASSED and frame.f_code.co_name != "<module>" and frame.f_back is not None:
        frame = frame.f_back
    return frame


def _entry(frame):
    """What is known of the place in that frame: its number, the code, and how many acquisitions there tell their callers."""
    code = frame.f_code
    key = id(code), frame.f_lasti
    known = _places.get(key)
    if known is None:
        number = _number(os.fsencode(code.co_filename), frame.f_lineno or 0, _function(code))
        known = _places[key] = [number, code, _FIRST if _ABOVE > 0 else 0]
    return known


def _place(frame):
    """The number of the place in the first frame that says something."""
    return _entry(_outside(frame))[0]


# How many locks each thread has, as far as it has released them itself.
_held = {}
# How often a thread asked for a lock while it held another one, or nearly: threads count at once.
_nests = 0


def nested():
    """A number that grows whenever a thread asks for a lock while it holds another one."""
    return _nests


def _requested(frame):
    """The place of a request, whose callers are told where they are wanted."""
    global _nests
    frame = _outside(frame)
    entry = _entry(frame)
    is_nested = _held.get(_get_ident(), 0) > 0
    if is_nested:
        _nests += 1
    if entry[2] > 0 or (_ABOVE > 0 and is_nested):
        entry[2] -= 1
        numbers = []
        while len(numbers) < _ABOVE and frame.f_back is not None:
            frame = frame.f_back
            if frame.f_globals.get("__name__") not in _PASSED:
                numbers.append(_entry(frame)[0])
        _callers((ctypes.c_uint * len(numbers))(*numbers), len(numbers))
    return entry[0]


def _asked(told, how, frame):
    _asked_at(told, how, _requested(frame))


def _tried(told, how, frame):
    _tried_at(told, how, _requested(frame))
    _held[_get_ident()] = _held.get(_get_ident(), 0) + 1


def _acquired(told):
    _acquired_it(told)
    _held[_get_ident()] = _held.get(_get_ident(), 0) + 1


def _released(told, frame):
    _released_at(told, _place(frame))
    _held[_get_ident()] = _held.get(_get_ident(), 1) - 1


def _function(code):
    name = getattr(code, "co_qualname", code.co_name).replace("<locals>.", "")
    return name.encode("utf-8", "replace")


# What `_target` has found, by code and instruction.
_targets = {}


def _target_in(frame):
    key = id(frame.f_code), frame.f_lasti
    if key not in _targets:
        _targets[key] = _target(frame.f_code, frame.f_lasti), frame.f_code
    return _targets[key][0]


_STORES = ("STORE_NAME", "STORE_GLOBAL", "STORE_FAST", "STORE_DEREF")
_ROTATES = {"ROT_TWO": 2, "ROT_THREE": 3, "ROT_FOUR": 4}


def _variables(step):
    """The variables of an instruction that stores into some, the one that takes the top of the stack first."""
    names = step.argval if isinstance(step.argval, tuple) else (step.argval,)
    return names if step.opname.count("STORE_FAST") == 2 else names[:1]


def _gathered(steps, at):
    """Where a list or the like goes to which that step adds the value: into the next variable that isn't a loop's own."""
    loops, before = set(), ""
    for step in steps:
        if step.opname.startswith(_STORES) and before == "FOR_ITER":
            loops.update(_variables(step))
        before = step.opname
    for step in steps[at:]:
        if step.opname == "STORE_ATTR" or (step.opname.startswith(_STORES) and not loops.issuperset(_variables(step))):
            return step.opname, _variables(step)[0]
        if step.opname.startswith("RETURN_"):
            return "RETURN", None
    return None


def _moved(step, above):
    """Where the value stands after an instruction that moves what is on the stack: so many others above it."""
    word, count = step.opname, _ROTATES.get(step.opname, step.arg)
    if word == "SWAP":
        return count - 1 if above == 0 else 0 if above == count - 1 else above
    if word.startswith("ROT_"):
        return count - 1 if above == 0 else above - 1 if above < count else above
    return 0 if above == (count or 1) - 1 else above + 1


def _passed_by(step, above):
    """As _moved, of any other instruction: -1 where it takes the value and leaves nothing that stands for it."""
    word, effect = step.opname, dis.stack_effect(step.opcode, step.arg, jump=False)
    if above == 0 and word in ("LOAD_ATTR", "LOAD_METHOD", "POP_TOP", "SETUP_WITH", "BEFORE_WITH"):
        return -1
    if effect >= 0 and not word.startswith(("CALL", "PRECALL")):
        return above + effect
    return 0 if above < 1 - effect else above + effect


def _target(code, last):
    """Where the value goes that the call at that instruction makes: the instruction's name and the variable's, or None."""
    steps = list(dis.get_instructions(code))
    above, within = 0, None
    for at, step in enumerate(steps):
        word = step.opname
        if step.offset <= last:
            continue
        if word.startswith("RETURN_"):
            return "RETURN", None
        if word.startswith("YIELD") or above < 0:
            return None
        if word in ("LIST_APPEND", "SET_ADD", "MAP_ADD") and above == 0:
            return _gathered(steps, at)
        if word == "STORE_ATTR" and above == 1:
            return word, step.argval
        if word.startswith(_STORES) and above < len(_variables(step)):
            return word, _variables(step)[above]
        if word in ("STORE_ATTR", "STORE_SUBSCR") and above < 3 - (word == "STORE_ATTR"):
            return None
        if word == "BUILD_TUPLE" and above < step.arg:
            above, within = 0, step.arg - 1 - above
        elif word == "UNPACK_SEQUENCE" and above == 0 and within is not None:
            above = within
        elif word in ("SWAP", "COPY", "DUP_TOP") or word.startswith("ROT_"):
            above = _moved(step, above)
        else:
            above = _passed_by(step, above)
    return None


def _class_of(frame):
    """The name of the class in which the frame's function stands, None where it is no method."""
    code = frame.f_code
    path = getattr(code, "co_qualname", "").split(".")
    if len(path) > 1 and path[-2] != "<locals>":
        return path[-2]
    first = frame.f_locals.get(code.co_varnames[0]) if code.co_argcount else None
    for each in type(first).__mro__ if first is not None else ():
        if getattr(each.__dict__.get(code.co_name), "__code__", None) is code:
            return each.__name__
    return None


def _module_of(frame):
    name = frame.f_globals.get("__name__", "?")
    if name == "__main__":
        name = os.path.splitext(os.path.basename(frame.f_code.co_filename))[0]
    return name


def _label(frame, what):
    """What the lock that is being made is called, None where it has no name; and the frame that names it."""
    for _ in range(8):
        target = _target_in(frame)
        if target is None or target[0] != "RETURN" or frame.f_back is None:
            break
        frame = frame.f_back
    word, name = target or ("", None)
    function = frame.f_code.co_name
    if word == "STORE_ATTR":
        owner = _class_of(frame)
        return owner and owner + "." + name, frame
    if word == "STORE_NAME" and frame.f_locals is not frame.f_globals:
        return function + "." + name, frame
    if word in ("STORE_NAME", "STORE_GLOBAL"):
        return _module_of(frame) + "." + name, frame
    if name is not None:
        return function + "()." + name, frame
    return None, frame


def _column(frame):
    """`:COLUMN` of the call that the frame is in, or nothing before Python 3.11."""
    positions = getattr(frame.f_code, "co_positions", None)
    column = next(itertools.islice(positions(), frame.f_lasti // 2, None))[2] if positions and frame.f_lasti >= 0 else None
    return "" if column is None else ":%d" % (column + 1)


# What locks that are made at an instruction are called, and where they come from.
_labels = {}


def _made(frame, how, what):
    """Tells of a lock that is made there: what stands for it, 0 where there is nobody to be told; its name and its place."""
    if not _recorder:
        return 0, None
    frame = _outside(frame)
    key = id(frame.f_code), frame.f_lasti, what
    known = _labels.get(key)
    # A function that makes locks for others gives them the names of its callers.
    if known is None:
        name, named = _label(frame, what)
        file = named.f_code.co_filename
        line = 0 if name else named.f_lineno or 0
        text = name or "%s (%s:%d%s)" % (what, os.path.basename(file), line, _column(named))
        known = text[:_LABEL_MOST].encode("utf-8", "replace"), _number(os.fsencode(file), line, b""), frame.f_code
        if named is frame:
            _labels[key] = known
    return _told_as(known, how), known


def _told_as(known, how=MUTEX):
    lock = _handle()
    _made_at(lock, how, known[1], known[0])
    return lock


class Watched:
    """What stands beside a lock of the program's own and tells of it.

    how is MUTEX, or READ or WRITE of a lock for readers and writers. Each asked() is followed by acquired() or gave_up().
    """

    __slots__ = ("_told", "_known", "__weakref__")

    def __init__(self, how=MUTEX, what="Watched"):
        self._told, self._known = _made(sys._getframe(1), how, what)

    def asked(self, how=MUTEX):
        _asked(self._told, how, sys._getframe(1))

    def acquired(self):
        _acquired(self._told)

    def gave_up(self):
        _gave_up(self._told)

    def tried(self, how=MUTEX):
        _tried(self._told, how, sys._getframe(1))

    def released(self):
        _released(self._told, sys._getframe(1))

    def __del__(self, _destroyed=_destroyed):
        _destroyed(self._told)


def _acquire(told, raw, blocking, timeout, frame):
    """Acquires by the real call, and tells of it."""
    if not blocking:
        got = raw(blocking, timeout)
        if got:
            _tried(told, MUTEX, frame)
        return got
    _asked(told, MUTEX, frame)
    try:
        got = raw(blocking, timeout)
    except BaseException:
        _gave_up(told)
        raise
    if got:
        _acquired(told)
    else:
        _gave_up(told)
    return got


def _waits(told, frame):
    """Before a wait for a condition. The request is told now, since the wait may never end."""
    _released(told, frame)
    _asked(told, MUTEX, frame)
    _gave_up(told)


def _tell_anew(lock, known):
    """The lock is another one from here on, of that name: none holds it."""
    if lock._told:
        _destroyed(lock._told)
        lock._told, lock._known = _told_as(known), known
    return lock


class Lock:
    """threading.Lock, which tells what is done with it."""

    __slots__ = ("_raw", "_told", "_known", "__weakref__")

    def __new__(cls):
        # Those in an Event, a Barrier or a Thread are held for a moment and never around another.
        maker = sys._getframe(1)
        if maker.f_globals is vars(threading) and maker.f_code.co_name == "__init__":
            return _allocate()
        return super().__new__(cls)

    def __init__(self):
        self._raw = _allocate()
        self._told, self._known = _made(sys._getframe(1), MUTEX, "Lock")

    def acquire(self, blocking=True, timeout=-1):
        return _acquire(self._told, self._raw.acquire, blocking, timeout, sys._getframe(1))

    __enter__ = acquire_lock = acquire

    def release(self):
        if self._raw.locked():
            _released(self._told, sys._getframe(1))
        self._raw.release()

    release_lock = release

    def __exit__(self, *_):
        self.release()

    def locked(self):
        return self._raw.locked()

    locked_lock = locked

    def _is_owned(self):
        return self._raw.locked()

    def _release_save(self):
        if self._raw.locked():
            _waits(self._told, sys._getframe(1))
        self._raw.release()

    def _acquire_restore(self, _):
        _acquire(self._told, self._raw.acquire, True, -1, sys._getframe(1))

    def _at_fork_reinit(self):
        self._raw = _allocate()
        _tell_anew(self, self._known)

    def __repr__(self):
        return "<%s witness.Lock object at %#x>" % ("locked" if self._raw.locked() else "unlocked", id(self))

    def __del__(self, _destroyed=_destroyed):
        _destroyed(self._told)


class RLock:
    """threading.RLock, which tells of the first acquisition and the last release of a thread."""

    __slots__ = ("_raw", "_told", "_known", "_count", "__weakref__")

    def __init__(self):
        self._raw = _thread.RLock()
        self._count = 0
        self._told, self._known = _made(sys._getframe(1), MUTEX, "RLock")

    def acquire(self, blocking=True, timeout=-1):
        if self._raw._is_owned():
            got = self._raw.acquire(blocking, timeout)
        else:
            got = _acquire(self._told, self._raw.acquire, blocking, timeout, sys._getframe(1))
        if got:
            self._count += 1
        return got

    __enter__ = acquire

    def release(self):
        if self._raw._is_owned():
            self._count -= 1
            if self._count == 0:
                _released(self._told, sys._getframe(1))
        self._raw.release()

    def __exit__(self, *_):
        self.release()

    def locked(self):
        return self._count > 0

    def _is_owned(self):
        return self._raw._is_owned()

    def _recursion_count(self):
        return self._count if self._raw._is_owned() else 0

    def _release_save(self):
        count = self._count
        if self._raw._is_owned():
            _waits(self._told, sys._getframe(1))
            self._count = 0
        return self._raw._release_save(), count

    def _acquire_restore(self, saved):
        state, count = saved
        _asked(self._told, MUTEX, sys._getframe(1))
        self._raw._acquire_restore(state)
        _acquired(self._told)
        self._count = count

    def _at_fork_reinit(self):
        self._raw, self._count = _thread.RLock(), 0
        _tell_anew(self, self._known)

    def __repr__(self):
        word = "locked" if self._count else "unlocked"
        return "<%s witness.RLock object count=%d at %#x>" % (word, self._count, id(self))

    def __del__(self, _destroyed=_destroyed):
        _destroyed(self._told)


class Semaphore(threading.Semaphore):
    """threading.Semaphore. One that is made with 1 is told as a lock, until another thread than its holder releases it."""

    def __init__(self, value=1):
        super().__init__(value)
        self._cond = _Condition(_thread.RLock())
        self._holder = None
        self._told = _made(sys._getframe(1), MUTEX, "Semaphore")[0] if value == 1 else 0

    def acquire(self, blocking=True, timeout=None):
        if not self._told:
            return super().acquire(blocking, timeout)
        if not blocking and timeout is not None:
            raise ValueError("can't specify timeout for non-blocking acquire")
        got = _acquire(self._told, super().acquire, blocking, timeout, sys._getframe(1))
        if got:
            self._holder = _get_ident()
        return got

    __enter__ = acquire

    def release(self, n=1):
        if n < 1:
            raise ValueError("n must be one or more")
        if self._told and n == 1 and self._holder == _get_ident():
            self._holder = None
            _released(self._told, sys._getframe(1))
        else:
            told, self._told = self._told, 0
            if told:
                _destroyed(told)
        for _ in range(n):
            super().release()

    def __exit__(self, *_):
        self.release()

    def __del__(self, _destroyed=_destroyed):
        _destroyed(getattr(self, "_told", 0))


class BoundedSemaphore(Semaphore):
    """threading.BoundedSemaphore, told as a Semaphore is."""

    def __init__(self, value=1):
        super().__init__(value)
        self._initial_value = value

    def release(self, n=1):
        with self._cond:
            if self._value + n > self._initial_value:
                raise ValueError("Semaphore released too many times")
            super().release(n)

    def __repr__(self):
        return "<witness.BoundedSemaphore at %#x: value=%d/%d>" % (id(self), self._value, self._initial_value)


_Condition = threading.Condition
_start = threading.Thread.start


def _start_told(self):
    _makes(_place(sys._getframe(1)))
    return _start(self)


def _replace_logging(logging):
    """The locks that logging has made before: those that nobody holds."""
    lock = getattr(logging, "_lock", None)
    if lock is not None and not isinstance(lock, RLock):
        logging._lock = _called(RLock(), "logging._lock")
    handlers = [reference() for reference in getattr(logging, "_handlerList", ())] + [getattr(logging, "lastResort", None)]
    for handler in handlers:
        if getattr(handler, "lock", None) is not None and not isinstance(handler.lock, RLock):
            handler.lock = _called(RLock(), "Handler.lock")


def _called(lock, name):
    """The lock, under a name that its maker gives it."""
    return _tell_anew(lock, (name.encode(), 0))


# Modules with locks that aren't told: their classes, whose names are said at the end where one was made.
_UNTOLD = {"asyncio.locks": ("Lock", "Condition", "Semaphore"), "multiprocessing.synchronize": ("SemLock", "Condition")}
_untold = set()


def _watch(module):
    """Notes which classes of the module's locks are used."""
    package = module.__name__.split(".")[0]
    for name in _UNTOLD[module.__name__]:
        kind = getattr(module, name, None)
        if kind is None:
            continue

        def noted(self, *words, _before=kind.__init__, **more):
            _untold.add("%s.%s" % (package, type(self).__name__))
            _before(self, *words, **more)

        kind.__init__ = noted


class _Importer:
    """Watches these modules once the program imports them."""

    @staticmethod
    def find_spec(name, path=None, target=None):
        if name not in _UNTOLD:
            return None
        spec = importlib.machinery.PathFinder.find_spec(name, path, target)
        if spec is None:
            return None
        load = spec.loader.exec_module

        def exec_module(module):
            load(module)
            _watch(module)

        spec.loader.exec_module = exec_module
        return spec


_LIBRARY = os.path.dirname(os.__file__) + os.sep


def _is_own(file):
    """Whether a module of that file is the interpreter's own, whose locks count as its own."""
    return file.startswith("<frozen ") or (file.startswith(_LIBRARY) and "-packages" not in file)


def _allocate_noted():
    """_thread.allocate_lock, which notes where the program makes such locks: they aren't told."""
    if not _is_own(sys._getframe(1).f_code.co_filename):
        _untold.add("_thread.lock")
    return _allocate()


def _note_kept(kept):
    """Notes where a module of the program's has these already, from before: locks that are made by them aren't told."""
    for name, module in list(sys.modules.items()):
        file = getattr(module, "__file__", None) or ("" if name == "__main__" else "<frozen builtin>")
        if _is_own(file) or file == __file__:
            continue
        if any(value is each for value in list(vars(module).values()) for each in kept):
            _untold.add("locks of the module %s" % name)


def _ends():
    """At the end of the program: names what isn't told, or says to the recorder that all was."""
    if _untold:
        sys.stderr.write("witness: not seen: %s\n" % ", ".join(sorted(_untold)))
    else:
        try:
            open(os.path.join(os.environ["RECORDER_DIRECTORY"], "python.%d" % os.getpid()), "xb").close()
        except (KeyError, OSError):
            pass


def patch():
    """Has the program's locks be told, where there is a recorder: whether there is one."""
    if not _recorder:
        return False
    if _Importer not in sys.meta_path:
        sys.meta_path.insert(0, _Importer)
        atexit.register(_ends)
        _note_kept([_allocate, threading.Lock, _thread.RLock, threading.RLock, threading.Semaphore, threading.BoundedSemaphore])
        _thread.allocate_lock = _thread.allocate = _allocate_noted
        for name in _UNTOLD:
            if name in sys.modules:
                _watch(sys.modules[name])
    threading.Lock = Lock
    threading.RLock = RLock
    threading.Semaphore = Semaphore
    threading.BoundedSemaphore = BoundedSemaphore
    threading.Thread.start = _start_told
    # It has taken its own of the module _thread.
    if hasattr(sys.modules.get("functools"), "RLock"):
        sys.modules["functools"].RLock = RLock
    if "logging" in sys.modules:
        _replace_logging(sys.modules["logging"])
    return True


def _run_script(words):
    """Runs the script in the main module, as the interpreter does."""
    import __main__

    sys.argv[:] = words
    sys.path[0] = os.path.dirname(os.path.realpath(words[0]))
    with open(words[0], "rb") as file:
        code = compile(file.read(), words[0], "exec")
    own = vars(__main__)
    own.clear()
    own.update(__name__="__main__", __file__=words[0], __builtins__=__builtins__, __package__=None, __spec__=None)
    exec(code, own)


def main(words):
    if not words or (words[0] == "-m" and len(words) == 1) or (words[0].startswith("-") and words[0] != "-m"):
        sys.exit("usage: python3 -m witness SCRIPT ARGS.. or -m MODULE ARGS..")
    patch()
    if words[0] != "-m":
        _run_script(words)
        return
    import runpy

    sys.argv[:] = words[1:]
    sys.path[0] = os.getcwd()
    runpy.run_module(words[1], run_name="__main__", alter_sys=True)


if __name__ == "__main__":
    # Not this module's copy of that name: its functions would count as the program's.
    import witness

    witness.main(sys.argv[1:])
