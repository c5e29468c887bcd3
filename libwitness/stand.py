# For gdb: the program stops at each report of libwitness, and gdb stands in the frame that asks for the lock, not in the
# library's.  gdb -x stand.py --args PROGRAM ..  (record --on-report gdb does that)
import os

import gdb


def is_passed_over(frame):
    """Whether the function is the library's, by its object or its source, or C++'s own on the way to it."""
    symtab = frame.find_sal().symtab
    path = symtab.fullname() if symtab else ""
    if os.path.basename(gdb.solib_name(frame.pc()) or "").startswith("libwitness.so"):
        return True
    return os.path.dirname(path).endswith(("/libwitness", "/recorder/runtime")) or "/c++/" in path


def stand(event):
    frame = gdb.newest_frame()
    if frame.name() != "witness_reported":
        return
    while frame and is_passed_over(frame):
        frame = frame.older()
    if frame:
        frame.select()
        gdb.execute("frame")


gdb.execute("set breakpoint pending on")
gdb.Breakpoint("witness_reported")
gdb.events.stop.connect(stand)
