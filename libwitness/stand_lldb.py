# For lldb: the program stops at each report of libwitness, and lldb stands in the frame that asks for the lock, not in the
# library's.  lldb -o 'command script import stand_lldb.py' -- PROGRAM ..
import os

import lldb


def is_passed_over(frame):
    """Whether the function is the library's, by its object or its source, or C++'s own on the way to it."""
    path = frame.GetLineEntry().GetFileSpec().fullpath or ""
    if (frame.GetModule().GetFileSpec().basename or "").startswith("libwitness.so"):
        return True
    return os.path.dirname(path).endswith(("/libwitness", "/recorder/runtime")) or "/c++/" in path


class Stand:
    """At each stop."""

    def __init__(self, target, words, internal):
        pass

    def handle_stop(self, context, stream):
        thread = context.GetThread()
        frame = thread.GetFrameAtIndex(0)
        if frame.GetFunctionName() == "witness_reported":
            for each in thread.frames:
                if not is_passed_over(each):
                    thread.SetSelectedFrame(each.GetFrameID())
                    stream.Print("%s\n" % each)
                    break
        return True


def __lldb_init_module(debugger, internal):
    debugger.HandleCommand("breakpoint set --name witness_reported")
    debugger.HandleCommand("target stop-hook add --script-class %s.Stand" % __name__)
