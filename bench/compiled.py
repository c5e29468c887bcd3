"""Code that is compiled while the program runs, as by a JIT compiler: 20,000 functions, each of which takes and releases a
mutex, so that each call comes from an address that no object has. Two threads run them, in turns of their own."""

import ctypes
import mmap
import struct
import threading

FUNCTIONS = 20_000

libc = ctypes.CDLL(None)
lock, unlock = (ctypes.cast(getattr(libc, "pthread_mutex_" + word), ctypes.c_void_p).value for word in ("lock", "unlock"))
mutex = ctypes.create_string_buffer(64)
libc.pthread_mutex_init(mutex, None)


def call(function: int) -> bytes:
    """mov rdi, mutex; mov rax, function; call rax"""
    return b"\x48\xbf" + struct.pack("<Q", ctypes.addressof(mutex)) + b"\x48\xb8" + struct.pack("<Q", function) + b"\xff\xd0"


body = b"\x55" + call(lock) + call(unlock) + b"\x5d\xc3"
memory = mmap.mmap(-1, len(body) * FUNCTIONS, prot=mmap.PROT_READ | mmap.PROT_WRITE | mmap.PROT_EXEC)
memory.write(body * FUNCTIONS)
base = ctypes.addressof(ctypes.c_char.from_buffer(memory))
functions = [ctypes.CFUNCTYPE(None)(base + len(body) * number) for number in range(FUNCTIONS)]


def run() -> None:
    for _ in range(3):
        for function in functions:
            function()


threads = [threading.Thread(target=run) for _ in range(2)]
for thread in threads:
    thread.start()
for thread in threads:
    thread.join()
print(len(functions))
