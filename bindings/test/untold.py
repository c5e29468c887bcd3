"""Locks that aren't told: they are named at the end. The second module is imported before `patch`, the first one after it."""

import multiprocessing.synchronize

import witness

witness.patch()

import asyncio


async def main():
    async with asyncio.Lock(), asyncio.Semaphore(1):
        pass


asyncio.run(main())
with multiprocessing.Lock():
    print("done")
