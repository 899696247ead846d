#!/usr/bin/env python3
"""Asks for an item in many sessions at once: `farm.py HOST PORT SESSIONS ITEM` prints how many got which price."""
import asyncio
import collections
import sys

from ribbonscarp import RibbonscarpError, aio


async def ask(host: str, port: int, item: str) -> str:
    async with await aio.connect(host, port, wait=30) as session:
        await session.wait_text("Sign On")
        session.fill("User", "QUSER")
        await session.press("Enter")
        await session.wait_text("Item inquiry")
        await session.wait_unlocked()
        session.fill("Item number", item)
        await session.press("F5")
        found = await session.wait_any("Price", "No such item")
        price = session.screen.row(5).split()[-1] if found == "Price" else "none"
        await session.press("F3")
        return price


async def farm(host: str, port: int, sessions: int, item: str) -> int:
    asked = (ask(host, port, item) for _ in range(sessions))
    told = await asyncio.gather(*asked, return_exceptions=True)
    for price, count in collections.Counter(map(str, told)).items():
        print(count, price)
    return int(any(isinstance(one, (RibbonscarpError, OSError)) for one in told))


if __name__ == "__main__":
    if len(sys.argv) != 5:
        print("usage: farm.py HOST PORT SESSIONS ITEM", file=sys.stderr)
        sys.exit(2)
    sys.exit(asyncio.run(farm(sys.argv[1], int(sys.argv[2]), int(sys.argv[3]), sys.argv[4])))
