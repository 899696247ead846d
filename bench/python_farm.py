#!/usr/bin/env python3
"""Measures the Python package: many sessions at once, in threads and in asyncio, and a round trip.

    python_farm.py [LIBRARY]        the shared library; without it the one of `make quick`

A host in a process of its own sends pages of a list, one for each answer. Each of 500 sessions connects; when all of them
have, each scrapes three pages, pressing Page Down. It prints how long that took from the first to the last, and the most
memory that the process held; then the median of 5,000 round trips, from a key to the unlocked keyboard.
"""
import asyncio
import os
import pathlib
import resource
import statistics
import subprocess
import sys
import threading
import time

TOP = pathlib.Path(__file__).resolve().parent.parent
sys.path[:0] = [str(TOP / "python"), str(TOP / "tests")]

from records import ASKED  # noqa: E402

LIBRARY = "RIBBONSCARP_LIBRARY"
SESSIONS, PAGES, TRIPS, WAIT = 500, 3, 5000, 60


def page(number):
    """The record of a page: fifteen items, and a field."""
    from ribbonscarp import Body
    from ribbonscarp.records import spell_record

    body = Body().clear().write().text(1, 30, f"Items, page {number}").text(22, 2, "Item . .").field(22, 20, 6)
    for row in range(4, 19):
        body.text(row, 2, f"{number:03}{row:03}  item of page {number:3}  {row * 3}.50")
    return spell_record(bytes(body.cursor(22, 20).read()), 3)


def serve():
    """Sends the next page at each answer, and prints its port first."""
    pages = [page(number) for number in range(1, PAGES + 2)]

    class Host(asyncio.Protocol):
        def connection_made(self, transport):
            self.transport, self.answers, self.last = transport, 0, b""
            transport.write(ASKED + pages[0])

        def data_received(self, data):
            for _ in range((self.last + data).count(b"\xff\xef")):
                self.answers += 1
                self.transport.write(pages[self.answers % len(pages)])
            self.last = b"\xff" if data.endswith(b"\xff") else b""

    async def run():
        server = await asyncio.get_running_loop().create_server(Host, "127.0.0.1", 0, backlog=1024)
        print(server.sockets[0].getsockname()[1], flush=True)
        await server.serve_forever()

    asyncio.run(run())


def items(screen):
    return [row[1:40].rstrip() for row in screen.rows if " item of page " in row]


def in_threads(port):
    from ribbonscarp import connect

    found, all_here = [], threading.Barrier(SESSIONS)

    def scrape():
        with connect("127.0.0.1", port, wait=WAIT) as session:
            all_here.wait(WAIT)
            for number in range(1, PAGES + 1):
                found.append(len(items(session.wait_text(f"Items, page {number}"))))
                session.fill("Item", "4711")
                session.press("Page Down")

    threads = [threading.Thread(target=scrape) for _ in range(SESSIONS)]
    for thread in threads:
        thread.start()
    for thread in threads:
        thread.join()
    return found


def in_asyncio(port):
    from ribbonscarp import aio

    found, here = [], []

    async def scrape(all_here):
        async with await aio.connect("127.0.0.1", port, wait=WAIT) as session:
            here.append(session)
            if len(here) == SESSIONS:
                all_here.set()
            await all_here.wait()
            for number in range(1, PAGES + 1):
                found.append(len(items(await session.wait_text(f"Items, page {number}"))))
                session.fill("Item", "4711")
                await session.press("Page Down")

    async def run():
        all_here = asyncio.Event()
        await asyncio.gather(*(scrape(all_here) for _ in range(SESSIONS)))

    asyncio.run(run())
    return found


def farm(scrape, port):
    begun, used = time.monotonic(), time.process_time()
    found = scrape(port)
    took, used = time.monotonic() - begun, time.process_time() - used
    memory = resource.getrusage(resource.RUSAGE_SELF).ru_maxrss / 1024
    is_right = found == [15] * PAGES * SESSIONS
    print(f"{SESSIONS} sessions {scrape.__name__}: {took:.2f} s ({used:.2f} s of processor), {memory:.0f} MB")
    return 0 if is_right else 1


def trip(port):
    from ribbonscarp import connect

    times = []
    with connect("127.0.0.1", port, wait=WAIT) as session:
        session.wait_unlocked()
        for _ in range(TRIPS):
            begun = time.perf_counter()
            session.press("Enter")
            session.wait_unlocked()
            times.append(time.perf_counter() - begun)
    print(f"a round trip, median of {TRIPS}: {statistics.median(times) * 1000:.3f} ms")
    return 0


TASKS = {
    "in_threads": lambda port: farm(in_threads, port),
    "in_asyncio": lambda port: farm(in_asyncio, port),
    "trip": trip,
}


def main():
    if sys.argv[1:2] == ["serve"]:
        return serve()
    if sys.argv[1:2] and sys.argv[1] in TASKS:
        return TASKS[sys.argv[1]](int(sys.argv[2]))
    library = sys.argv[1] if sys.argv[1:] else TOP / "build/unproved/libribbonscarp.so"
    os.environ[LIBRARY] = os.path.abspath(library)
    me = [sys.executable, __file__]
    host = subprocess.Popen([*me, "serve"], stdout=subprocess.PIPE, text=True)
    try:
        port = host.stdout.readline().strip()
        return max(subprocess.run([*me, task, port], check=False).returncode for task in TASKS)
    finally:
        host.terminate()
        host.wait()


if __name__ == "__main__":
    sys.exit(main())
