#!/usr/bin/env python3
"""Runs random live sessions of `t5250 connect` and `t5250 serve`, and compares each with what a model of Python says.

    run_random.py [PROGRAM] [--seed N] [--seconds N | --sessions N | --only K]

The other side of the connection, in Python, cuts, delays and joins its bytes at random. Records, Telnet commands and
the lines of the script are random too; some records are refused, some bytes can't stand where they do, some connections
end early, some lines wait in vain. What the program prints, its status, its fault and what goes over the line is
compared to the byte with what tests/model says, which is written from docs/PROFILE.md. Sessions take turns: `connect`,
`serve`, `connect --strict`, `serve --any`; several run at a time.

The seed is from the clock without `--seed`. It is told first, and each session that differs is told with the words that
repeat it. Without another word it ends after 60 seconds, and always behind ten that differ. Build the program first
(`cd crates/t5250 && rt run -- check < stdin`), or name one. The last line tells how many passed and how many failed,
and the status is 1 where one failed.
"""
import argparse
import itertools
import sys
import threading
import time
import traceback

from counted import PROGRAM, need_program
from live.lines import station_at
from live.program import Run
from model.peer import Peer
from model.sessions import ConnectPlan, ServePlan
from peers import Host

KINDS = [(ConnectPlan, False), (ServePlan, False), (ConnectPlan, True), (ServePlan, True)]
AT_A_TIME = 4
# More than that need not be told.
MOST_FAILED = 10
# For what a session waits at the most.
SECONDS = 180


class Session:
    """A plan that is carried out by the program."""

    def __init__(self, seed, index):
        kind, is_other = KINDS[index % len(KINDS)]
        self.plan = kind(seed, index, is_other)
        self.peer = Peer(self.plan, f"{seed}:{index}:peer")
        self.printed = ""

    def run(self):
        """Starts the program and the other side, and sees to it that both end."""
        lines = "".join(line + "\n" for line in self.plan.script())
        given = {"file": {"script": lines}, "asked": {"text": "", "keep_open": True}}.get(self.plan.form, {"text": lines})
        if isinstance(self.plan, ConnectPlan):
            host = Host(self.peer.play)
            run = Run([*self.plan.words(), f"127.0.0.1:{host.port}"], **given)
            self.drive(run)
            host.end()
        else:
            run = Run([*self.plan.words(), "127.0.0.1:0"], **given)
            station = threading.Thread(target=self.peer.play, args=(station_at(run),), daemon=True)
            station.start()
            self.drive(run)
            station.join(SECONDS)
        self.compare(run)

    def drive(self, run):
        """Asks line by line where the plan says so, up to the end."""
        try:
            if self.plan.form == "asked":
                self.ask(run)
            self.printed += run.end(None, None, None, SECONDS)
        finally:
            if run.process.poll() is None:
                run.stop()

    def ask(self, run):
        for kind, what in self.plan.steps:
            if kind != "line":
                continue
            lines = self.plan.text_of(what)
            try:
                for line in lines:
                    run.tell(line)
            except BrokenPipeError:
                return
            if lines[0] in ("", "end") or lines[0].startswith("#"):
                continue
            told = self.answer_of(run)
            if lines[0].startswith("await") and told.endswith("late\nok\n"):
                self.peer.late()

    def answer_of(self, run):
        """What a line prints, with its `ok`; less where the program ends."""
        told = ""
        while not told.endswith("ok\n"):
            line = run.line(SECONDS)
            if not line:
                run.lines.put(None)
                break
            told += line
        self.printed += told
        return told

    def compare(self, run):
        model = self.plan.model
        rows = [("printed", self.printed, model.printed), ("status", run.process.returncode, model.status),
                ("fault", run.fault.partition(":")[0].rstrip("\n"), self.plan.error), ("sent", self.peer.came.hex(), model.sent.hex())]
        wrong = [f"{what}: got {got!r}\n{' ' * len(what)}  not {wanted!r}"
                 for what, got, wanted in rows if got != wanted]
        if wrong:
            raise AssertionError("\n".join(wrong))


class Sessions:
    """Sessions one after another, for some threads."""

    def __init__(self, seed, indices, until):
        self.seed, self.until = seed, until
        self.indices, self.lock = iter(indices), threading.Lock()
        self.passed = self.failed = 0

    def next(self):
        with self.lock:
            is_over = time.monotonic() > self.until or self.failed >= MOST_FAILED
            return None if is_over else next(self.indices, None)

    def run(self):
        while (index := self.next()) is not None:
            session = None
            try:
                session = Session(self.seed, index)
                session.run()
                fault = ""
            except AssertionError as failure:
                fault = str(failure)
            except Exception:
                fault = traceback.format_exc()
            with self.lock:
                self.passed, self.failed = self.passed + (not fault), self.failed + bool(fault)
                if fault:
                    self.tell(index, session, fault)

    def tell(self, index, session, fault):
        print(f"--seed {self.seed} --only {index}")
        if session is not None:
            print(f"  {' '.join(session.plan.words())} ({session.plan.form})")
            print("\n".join(session.plan.told()))
        print(fault, flush=True)


def words():
    parser = argparse.ArgumentParser(description="Random live sessions, compared with a model.")
    parser.add_argument("program", nargs="?", default=PROGRAM)
    parser.add_argument("--seed", type=int, default=int(time.time()))
    parser.add_argument("--seconds", type=float)
    parser.add_argument("--sessions", type=int)
    parser.add_argument("--only", type=int)
    return parser.parse_args()


def main():
    asked = words()
    need_program(asked.program)
    Run.program = asked.program
    print(f"--seed {asked.seed}", flush=True)
    indices, seconds = itertools.count(), asked.seconds or 60.0
    if asked.only is not None:
        indices, seconds = [asked.only], float("inf")
    elif asked.sessions is not None:
        indices, seconds = range(asked.sessions), asked.seconds or float("inf")
    sessions = Sessions(asked.seed, indices, time.monotonic() + seconds)
    threads = [threading.Thread(target=sessions.run) for _ in range(AT_A_TIME)]
    for thread in threads:
        thread.start()
    for thread in threads:
        thread.join()
    print(f"{sessions.passed} passed, {sessions.failed} failed")
    return 1 if sessions.failed else 0


if __name__ == "__main__":
    sys.exit(main())
