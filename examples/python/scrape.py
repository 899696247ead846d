#!/usr/bin/env python3
"""Prints the prices of items that a host knows: `scrape.py HOST PORT USER ITEM..`, with the password in PASSWORD.

Port 992 is spoken to by TLS; any port, where CAFILE names the certificates that are trusted.
"""
import os
import ssl
import sys

from ribbonscarp import Key, RibbonscarpError, Session, connect


def sign_on(session: Session, user: str, password: str) -> None:
    session.wait_text("Sign On")
    session.fill("User", user)
    session.fill("Password", password)
    session.press(Key.ENTER)
    session.wait_text("Item inquiry")
    session.wait_unlocked()


def price(session: Session, item: str) -> str:
    session.fill("Item number", item)
    session.press(Key.F5)
    screen = session.wait_unlocked()
    where = screen.find("Price")
    return screen.row(where[0]).split()[-1] if where else "none"


def main() -> int:
    if len(sys.argv) < 4:
        print("usage: scrape.py HOST PORT USER ITEM..", file=sys.stderr)
        return 2
    host, port, user, *items = sys.argv[1:]
    trusted = os.environ.get("CAFILE")
    tls: bool | ssl.SSLContext = ssl.create_default_context(cafile=trusted) if trusted else port == "992"
    try:
        with connect(host, int(port), tls=tls, wait=10) as session:
            sign_on(session, user, os.environ.get("PASSWORD", ""))
            for item in items:
                print(item, price(session, item))
            session.press(Key.F3)
    except (RibbonscarpError, OSError) as error:
        print(error, file=sys.stderr)
        return 1
    return 0


if __name__ == "__main__":
    sys.exit(main())
