#!/usr/bin/env python3
"""A host for tests, with prices of items: `host.py PORT [CERTIFICATE KEY]`, by TLS where these files are given."""
import contextlib
import ssl
import sys
import threading

from ribbonscarp import Body, ConnectionEnded, HostSession, Key, Listener, StatusError, listen

PRICES = {"4711": "12.50", "12": "7.80"}
SIGN_ON = Body().clear().write().text(1, 37, "Sign On").text(6, 17, "User . .").field(6, 53, 10)
SIGN_ON.text(7, 17, "Password  .").field(7, 53, 10, attribute=0x27).cursor(6, 53).read()


def inquiry(item: str = "") -> Body:
    body = Body().clear().write().text(1, 35, "Item inquiry").text(23, 2, "F3=Exit  F5=Refresh")
    body.text(3, 2, "Item number  .").field(3, 20, 6, ffw=0x4300, text=item)
    if item in PRICES:
        body.text(5, 2, f"Price  . . . . {PRICES[item]:>7}")
    elif item:
        body.text(24, 2, "No such item", 0x28)
    return body.cursor(3, 20).read()


def play(host: HostSession) -> None:
    with host, contextlib.suppress(ConnectionEnded):
        host.wait_ready()
        host.send(SIGN_ON)
        host.wait_answer()
        host.send(inquiry())
        while (answer := host.wait_answer()).key is not Key.F3:
            field = answer.field(3, 20)
            host.send(inquiry(field.text if field else ""))


def serve(listener: Listener) -> None:
    with contextlib.suppress(StatusError):  # the listener is closed
        while True:
            with contextlib.suppress(OSError):  # a station without TLS
                threading.Thread(target=play, args=(listener.accept(),), daemon=True).start()


def main() -> int:
    if len(sys.argv) not in (2, 4):
        print("usage: host.py PORT [CERTIFICATE KEY]", file=sys.stderr)
        return 2
    tls = None
    if sys.argv[2:]:
        tls = ssl.SSLContext(ssl.PROTOCOL_TLS_SERVER)
        tls.load_cert_chain(*sys.argv[2:4])
    with listen(port=int(sys.argv[1]), tls=tls, any=True, wait=86400) as listener:
        print("listening", listener.port, flush=True)
        serve(listener)
    return 0


if __name__ == "__main__":
    sys.exit(main())
