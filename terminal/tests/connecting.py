"""What becomes of a connection: the box at a session's end, connecting again, addresses that don't answer, silence."""
import os
import pathlib
import re
import socket
import subprocess
import tempfile
import time

from certificates import Authority, Front, context_of, has_tls
from hosts import Host, field, inputs, plain, says, text, write
from peers import refusing, swallowed
from window import Terminal, check
from work import FORM, at_form, shown_of

# Another screen than FORM's.
NEXT = write() + text(2, 2, "Another day") + field(3, 20, 6, 0x4300) + b"\x04\x52\x00\x00"
QUIET = 1.1  # Seconds, after which the box takes keys.


def box(t):
    """The text in the box: rows that are reversed from the fifth column on."""
    look = t.window.looks
    rows = [row for row in range(24) if look(row, 4).get("reverse") and look(row, 75).get("reverse")]
    return " ".join(" ".join(t.window.text(row) for row in rows).split())


def in_box(t, words):
    return t.until(lambda: words in box(t), f"the box has {words!r}")


def pause_left(t):
    """The seconds in the box after which it begins again; 0 where it has none."""
    found = re.search(r"It begins again in (\d+) s\.", box(t))
    return int(found[1]) if found else 0


def the_box():
    """The whole reason stands in it; its keys connect again, save and leave, and any other shows the screen."""
    with tempfile.TemporaryDirectory() as folder:
        host, t = at_form(folder=folder)
        t.type("42\x0f")
        t.tells("INS")
        host.again()
        host.send_raw(b"\x00\x0c\xff\x01")
        in_box(t, "c connect again s save q leave any other key: the screen")
        end = time.monotonic() + 1.5
        while time.monotonic() < end:
            t.rings("a key of who types on", lambda: t.type("q"))
            t.read(0.1)
        in_box(t, "Refused at the host's byte")
        in_box(t, "reason 1: no Telnet command has the byte that stands after FF.")
        time.sleep(QUIET)
        check("Order" in t.window.text(0) and "42" in t.window.text(2), "the screen stays beside it")
        t.rings("pasted text", lambda: t.paste("q"))
        in_box(t, "c connect again")
        t.type("s")
        t.tells("Saved in term5250.rec. It holds passwords.")
        in_box(t, "c connect again")
        t.type("x")
        t.until(lambda: not box(t), "any other key takes the box away")
        t.rings("then keys ring", lambda: t.type("c"))
        t.type("\x1d")
        t.shows(3, "c  connect again", "the menu connects again too")
        t.type("c")
        check(host.ready(), "it connects again")
        t.until(lambda: "Order" not in t.window.text(0) and "42" not in t.window.text(2), "an empty screen")
        host.send(NEXT)
        t.shows(1, "Another day")
        t.until(lambda: "INS" not in t.status(), "keys are typed over")
        t.type("7\r")
        check(inputs(host.answer()) == (0xF1, {(3, 20): "7"}), "both ways")
        t.type("\x1ds")
        t.tells("Saved in term5250.rec-1.")
        first, second = (shown_of(os.path.join(folder, name)) for name in ("term5250.rec", "term5250.rec-1"))
        check("reason" in first and "CLEAR-UNIT" in second and "reason" not in second, "each session is kept by itself")
        host.close()
        in_box(t, "The host has closed the line.")
        time.sleep(QUIET)
        t.type("q")
        t.ended(0, "The host has closed the line.")


def again_where_nobody_is():
    """Connecting again to a host that is gone is told in the box too; recordings go on in files of their own."""
    with tempfile.TemporaryDirectory() as folder:
        host = Host()
        t = Terminal("--record", "mine", f"127.0.0.1:{host.port}", folder=folder, rows=24)
        check(host.ready(), "the session begins")
        host.send(FORM)
        t.shows(0, "Order")
        host.again()
        host.hang_up()
        in_box(t, "The host has closed the line.")
        time.sleep(QUIET)
        t.type("c4711")
        check(host.ready(), "with 24 rows too")
        host.send(NEXT)
        t.shows(1, "Another day")
        t.settle()
        check(t.window.text(2)[19:] == "", "and what was typed on isn't typed there", t.window.text(2))
        host.close()
        in_box(t, "The host has closed the line.")
        time.sleep(QUIET)
        t.type("c")
        in_box(t, f"No connection to 127.0.0.1:{host.port}: Connection refused.")
        time.sleep(QUIET)
        t.type("q")
        t.ended(2, f"No connection to 127.0.0.1:{host.port}: Connection refused.")
        check(sorted(os.listdir(folder)) == ["mine", "mine-1"], "no file for what was no session", os.listdir(folder))
        first, second = (shown_of(os.path.join(folder, name)) for name in ("mine", "mine-1"))
        check("D699848599" in first and "C195A3883" not in first, "a recording of the first session", first[-200:])
        check("C19596A388" in second, "and one of the second", second[-200:])


def wrapped():
    """A reason of more than a row is wrapped, and nothing of it is lost."""
    line = b"220 mail.example.org ESMTP and a greeting of many words that goes on and on\r\n"
    t = Terminal(f"127.0.0.1:{plain(says(line))}")
    in_box(t, "This is no 5250 host: it sent `220 mail.example.org ESMTP")

    def rows():
        return [t.window.text(row).strip() for row in range(15, 23)]

    t.until(lambda: any(row.endswith("`.") for row in rows()), "its end is there")
    check(any(row.startswith("This is no 5250 host") for row in rows()), "it begins its row", rows())
    check(all(len(row) <= 68 for row in rows()), "within the box", rows())
    t.resize(20, 60)
    t.shows(0, "This window is 60 by 20")
    t.resize(25, 80)
    in_box(t, "c connect again")
    t.leave(1)


def by_itself():
    """With `--reconnect` it connects again by itself; the pauses are 1, 2, 4 seconds."""
    came = []
    listening = socket.create_server(("127.0.0.1", 0))
    listening.settimeout(60)
    t = Terminal("--reconnect", f"127.0.0.1:{listening.getsockname()[1]}")
    for number in range(4):
        t.settle()
        line = listening.accept()[0]
        came.append(time.monotonic())
        line.close()
        if number > 0:  # The first pause is too short to be sure to see it.
            in_box(t, "The host has closed the line before a session began.")
            in_box(t, "It begins again in")
    pauses = [later - before for before, later in zip(came, came[1:])]
    check(all(wanted <= pause < wanted + 5 for pause, wanted in zip(pauses, (1, 2, 4))), "growing pauses", pauses)
    listening.close()
    time.sleep(QUIET)
    t.type("c")
    in_box(t, "Connection refused")
    t.until(lambda: 8 < pause_left(t) <= 16, "a pause of 16 seconds")
    first = pause_left(t)
    t.until(lambda: 0 < pause_left(t) < first, "which is counted down")
    t.type("\x1dx")
    t.until(lambda: not box(t), "the screen is there meanwhile")
    t.leave(2, "No connection")


def typed_on():
    """What is typed on while the line is lost and comes again isn't typed into the new session."""
    host, t = at_form("--reconnect")
    host.again()
    host.hang_up()
    in_box(t, "The host has closed the line.")
    end = time.monotonic() + 60
    while not host.is_ready.is_set() and time.monotonic() < end:
        t.rings("a key of who types on", lambda: t.type("4"))
        t.read(0.1)
    t.rings("a key before its first screen", lambda: t.type("5"))
    t.tells("The key is dropped: it may be meant for the session before.")
    t.type("\x1ba")
    check(host.answer()[1] == 0x4000, "Attention goes out")
    t.rings("once more", lambda: t.type("5"))
    host.send(NEXT)
    t.shows(1, "Another day")
    t.rings("and one more", lambda: t.type("6\r"))
    time.sleep(QUIET)
    t.type("7\r")
    check(inputs(host.answer()) == (0xF1, {(3, 20): "7"}), "after a second without a key they are taken")
    t.type("8\r")
    host.send(NEXT)
    check(inputs(host.answer()) == (0xF1, {(3, 20): "8"}), "and wait as ever")
    t.leave()
    host.close()


def at_first():
    """With `--reconnect` a host that isn't there yet is waited for."""
    with refusing() as port:
        t = Terminal("--reconnect", f"127.0.0.1:{port}")
        in_box(t, f"No connection to 127.0.0.1:{port}: Connection refused.")
        host = Host(port=port)
    host.window = t
    t.until(host.is_ready.is_set, "it connects when the host is there")
    host.send(FORM)
    t.at("03/020")
    t.type("5\r")
    check(inputs(host.answer()) == (0xF1, {(3, 20): "5"}), "and works")
    host.again()
    host.send_raw(b"\xff\x01")
    in_box(t, "It begins again in")
    t.until(host.is_ready.is_set, "after a refused byte too")
    host.send(NEXT)
    t.shows(1, "Another day")
    t.leave(0, "Left.")
    host.close()


NAMES = r"""
#define _GNU_SOURCE
#include <arpa/inet.h>
#include <netdb.h>
#include <stdlib.h>
#include <string.h>

/* Two addresses for each name, one after the other. */
static struct sockaddr_in at[2];
static struct addrinfo found[2];

int getaddrinfo(const char *name, const char *port, const struct addrinfo *hints, struct addrinfo **all)
{
    if (hints->ai_flags & AI_NUMERICHOST)
        return EAI_NONAME;
    for (int k = 0; k < 2; k++) {
        at[k].sin_family = AF_INET;
        at[k].sin_port = htons((unsigned short)atoi(port));
        at[k].sin_addr.s_addr = htonl(0x7f000001 + k);
        memset(&found[k], 0, sizeof found[k]);
        found[k].ai_family = AF_INET;
        found[k].ai_socktype = SOCK_STREAM;
        found[k].ai_addrlen = sizeof at[k];
        found[k].ai_addr = (struct sockaddr *)&at[k];
    }
    found[0].ai_next = &found[1];
    *all = found;
    return 0;
}

void freeaddrinfo(struct addrinfo *all)
{
}
"""


def two_addresses(folder):
    """A library by which each name has the addresses 127.0.0.1 and 127.0.0.2."""
    source, made = pathlib.Path(folder, "names.c"), os.path.join(folder, "names.so")
    source.write_text(NAMES)
    subprocess.run([os.environ.get("CC", "cc"), "-shared", "-fPIC", "-o", made, source], check=True)
    return made


def mute():
    """A port that says nothing."""
    return plain(says(b""))


def mute_by_tls(folder):
    """The same behind TLS, and the file of who has signed its certificate."""
    own = Authority(folder)
    return Front(context_of(own.sign("mute", "DNS:localhost")), mute()).port, own.file("ca.pem")


def silences():
    """An address that swallows what it gets has ten seconds, then comes the next; a port that says nothing is told."""
    told = "10 seconds of silence: "
    with tempfile.TemporaryDirectory() as folder, swallowed("127.0.0.1") as port:
        host = Host(where="127.0.0.2", port=port)
        names = two_addresses(folder)
        by_tls = mute_by_tls(folder) if has_tls() else None
        begun = time.monotonic()
        late = Terminal(f"two.example:{host.port}", LD_PRELOAD=names)
        alone = Terminal(f"127.0.0.1:{host.port}")
        silent = Terminal(f"127.0.0.1:{mute()}")
        more = []
        if by_tls is not None:
            port, known = by_tls
            more.append((Terminal("--tls", f"127.0.0.1:{mute()}"), "it may be no port for TLS."))
            more.append((Terminal("--tls", "--ca", known, f"localhost:{port}"), "it may be no 5250 host's port."))
        late.tells("connecting")
        silent.tells("the session hasn't begun")
        silent.idles("meanwhile")
        silent.until(lambda: "silence" in silent.status(), "silence is told")
        check(9.5 < time.monotonic() - begun < 30, "after ten seconds", time.monotonic() - begun)
        more.append((silent, "it may want TLS, or be no 5250 host's port."))
        for t, may_be in more:
            wanted = f" {told}{may_be} "
            t.until(lambda t=t, wanted=wanted: t.status().startswith(wanted), f"with what it may be: {may_be}")
        silent.type("a")
        silent.tells("the session hasn't begun")
        silent.idles("behind it")
        alone.ended(2, f"No connection to 127.0.0.1:{host.port}: Connection timed out.")
        late.until(host.is_ready.is_set, "the next address is tried")
        host.send(FORM)
        late.at("03/020")
        late.leave()
        for t, _ in more:
            t.leave()
        host.close()
