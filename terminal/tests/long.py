"""Random keys, records that are taken and that aren't, and losses, and hosts that send garbage, at a terminal with
sanitizers: no report, and each time the terminal as it was found."""
import os
import pathlib
import random
import tempfile
import time

from certificates import Authority, Front, context_of, has_tls
import typist
from hosts import Host, READ, ROLL, field, plain, text, write
from identity import ASKS, SEND
from records import SEND_NAME, record
from window import Terminal, check

KEYS = ["\r", "\t", "\x1b[Z", "\x7f", "\x08", "\x1bOA", "\x1bOB", "\x1bOC", "\x1bOD", "\x1bOH", "\x1b[F", "\x1b[2~",
        "\x1b[3~", "\x1b[5~", "\x1b[6~", "\x1bOP", "\x1bOR", "\x1b[24~", "\x1b[1;2P", "\x1b!", "\x1b1", "\x1ba",
        "\x1bs", "\x1be", "\x1bc", "\x1b\x1b", "\x12", "\x12", "\x12", "\x01", "\x05", "\x0b", "\n", "\x06", "\x0e",
        "\x04", "\x0f", "\x0c", "\x07", "\x10", "\x14", "\x18", "\x03", "\x1bOM", "\x1bOk", "\x1bOu", "\x1b[1;5C",
        "\x1b]11;?\x07", "\x1b[<0;20;3M\x1b[<0;20;3m", "\x1b[<0;200;90M", "\x1b[200~12\r\nab\x1b[201~", "\x1b[200~",
        "\x1b[201~", "\x1dx", "\x1d\x1d", "\x1d\x1b", "\x1ds", "\x1dp", "\x1dr", "\x00", "caf\u00e9",
        "\x1b[<64;10;5M", "\x1b[<65;10;5M", "\x13", "\x1dt", "\x1dmn-1\r", "\x1dan-1\r", "\x1bOm",
        "\x1b[", "\x1bO", "\x1b[200~" + "long " * 60 + "\x1b[201~", "\x1b[200~a\tb\rc\n\n" + "1\n" * 30 + "\x1b[201~",
        "\x1b[200~" + "much" * 1100 + "\x1b[201~", "\u20ac", "12.5", "x", " ",
        "A long text that fills more than one field of them all"]
SIZES = [(24, 80), (25, 80), (30, 100), (20, 60), (1, 1), (50, 200), (24, 79), (23, 80), (3, 500)]
# What curses itself doesn't give back, it keeps for the next window.
SUPPRESSED = pathlib.Path(__file__).resolve().parent / "curses.supp"
CAREFUL = {"ASAN_OPTIONS": "exitcode=99:fast_unwind_on_malloc=0",
           "LSAN_OPTIONS": f"suppressions={SUPPRESSED}:print_suppressions=0"}
SAID = ("AddressSanitizer", "runtime error", "LeakSanitizer", "ERROR:")


def form(dice):
    body = write(dice.choice([0x00, 0x08, 0x08, 0x08, 0x0A, 0x09, 0x18, 0x28, 0x48]))
    for k in range(dice.randrange(24)):
        row, column = dice.randint(1, 24), dice.randint(2, 60)
        body += text(row, column, "".join(chr(dice.randint(0x20, 0x7E)) for _ in range(dice.randrange(15))),
                     dice.randint(0x20, 0x3F))
    row = dice.randint(2, 5)
    while row < 23:
        shift = dice.choice([0, 1, 2, 3, 5, 7])
        bits = dice.choice([0, 0, 0x2000, 0x1000, 0x20, 0x05, 0x06, 0x08, 0x07, 0x40, 0x80, 0xC0, 0x47])
        length = dice.choice([1, 2, 6, 30, 200 if row < 20 else 9])
        body += field(row, dice.randint(2, 50), length, 0x4000 | shift << 8 | bits, dice.randint(0x20, 0x3F))
        row += dice.randint(1, 4) + length // 80
    return body + (READ if dice.random() < 0.9 else b"")


def refused(dice):
    """A record that no station takes: by its body, its header or its length, or spoilt anywhere."""
    kind = dice.randrange(5)
    if kind == 0:
        return record(ROLL)
    if kind == 1:
        return record(form(dice) + field(24, 70, 99) + READ)
    if kind == 2:
        return record(b"\x04\x99" * 30000)
    if kind == 3:
        return record(form(dice), dice.choice([3, 0x55]))[: dice.randint(1, 40)].rstrip(b"\xff") + b"\xff\xef"
    whole = bytearray(form(dice))
    whole[dice.randrange(len(whole))] = dice.randrange(255)
    return record(bytes(whole))


def something(dice):
    """What a host sends next: mostly forms, often what is refused, and seldom what ends the session."""
    kind = dice.random()
    if kind < 0.004:
        return b"\xff\x01"
    if kind < 0.12:
        return refused(dice)
    if kind < 0.75:
        return record(form(dice))
    if kind < 0.85:
        return record(b"\x04\x11\x00" + bytes([dice.choice([0x08, 0x01, 0x02, 0x00])]), 2)
    if kind < 0.9:
        return record(b"", dice.choice([11, 12, 10, 1, 2]))
    command = dice.choice([SEND_NAME, b"\xff\xf1", b"\xff\xf2", b"\xff\xfd\x03", b"\xff\xfb\x01", ASKS, SEND])
    return command * dice.randint(1, 30)


def say_nothing(said, what):
    check(not any(word in said for word in SAID), f"no sanitizer speaks: {what}", said[-1500:])


def at_rest(t):
    """Ends a paste, a name that the menu asks for, and the menu, whichever there is; an earlier note goes."""
    t.type("\x1b[201~\x1d\x1b")
    t.settle()
    t.type("\x1dx")
    t.settle()


def same_screen(t, folder):
    """The window shows what the station's screen is, as the menu prints it into a file."""
    at_rest(t)
    t.type("\x1dp")
    t.until(lambda: "The screen is in" in t.status(), "the screen is printed")
    t.settle()
    name = t.status().partition("The screen is in ")[2].partition(". ")[0]
    with open(os.path.join(folder, name), encoding="utf-8") as file:
        printed = file.read().split("\n")[:24]
    rows = [t.window.text(row) for row in range(24)]
    differ = [(a, b) for a, b in zip(printed, rows) if a.ljust(80) != b.ljust(80)]
    check(not differ, "the window shows the station's screen", name, differ[:4])


def connect_again(dice, host, t, counts):
    """The line is lost, or is already; the next connection comes by the box, by the menu, or by itself."""
    host.again()
    host.hang_up()
    at_rest(t)  # A paste or a name would take the keys.
    end = time.monotonic() + 30
    while not host.is_ready.is_set() and time.monotonic() < end and t.child.poll() is None:
        t.type(dice.choice(["c", "\x1dc", "x", "s"]))
        t.read(0.3)
    counts["connections"] += 1


def end_is_right(status, said):
    """The status is that of the sentence with which it ends, and 1 where a record was refused."""
    last, _, was_refused = said.partition("term5250: ")[2].partition("term5250: Records refused: ")
    if last.startswith("No connection"):
        return status == 2
    if was_refused:
        return status == 1
    return status == 0 if last.startswith("Left.") else status == 1 or (status == 0 and "Refused at" not in last)


def secured(dice, host, folder):
    """Words for a way to the host, in the clear or by TLS."""
    if dice.random() < 0.6 or not has_tls():
        return [f"127.0.0.1:{host.port}"]
    own = Authority(os.path.join(folder, "own"))
    front = Front(context_of(own.sign("host", "DNS:localhost")), host.port)
    return ["--tls", "--ca", own.file("ca.pem"), f"localhost:{front.port}"]


def one_session(dice, sanitized, seconds, counts, folder):
    host = Host(first=dice.choice([b"", ASKS + SEND, ASKS + SEND * 4]))
    words = dice.choice([[], ["--no-hold"], ["--mono"], ["--separators", "off"], ["--background", "own"],
                         ["--no-mouse"], ["--reconnect"], ["--type-ahead", "off"], ["--keys", "tn5250"]])
    words = words + dice.choice([[], ["--device", "DSP01"], ["--code-page", "1141"], ["--keyboard", "AB1"]])
    rows, columns = dice.choice(SIZES[:3])
    t = Terminal(*words, *secured(dice, host, folder), rows=rows, columns=columns, program=sanitized,
                 term=dice.choice(["xterm", "screen", "vt100", "linux", "xterm-256color"]), folder=folder,
                 XDG_CONFIG_HOME=folder, **CAREFUL)
    host.ready()
    end = time.monotonic() + seconds
    while time.monotonic() < end and t.child.poll() is None:
        for _ in range(dice.randrange(8)):
            t.type(dice.choice(KEYS))
            counts["keys"] += 1
        try:
            if dice.random() < 0.5:
                host.send_raw(something(dice))
                counts["records"] += 1
        except OSError:
            connect_again(dice, host, t, counts)  # A refused byte closes the line.
        if dice.random() < 0.004:
            connect_again(dice, host, t, counts)
        if dice.random() < 0.03:
            t.resize(*dice.choice(SIZES))
            counts["sizes"] += 1
        if dice.random() < 0.015 and t.window.rows > 24 and t.window.columns >= 80 and "--reconnect" not in words:
            same_screen(t, folder)
            counts["windows"] += 1
        while t.read(0.002):
            pass
    while t.read(0.2):
        pass
    t.resize(25, 80)
    t.read(0.2)
    if t.child.poll() is None and "--reconnect" not in words:
        same_screen(t, folder)
        counts["windows"] += 1
    at_rest(t)
    t.type("\x1dq")
    status = ended_with(t, 60)
    said = t.ended(status)
    check(end_is_right(status, said), "its status", status, said[-200:])
    counts["refused at last"] += int(said.partition("Records refused: ")[2].partition(",")[0] or 0)
    say_nothing(said, "random keys and records")
    host.close()
    counts["sessions"] += 1


def random_work(seed, sanitized, seconds):
    dice = random.Random(seed)
    counts = dict.fromkeys(("sessions", "keys", "records", "refused at last", "sizes", "windows", "connections"), 0)
    end = time.monotonic() + seconds
    while time.monotonic() < end:
        with tempfile.TemporaryDirectory() as folder:
            one_session(dice, sanitized, min(20, max(end - time.monotonic(), 1)), counts, folder)
    print("random work:", ", ".join(f"{count} {name}" for name, count in counts.items()), flush=True)


def typing(seed, sanitized, seconds):
    """Typing beside its model."""
    t = typist.random_typing(seed, sanitized, seconds, time.monotonic, **CAREFUL)
    say_nothing(t.ended(ended_with(t, 60)), "random typing")


def garbage(dice):
    kind = dice.randrange(5)
    data = dice.randbytes(dice.randint(1, 3000))
    if kind == 1:
        data = data.replace(b"\xff", b"")
    elif kind == 2:
        data = b"\xff\xfd\x18" + data
    elif kind == 3:
        data = bytes(dice.choice([0xFF, 0xFA, 0xFB, 0xFD, 0xF0, 0xEF, 0x18, 0x01, 0x00]) for _ in range(2000))
    elif kind == 4:
        whole = bytearray(record(form(dice)))
        for _ in range(dice.randint(1, 4)):
            whole[dice.randrange(len(whole))] = dice.randrange(256)
        data = bytes(whole)
    return data


def garbage_hosts(seed, sanitized, count):
    dice = random.Random(seed)
    for number in range(count):
        data, negotiates = garbage(dice), dice.random() < 0.5
        if negotiates:
            host = Host()
            port = host.port
        else:
            port = plain(lambda line, data=data: (line.sendall(data), time.sleep(0.05)))
        t = Terminal(f"127.0.0.1:{port}", program=sanitized, **CAREFUL)
        if negotiates:
            host.ready()
            host.send_raw(data)
            t.read(0.2)
            host.close()
        t.until(lambda: "the session is over" in t.window.title, f"garbage host {number} ends")
        t.type("\x1dq")
        said = t.ended(ended_with(t, 60))
        say_nothing(said, f"garbage host {number}")


def ended_with(t, seconds):
    """The status with which it ends: 0 or 1 by what was refused, 2 by what wasn't there, and no other."""
    end = time.monotonic() + seconds
    while t.child.poll() is None and time.monotonic() < end:
        t.read(0.02)
    check(t.child.returncode in (0, 1, 2), "a status of 0 to 2", t.child.returncode)
    return t.child.returncode
