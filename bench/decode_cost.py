#!/usr/bin/env python3
"""What `t5250 check` costs, compared with a plain decoder of the same profile (plain_decoder.rs), on the same streams.

Build the program first (`cd crates/t5250 && rt run -- check < stdin`), then call this script from anywhere; `--help`
names its options. It builds the plain decoder by `rustc -O` into a temporary folder and

- checks that both print the same line for many randomly changed streams, and for each stream that is measured,
- prints for each of four streams, whole and by `--cut 1`, the processor time of both (user and system, the lowest of
  runs taken in turn) and its ratio, and where `valgrind` is installed the instructions per byte of the stream and
  their ratio. What the reading of the hex text costs is measured on the same text after two bytes that are refused,
  and the columns `hex` have it; the columns `less hex` have the ratio of what is left on both sides,
- prints what a byte of small records costs from 1 KB to 100 MB, less what a run on the empty stream costs,
- with `--keep` prints instead what `decode_all`, which keeps all items to its end, costs on the four streams,
  compared with the plain decoder that keeps all of its own,
- with `--feed` prints instead what `Receiver::feed` costs, compared with the plain decoder, each over the whole
  stream; `Station::feed`, in pieces of 4,096 bytes and with the screen, with `Receiver::feed`; `ExtendedStation::feed`
  with that, and `LastingStation::feed` on its display with that.

For the last two it makes a crate of keep_all.rattle or feed.rattle in a temporary folder, over copies of the crates
that it needs, with the work that checks kept in them (some gigabytes), and builds it by `rt`, which proves first what
that work lacks.
"""
import argparse
import os
import random
import re
import resource
import shutil
import subprocess
import sys
import tempfile

HERE = os.path.dirname(os.path.abspath(__file__))
sys.path.insert(0, os.path.join(HERE, "..", "tests"))

from records import ASKED, record  # noqa: E402

CRATES = os.path.join(HERE, "..", "crates")
PROGRAM = os.path.join(CRATES, "t5250", "out", "t5250")
CUTS = {"whole": [], "--cut 1": ["--cut", "1"]}
END_OF_RECORD = b"\xff\xef"


# ---- Streams ----


def small_records(_):
    """Clear Unit, Write to Display, Set Buffer Address, Start of Field, Read MDT Fields: 31 bytes."""
    return [record(bytes.fromhex("0440 04110008 110634 1D400020000A 04520000"))]


def long_data(source):
    """Write to Display, Set Buffer Address and bytes for cells: 1,770 bytes."""
    letters = bytes(range(0xC1, 0xCA)) + bytes(range(0x81, 0x8A)) + bytes(range(0xF0, 0xFA)) + b"\x40" * 8
    return [record(bytes.fromhex("04110008 110101") + bytes(source.choices(letters, k=1751))) for _ in range(20)]


def telnet_commands(_):
    """No operation, options asked for and granted, and subnegotiations."""
    return [bytes.fromhex("FFF1 FFFD18 FFFB18 FFFA1801FFF0 FFFA1800") + b"IBM-3179-2" + bytes.fromhex("FFF0 FFFD19 FFFB00")]


def many_ff(source):
    """Records of which two bytes for cells in three are FF, doubled: 3,000 bytes."""
    return [record(bytes.fromhex("04110008 110101") + bytes(source.choices(b"\xff\xff\xc1", k=1788))) for _ in range(20)]


def form(_):
    """A form as c/bench pushes it: Clear Unit, Write to Display, a text, a field, Read MDT Fields; 38 bytes."""
    return [record(bytes.fromhex("0440 04110008 110101 26 C889 20 110634 1D400027000A 04520000"))]


def rows_of_text(_):
    """A screen of text as c/bench pushes it: 20 rows of 76 letters; 1,598 bytes."""
    rows = b"".join(bytes([0x11, row, 1]) + b"\xc1" * 76 for row in range(1, 21))
    return [record(bytes.fromhex("0440 04110008") + rows, opcode=2)]


STREAMS = {
    "small records": small_records,
    "long data": long_data,
    "Telnet commands": telnet_commands,
    "many FF": many_ff,
}
FED = {"small records": small_records, "long data": long_data, "a form": form, "rows of text": rows_of_text}
# A length below a header's: the second byte is refused, so that of what follows little more than the text is read.
REFUSED = "0009\n"


def write_stream(path, parts, size, before=""):
    """Writes so many bytes, or some more, as hex text behind another, a line for each part: their number."""
    lines = [part.hex().upper() + "\n" for part in parts]
    round_size = sum(map(len, parts))
    rounds = max(1, -(-size // round_size))
    with open(path, "w") as text:
        text.write(before)
        for done in range(0, rounds, 1000):
            text.write("".join(lines) * min(1000, rounds - done))
    return rounds * round_size


# ---- Randomly changed streams ----


def random_element(source):
    """An element behind a Write to Display, and it most often right."""
    def byte():
        return source.randrange(256)

    def address():
        return bytes([source.randint(1, 24), source.randint(1, 80)])

    def field():
        words = [bytes([source.choice((0x40, 0x48, 0x61, 0x7F)), byte()])]
        words += [bytes([source.randint(0x80, 0xFF), byte()]) for _ in range(source.choice((0, 0, 1, 3, 8)))]
        return b"\x1d" + b"".join(words[: source.randint(0, len(words))]) + bytes([source.randint(0x20, 0x3F), 0, byte()])

    def header():
        count = source.randint(0, 7)
        return bytes([1, count]) + bytes(0 if at == 2 else byte() for at in range(count))

    def erase():
        count = source.randint(1, 4)
        return b"\x03" + address() + bytes([count + 1]) + bytes(source.choices(b"\0\xff", k=count))

    return source.choice((
        lambda: bytes(source.choices(b"\x40\xc1\xff\x00\xf0\x1c", k=source.randint(1, 9))),
        lambda: source.choice((b"\x11", b"\x13", b"\x14")) + address(),
        lambda: b"\x02" + address() + b"\x40",
        lambda: source.choice((b"\x04\x40", b"\x04\x50", b"\x04\x42\0\0", b"\x04\x52\0\0", b"\x04\x82\0\0")) + b"\x04\x11\0\x08",
        field,
        header,
        erase,
    ))()


def random_answer(source):
    """A station's answer to a read."""
    head = bytes([source.randint(1, 24), source.randint(1, 80), source.choice((0xF1, 0x31, 0xB3, 0xBD, 0xF8, 0xF9))])
    parts = []
    for _ in range(source.randint(0, 5)):
        parts.append(b"\x11" + bytes([source.randint(1, 24), source.randint(1, 80)]))
        parts.append(bytes(source.choices(b"\x40\xc1\xff\0", k=source.randint(0, 5))))
    return head + with_a_wrong_one(source, parts, WRONG_PARTS)


# What no element begins with, nor a part of an answer.
WRONG_ELEMENTS = [bytes.fromhex(text) for text in (
    "040A 04F3 0420 0402 0413 0423 0421 0422 0462 046C 0472 0483 10 12 15 1100 1119 110100 111851 0108 0103000001 "
    "02010104 02010111 03010101 03010106 0301010201 1D1F 1D80 1D44 1D46 1D400040 1D400080011F "
    "1D4000" + 9 * "8001" + " 0440C1"
).split()]
WRONG_PARTS = [bytes.fromhex(text) for text in "04 1D 1100 111851".split()]


def with_a_wrong_one(source, parts, wrong):
    """The parts, and often one that is wrong among them."""
    if source.random() < 0.4:
        parts.insert(source.randint(0, len(parts)), source.choice(wrong))
    return b"".join(parts)


def random_command(source):
    """A Telnet command, and seldom one that is wrong."""
    if source.random() < 0.05:
        return source.choice((b"\xff\xf0", b"\xff\xee", b"\xff\xfa\x18\xff\xf1"))
    data = bytes(source.choices(b"\0\x18\xff\x41", k=source.choice((0, 1, 5, 63, 64, 65))))
    return source.choice((
        bytes([0xFF, source.randint(0xF1, 0xF9)]),
        bytes([0xFF, source.randint(0xFB, 0xFE), source.choice((0, 0x18, 0x19, 0xFF))]),
        b"\xff\xfa\x18" + data.replace(b"\xff", b"\xff\xff") + b"\xff\xf0",
    ))


def random_stream(source, answers):
    """Records and commands, some of them inside records, of which few bytes are changed, put in or left out."""
    stream = bytearray()
    for _ in range(source.randint(1, 4)):
        if answers:
            body = random_answer(source)
        else:
            elements = [random_element(source) for _ in range(source.randint(0, 6))]
            body = b"\x04\x11\0\x08" + with_a_wrong_one(source, elements, WRONG_ELEMENTS)
        if source.random() < 0.1:
            body = body[:-1]
        whole = record(body, source.choice((0, 1, 2, 3, 4, 5, 6, 8, 10, 11, 12)), source.randrange(65536))
        if source.random() < 0.4:
            at = source.randrange(len(whole))
            whole = whole[:at] + random_command(source) + whole[at:]
        stream += whole
        if source.random() < 0.3:
            stream += random_command(source)
    for _ in range(source.choice((0, 0, 1, 1, 2))):
        # Now and then in the first header.
        at = source.randrange(min(len(stream), source.choice((10, 1000, 1000, 1000))))
        kind = source.randrange(5)
        if kind == 0:
            del stream[at:]
        elif kind == 1:
            del stream[at]
        elif kind == 2:
            stream[at:at] = bytes([source.choice((0xFF, 0x04, 0x11, 0x1D, source.randrange(256)))])
        elif kind == 3:
            stream[at] = source.randrange(256)
        else:
            stream[at] ^= 1 << source.randrange(8)
        if not stream:
            break
    return bytes(stream)


# ---- Runs ----


class Fault(Exception):
    """What ends the script, in words."""


def answer_of(words, text=None):
    """What a program prints, and its status."""
    run = subprocess.run(words, input=text, capture_output=True)
    return run.stdout, run.returncode


def run_on(path, words, **others):
    """A run, on the file as standard input where one is named."""
    if path is None:
        return subprocess.run(words, **others)
    with open(path) as text:
        return subprocess.run(words, stdin=text, **others)


def seconds(words, path=None):
    """The processor time of one run, user and system."""
    begun = resource.getrusage(resource.RUSAGE_CHILDREN)
    run_on(path, words, stdout=subprocess.DEVNULL)
    ended = resource.getrusage(resource.RUSAGE_CHILDREN)
    return ended.ru_utime + ended.ru_stime - begun.ru_utime - begun.ru_stime


def lowest_in_turn(programs, words, runs, path=None):
    """The lowest time of each program, over runs that are taken in turn."""
    taken = [[seconds([*program, *words], path) for program in programs] for _ in range(runs)]
    return [min(times) for times in zip(*taken)]


def instructions(words, path=None):
    """How many instructions a run takes."""
    run = run_on(
        path,
        ["valgrind", "--tool=callgrind", "--callgrind-out-file=/dev/null", *words],
        stdout=subprocess.DEVNULL,
        stderr=subprocess.PIPE,
        text=True,
    )
    counted = re.search(r"Collected *: *(\d+)", run.stderr)
    if counted is None:
        raise Fault(f"valgrind counted nothing:\n{run.stderr}")
    return int(counted.group(1))


def expect_same(programs, words, text=None):
    """Both programs print the same line with the same status: that line."""
    found = [answer_of([*program, *words], text) for program in programs]
    if found[0] != found[1]:
        given = "" if text is None else f" on {text.decode()}"
        raise Fault(f"the programs differ: {found[0]} and {found[1]}{given}")
    return found[0][0].decode()


# ---- What is printed ----


def compare_changed(programs, count):
    source = random.Random(854)
    verdicts = {}
    for turn in range(count):
        answers = turn % 4 == 3
        words = (["--answers"] if answers else []) + source.choice(([], ["--cut", "1"], ["--cut", "7"]))
        line = expect_same(programs, words, random_stream(source, answers).hex().encode())
        verdict = re.match(r"refused at \d+: (reason \d+)|(\w+)", line)
        verdict = verdict[1] or verdict[2]
        verdicts[verdict] = verdicts.get(verdict, 0) + 1
    reasons = sum(verdict.startswith("reason") for verdict in verdicts)
    print(f"{count} randomly changed streams: the same line for each;", end=" ")
    print(f"{verdicts.get('accepted', 0)} accepted, {verdicts.get('truncated', 0)} truncated, {reasons} reasons met")


def print_columns(title, counts):
    columns = f"{'plain':>8}{'ratio':>7}{'hex':>7}{'plain':>7}{'less hex':>10}"
    print(f"\n{title:<25}{'seconds':>9}{columns}", end="")
    print(f"{'instructions':>15}{columns}" if counts else "")


def print_costs(width, precision, costs, of_hex):
    """Prints what a stream costs both programs, what of it the hex text does, and the ratios."""
    (ours, plain), (our_hex, plain_hex) = costs, of_hex
    print(f"{ours:>{width}.{precision}f}{plain:>8.{precision}f}{ours / plain:>7.2f}", end="")
    less = (ours - our_hex) / (plain - plain_hex)
    print(f"{our_hex:>7.{precision}f}{plain_hex:>7.{precision}f}{less:>10.2f}", end="", flush=True)


class Stream:
    """A stream of so many bytes and a small one, and the same two where little more than their text is read."""

    def __init__(self, folder, parts, size, begin=""):
        names = ["stream", "hex", "small", "small_hex"]
        self.whole, self.hex, self.small, self.small_hex = (os.path.join(folder, f"{name}.hex") for name in names)
        write_stream(self.whole, parts, size, begin)
        write_stream(self.hex, parts, size, REFUSED)
        self.small_size = write_stream(self.small, parts, 1_000_000, begin)
        write_stream(self.small_hex, parts, 1_000_000, REFUSED)

    def print_costs(self, programs, words, runs, counts):
        """Prints the costs of a run on the stream as standard input."""
        times = [lowest_in_turn(programs, words, runs, path) for path in (self.whole, self.hex)]
        print_costs(9, 2, *times)
        if counts:
            numbers = [[instructions([*program, *words], path) / self.small_size for program in programs]
                       for path in (self.small, self.small_hex)]
            print_costs(15, 1, *numbers)
        print(flush=True)


def compare_streams(programs, folder, size, runs, counts):
    print_columns("", counts)
    for name, parts_of in STREAMS.items():
        stream = Stream(folder, parts_of(random.Random(1205)), size)
        for cut, words in CUTS.items():
            for path, begin in (stream.whole, "accepted"), (stream.hex, "refused at 1:"):
                line = expect_same(programs, [*words, path])
                if not line.startswith(begin):
                    raise Fault(f"{name}: {line}")
            print(f"{name:<16}{cut:<9}", end="", flush=True)
            stream.print_costs(programs, words, runs, counts)


def cost_by_size(programs, folder, largest, runs, counts):
    """What a byte of small records costs, without what a run on the empty stream costs."""
    print(f"\n{'small records':<16}{'':<9}{'ns':>9}{'plain':>8}", end="")
    print(f"{'instructions':>15}{'plain':>8}" if counts else "")
    path = os.path.join(folder, "stream.hex")
    empty = os.path.join(folder, "empty.hex")
    open(empty, "w").close()
    for cut, words in CUTS.items():
        times_of_none = lowest_in_turn(programs, [*words, empty], 20)
        counts_of_none = [instructions([*program, *words, empty]) if counts else 0 for program in programs]
        costs = []
        size = 1000
        while size <= largest:
            written = write_stream(path, small_records(None), size)
            print(f"{size:>13,} B {cut:<9}", end="")
            # Below 100 KB the time goes under in what a start takes.
            if size < 100_000:
                print(f"{'-':>9}{'-':>8}", end="")
            else:
                times = lowest_in_turn(programs, [*words, path], 20 if size < 1_000_000 else runs)
                ours, plain = ((time - none) * 1e9 / written for time, none in zip(times, times_of_none))
                print(f"{ours:>9.1f}{plain:>8.1f}", end="", flush=True)
            if counts and size <= 1_000_000:
                numbers = [instructions([*program, *words, path]) for program in programs]
                of_ours, of_plain = ((number - none) / written for number, none in zip(numbers, counts_of_none))
                print(f"{of_ours:>15.1f}{of_plain:>8.1f}", end="")
            print(flush=True)
            if size >= 1_000_000:
                costs.append(ours)
            size *= 10
        if len(costs) > 1:
            spread = max(costs) / min(costs)
            verdict = "flat" if spread < 1.25 else "not flat"
            print(f"{cut}: {verdict} from 1 MB on; the dearest size costs {spread:.2f} of the cheapest")


DECODER = ["ws_code", "ws_telnet", "ws_record", "ws_stream"]
STATION = [*DECODER, "ws_nego", "ws_identity", "ws_screen", "ws_keys", "ws_extended", "ws_end", "ws_session",
           "ws_extended_station", "ws_lasting"]


def build(folder, name, below):
    """Builds a program of this folder over crates of the repository: where it is."""
    crate = os.path.join(folder, "crates", name)
    os.makedirs(os.path.join(crate, "src"))
    shutil.copy(os.path.join(HERE, f"{name}.rattle"), os.path.join(crate, "src", "main.rt"))
    for other in below:
        shutil.copytree(os.path.join(CRATES, other), os.path.join(folder, "crates", other))
    with open(os.path.join(CRATES, "..", "crates.txt")) as crates:
        lines = [line for line in crates if line.split(":")[0] in below]
    with open(os.path.join(folder, "crates.txt"), "w") as crates:
        crates.write("".join(lines) + f"{name}: {' '.join(below)} hex arrayvec\n")
    built = subprocess.run(["rt", "run"], cwd=crate, input=b"FFF1", capture_output=True)
    if built.returncode != 0:
        raise Fault(f"{name}.rattle isn't built:\n{built.stdout.decode()}{built.stderr.decode()}")
    return os.path.join(crate, "out", name)


def compare_kept(programs, folder, size, runs, counts):
    """What `decode_all` costs beside the plain decoder that keeps all items, on whole streams."""
    print_columns("all items kept", counts)
    for name, parts_of in STREAMS.items():
        stream = Stream(folder, parts_of(random.Random(1205)), size)
        with open(stream.small, "rb") as text:
            expect_same(programs, [], text.read())
        print(f"{name:<25}", end="", flush=True)
        stream.print_costs(programs, [], runs, counts)


def compare_fed(feeder, plain, folder, size, runs, counts):
    """What `Receiver::feed` costs beside the plain decoder, and each kind of station beside the one before it."""
    receiver, station, extended = [feeder], [feeder, "station"], [feeder, "extended", "station"]
    lasting = [feeder, "lasting", *extended[1:]]
    opening = ASKED.hex() + "\n"
    for title, programs, begin in (("Receiver::feed", [receiver, [plain]], ""),
                                   ("Station::feed", [station, receiver], opening),
                                   ("ExtendedStation::feed", [extended, station], opening),
                                   ("LastingStation::feed", [lasting, extended], opening)):
        print_columns(title, counts)
        for name, parts_of in FED.items():
            stream = Stream(folder, parts_of(random.Random(1205)), size, begin)
            if begin:
                with open(stream.small, "rb") as text:
                    expect_same(programs, [], text.read())
            print(f"{name:<25}", end="", flush=True)
            stream.print_costs(programs, [], runs, counts)


def main():
    parser = argparse.ArgumentParser(description="What t5250 check costs, compared with a plain decoder.")
    parser.add_argument("program", nargs="?", default=PROGRAM, help="the program t5250")
    parser.add_argument("--megabytes", type=float, default=20, help="the size of each measured stream, 20")
    parser.add_argument("--largest", type=float, default=100, help="the largest stream of the cost by size, 100")
    parser.add_argument("--runs", type=int, default=5, help="how many runs the lowest time is taken of, 5")
    parser.add_argument("--changed", type=int, default=500, help="how many randomly changed streams, 500")
    parser.add_argument("--keep", action="store_true", help="measure decode_all, which keeps all items, in its place")
    parser.add_argument("--feed", action="store_true", help="measure Receiver::feed and three stations in its place")
    asked = parser.parse_args()
    with tempfile.TemporaryDirectory() as folder:
        plain = os.path.join(folder, "plain_decoder")
        source = os.path.join(HERE, "plain_decoder.rs")
        subprocess.run(["rustc", "--edition", "2021", "-O", "-C", "debuginfo=0", "-o", plain, source], check=True)
        programs = [[os.path.abspath(asked.program), "check"], [plain]]
        size = int(asked.megabytes * 1_000_000)
        counts = shutil.which("valgrind") is not None
        try:
            if asked.keep:
                kept = [[build(folder, "keep_all", DECODER)], [plain, "--keep"]]
                return compare_kept(kept, folder, size, asked.runs, counts)
            if asked.feed:
                return compare_fed(build(folder, "feed", STATION), plain, folder, size, asked.runs, counts)
            compare_changed(programs, asked.changed)
            compare_streams(programs, folder, size, asked.runs, counts)
            cost_by_size(programs, folder, int(asked.largest * 1_000_000), asked.runs, counts)
        except (Fault, OSError) as fault:
            sys.exit(str(fault))


main()
