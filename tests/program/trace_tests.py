"""Both ends' streams as one dialogue: of a recording in the order of time, of two streams without times."""
import json
import os
import re

from program.form_tests import NO_RECORDINGS
from program.runs import Runs, run, spelled

NOTHING = "0 bytes, 0 records, 0 refused\n"
INVITE = spelled("", 1)
# A field without a cell, which the screen refuses, and then one that it takes.
NO_LENGTH, ONE_CELL = spelled("041100001D4000200000"), spelled("041100001D4000200001")

# A recording, the exit status, and what is printed.
TRACED = [
    ("", 0, f"host: {NOTHING}station: {NOTHING}"),
    # An item stands where its last byte came.
    ("5 host FF\n7 station FFF1\n9 host f1\n", 0,
     "+0.002 station at 1 telnet NOP\n+0.004 host at 1 telnet NOP\n"
     "host: 2 bytes, 0 records, 0 refused\nstation: 2 bytes, 0 records, 0 refused\n"),
    # Times: above a minute, below the first one, and above 64 bits.
    ("1000 host FFF1\n3724004 host FFF1\n7 host FFF1\n", 0,
     "+0.000 host at 1 telnet NOP\n+3723.004 host at 3 telnet NOP\n+0.000 host at 5 telnet NOP\n"
     f"host: 6 bytes, 0 records, 0 refused\nstation: {NOTHING}"),
    ("18446744073709551614 host FFF1\n99999999999999999999 host FFF1\n", 0,
     f"+0.000 host at 1 telnet NOP\n+0.001 host at 3 telnet NOP\nhost: 4 bytes, 0 records, 0 refused\nstation: {NOTHING}"),
    # It ends inside a token, inside a record, and inside one that is passed over.
    ("0 host FF\n", 1, f"host: 1 bytes, 0 records, 0 refused, truncated\nstation: {NOTHING}"),
    ("0 station 00\n", 1, f"host: {NOTHING}station: 1 bytes, 0 records, 0 refused, truncated\n"),
    ("0 host 00090000\n", 1,
     "+0.000 host refused at 1: reason 10 LengthBelowHeader\n"
     "  10: a record's length is less than its ten header bytes\n  bytes 00 090000\n"
     f"host: 4 bytes, 0 records, 1 refused, truncated\nstation: {NOTHING}"),
    # Where no record is open all up to the next EOR is passed over.
    (f"0 host FFF0{INVITE}{INVITE}\n", 1,
     "+0.000 host refused at 1: reason 2 StraySe\n  2: a subnegotiation is ended that was never begun\n"
     "  bytes FF F0000A12A0000004\n+0.000 host at 25 record flags 0000 opcode 1\n"
     f"host: 26 bytes, 1 records, 1 refused\nstation: {NOTHING}"),
    # Each end is read alone: a record before options, and an answer that nobody asked for.
    (f"0 station {spelled('110531')}\n", 0,
     "+0.000 station at 14 record flags 0000 opcode 3\n  HEAD 17 5 31\n"
     f"host: {NOTHING}station: 15 bytes, 1 records, 0 refused\n"),
    # A refused EOR ends its record.
    (f"0 host 000B12A0000004000003FFEF{INVITE}\n", 1,
     "+0.000 host refused at 11: reason 16 TooShort\n  16: a record is shorter than its header says\n"
     "  bytes A0000004000003FF EF000A12A0000004\n+0.000 host at 23 record flags 0000 opcode 1\n"
     f"host: 24 bytes, 1 records, 1 refused\nstation: {NOTHING}"),
    # In a record that is passed over Telnet commands are told, and what is no token is refused.
    (f"0 station 0009FFFFFFF1FF00FFEF{INVITE}\n", 1,
     "+0.000 station refused at 1: reason 10 LengthBelowHeader\n"
     "  10: a record's length is less than its ten header bytes\n  bytes 00 09FFFFFFF1FF00FF\n"
     "+0.000 station at 5 telnet NOP\n"
     "+0.000 station refused at 7: reason 1 BadCommand\n"
     "  1: no Telnet command has the byte that stands after FF\n  bytes 0009FFFFFFF1FF 00FFEF000A12A000\n"
     "+0.000 station at 21 record flags 0000 opcode 1\n"
     f"host: {NOTHING}station: 22 bytes, 1 records, 2 refused\n"),
    # A record that the screen refuses is told, and leaves nothing on it.
    (f"0 host {NO_LENGTH}\n1 host {ONE_CELL}\n", 1,
     "+0.000 host at 21 record flags 0000 opcode 3\n  WRITE 00 00\n  SF 4000 20 0\n"
     "+0.000 host refused at 21: reason 52 ZeroLength\n  52: an input field has no cells\n"
     "  bytes 001D4000200000FF EF001412A0000004\n"
     "+0.001 host at 43 record flags 0000 opcode 3\n  WRITE 00 00\n  SF 4000 20 1\n"
     f"host: 44 bytes, 2 records, 1 refused\nstation: {NOTHING}"),
    # What live hosts send in addition, and what their stations tell.
    ("0 host 001112A000000400000304F30005D97000FFEF\n", 0,
     f"+0.000 host at 18 record flags 0000 opcode 3\n  QUERY\nhost: 19 bytes, 1 records, 0 refused\nstation: {NOTHING}"),
]

# What a host and a station send, as hex text, and None where no file is named; the exit status, and what is printed.
STREAMS = [
    # The host's items stand before the station's, and none has a time.
    ("FFF1\n", "ff fb 18\nFFF1", 0,
     "host at 1 telnet NOP\nstation at 2 telnet WILL 24\nstation at 4 telnet NOP\n"
     "host: 2 bytes, 0 records, 0 refused\nstation: 5 bytes, 0 records, 0 refused\n"),
    # An end without a file sent nothing, as one with an empty one.
    ("FFF1", None, 0, f"host at 1 telnet NOP\nhost: 2 bytes, 0 records, 0 refused\nstation: {NOTHING}"),
    (None, "FFF1", 0, f"station at 1 telnet NOP\nhost: {NOTHING}station: 2 bytes, 0 records, 0 refused\n"),
    ("", " \n", 0, f"host: {NOTHING}station: {NOTHING}"),
    # After a refused record the next one is read.
    (NO_LENGTH + ONE_CELL, None, 1,
     "host at 21 record flags 0000 opcode 3\n  WRITE 00 00\n  SF 4000 20 0\n"
     "host refused at 21: reason 52 ZeroLength\n  52: an input field has no cells\n"
     "  bytes 001D4000200000FF EF001412A0000004\n"
     "host at 43 record flags 0000 opcode 3\n  WRITE 00 00\n  SF 4000 20 1\n"
     f"host: 44 bytes, 2 records, 1 refused\nstation: {NOTHING}"),
    (INVITE, f"{INVITE}0009FFEF{INVITE}", 1,
     "host at 11 record flags 0000 opcode 1\nstation at 11 record flags 0000 opcode 1\n"
     "station refused at 13: reason 10 LengthBelowHeader\n"
     "  10: a record's length is less than its ten header bytes\n  bytes 0004000001FFEF00 09FFEF000A12A000\n"
     "station at 27 record flags 0000 opcode 1\n"
     "host: 12 bytes, 1 records, 0 refused\nstation: 28 bytes, 2 records, 1 refused\n"),
    # A stream that ends too early.
    ("FF", "FFF1", 1, "station at 1 telnet NOP\n"
     "host: 1 bytes, 0 records, 0 refused, truncated\nstation: 2 bytes, 0 records, 0 refused\n"),
    # A live host's commands are the host's alone.
    ("001112A000000400000304F30005D97000FFEF", "", 0,
     f"host at 18 record flags 0000 opcode 3\n  QUERY\nhost: 19 bytes, 1 records, 0 refused\nstation: {NOTHING}"),
]


def members(head):
    """The members that the first words of a line stand for: the time and the sender, and what comes after them."""
    time, end, rest = re.fullmatch(r"(?:\+(\S+) )?(host|station) (.*)", head).groups()
    return ({"time": float(time)} if time else {}) | {"end": end}, rest


def objects(text):
    """The objects of JSON that say what the lines of a trace say."""
    found = []
    for lines in re.findall(r"^\S.*\n(?:  .*\n)*", text, re.M):
        head, *more = (line.strip() for line in lines.splitlines())
        if ended := re.fullmatch(r"(\w+): (\d+) bytes, (\d+) records, (\d+) refused(, truncated)?", head):
            end, *counts, truncated = ended.groups()
            found.append({"end": end, **dict(zip(("bytes", "records", "refused"), map(int, counts))), "whole": not truncated})
            continue
        first, rest = members(head)
        if refused := re.fullmatch(r"refused at (\d+): reason (\d+) (\w+)", rest):
            place, number, name = refused.groups()
            # Before the refused byte there may be none.
            bytes_ = more[1].split(" ")[1:]
            before, after = bytes_ if len(bytes_) == 2 else ("", *bytes_)
            found.append({**first, "before": before, "from": after, "at": int(place), "refused": int(number),
                          "name": name, "sentence": more[0]})
        elif telnet := re.fullmatch(r"at (\d+) telnet (.*)", rest):
            found.append({**first, "at": int(telnet[1]), "telnet": telnet[2]})
        else:
            place, flags, opcode = re.fullmatch(r"at (\d+) record flags (\w+) opcode (\d+)", rest).groups()
            found.append({**first, "at": int(place), "flags": flags, "opcode": int(opcode), "body": more})
    return found


class TestTrace(Runs):
    def test_objects(self):
        """With --json the same is told as objects, one on a line, without blanks between their parts."""
        rows = [(["trace", "--json"], text, status, written) for text, status, written in TRACED]
        for host, station, status, written in STREAMS:
            words = ["trace", "--json"]
            for end, data in ("host", host), ("station", station):
                if data is not None:
                    path = os.path.join(self.folder, f"{end}{len(rows)}")
                    with open(path, "w") as file:
                        file.write(data)
                    words += [f"--{end}", path]
            rows.append((words, "", status, written))
        for words, text, status, written in rows:
            done = run(words, text)
            found = [json.loads(line) for line in done.stdout.splitlines()]
            self.count(f"{words} of {text} told {done.stdout}", (done.returncode, found) == (status, objects(written)))
        first = '{"time":0.002,"end":"station","at":1,"telnet":"NOP"}\n{"time":0.004,"end":"host","at":1,"telnet":"NOP"}\n'
        ends = "".join(f'{{"end":"{end}","bytes":2,"records":0,"refused":0,"whole":true}}\n' for end in ("host", "station"))
        self.expect("objects as they are", run(["trace", "--json"], TRACED[1][0]), 0, first + ends, "")

    def test_traced(self):
        for text, status, written in TRACED:
            self.expect(f"trace of {text}", run(["trace"], text), status, written, "")

    def test_faults(self):
        for text, line in NO_RECORDINGS:
            self.expect(f"trace of {text}", run(["trace"], text), 2, "", f"script line {line}: it isn't `MILLISECONDS host|station HEX`\n")
        with open("/dev/full", "w") as full:
            self.expect("trace into a full file", run(["trace"], stdout=full), 2, "", "cannot write\n")


class TestStreams(Runs):
    def words(self, host, station, *more):
        """The words of a trace of these streams, None of which is no file."""
        words = ["trace", *more]
        for end, data in ("host", host), ("station", station):
            if data is not None:
                path = os.path.join(self.folder, end)
                with open(path, "wb") as file:
                    file.write(data)
                words += [f"--{end}", path]
        return words

    def test_traced(self):
        for host, station, status, written in STREAMS:
            for made, more in (str.encode, []), (bytes.fromhex, ["--raw"]):
                words = self.words(*[None if text is None else made(text) for text in (host, station)], *more)
                # No recording is read beside them.
                done = run(words, "no recording")
                self.expect(f"trace of {host}, {station} {more}", done, status, written, "")

    def test_either_order(self):
        words = self.words(b"FFF1", b"FF")
        wanted = run(words)
        swapped = run([words[0], *words[3:], *words[1:3]])
        self.expect("the station's word first", swapped, 1, wanted.stdout, "")

    def test_wrong_words(self):
        words = self.words(b"FFF1", b"FFF1")
        path = words[2]
        wrong = [[*words, path], ["trace", path, "--station", path], ["trace", "--host"], ["trace", "--station"],
                 [*words, "--host", path], ["trace", "--raw"], ["trace", "--raw", path], ["trace", "--of", "host"]]
        for words in wrong:
            self.expect(words, run(words, ""), 2, "", None)

    def test_faults(self):
        there, bad, other = (os.path.join(self.folder, name) for name in ("there", "bad", "other"))
        for path, text in (there, "FFF1"), (bad, "FFF"), (other, "FF F1\n0x"):
            with open(path, "w") as file:
                file.write(text)
        unread = [(f"{there}s", "no such file"), (self.folder, "is a folder"), ("-", "no such file"), ("", "no such file")]
        faults = [(path, f"cannot read: {path}: {why}\n") for path, why in unread]
        faults += [(bad, f"not hex: {bad}\n"), (other, f"not hex: {other}: byte 7 is 'x'\n")]
        for path, fault in faults:
            for words in ["--host", path], ["--station", path], ["--host", path, "--station", there], \
                    ["--host", there, "--station", path], ["--station", bad + "s", "--host", path]:
                done = run(["trace", *words], cwd=self.folder)
                self.expect(words, done, 2, "", fault)
        done = run(["trace", "--raw", "--host", there, "--station", self.folder])
        self.expect("a folder as raw bytes", done, 2, "", f"cannot read: {self.folder}: is a folder\n")

    def test_outputs(self):
        """Into a full device, into a pipe that nobody reads, and without standard output."""
        words = self.words(b"FFF1", b"")
        with open("/dev/full", "w") as full:
            self.expect("trace into a full device", run(words, stdout=full), 2, "", "cannot write\n")
        reading, writing = os.pipe()
        os.close(reading)
        self.expect("trace into a closed pipe", run(words, stdout=writing), 2, "", "")
        os.close(writing)
        written = f"host at 1 telnet NOP\nhost: 2 bytes, 0 records, 0 refused\nstation: {NOTHING}"
        for stream, status, out, fault in (0, 0, written, ""), (1, 2, "", "cannot write\n"):
            done = run(words, preexec_fn=lambda: os.close(stream))
            self.expect(f"trace without stream {stream}", done, status, out, fault)
        done = run(["trace", "--host", self.folder], preexec_fn=lambda: os.close(1))
        self.expect("a folder without standard output", done, 2, "", f"cannot read: {self.folder}: is a folder\n")
