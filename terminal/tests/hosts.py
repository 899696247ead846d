"""Hosts to try the terminal at: `host5250`, and one in Python that sends whatever a test asks for.

What it sends is spelled as RFC 854, RFC 1205 and SC30-3533 (commands and orders) say."""
import queue
import socket
import subprocess
import threading
import time

from records import ASKED, OPTIONS, record

UNLOCK, READ = b"\x04\x11\x00\x08", b"\x04\x52\x00\x00"
# A Roll from row 0, which no station takes, and what is told of such a record (SC30-3533, negative responses).
ROLL, NEGATIVE = b"\x04\x23\x00\x00\x18", (0, 0x8000, bytes.fromhex("10030101"))


def write(cc2=0x08):
    """Clear Unit, and a Write to Display."""
    return bytes([0x04, 0x40, 0x04, 0x11, 0x00, cc2])


def at(row, column):
    return bytes([0x11, row, column])


def text(row, column, words, attribute=None, page="cp037"):
    """Text, behind an attribute where one is named."""
    front = at(row, column - 1) + bytes([attribute]) if attribute is not None else at(row, column)
    return front + words.encode(page) + (b"\x20" if attribute is not None else b"")


def field(row, column, length, form=0x4000, attribute=0x24):
    order = bytes([0x1D]) + form.to_bytes(2, "big") + bytes([attribute]) + length.to_bytes(2, "big")
    return at(row, column - 1) + order


class Host:
    """A host for one station: `send` sends a record, `answer` gives the next record that comes. What it sends `first`
    is Telnet before all else."""

    def __init__(self, family=socket.AF_INET, where="127.0.0.1", port=0, negotiates=True, reads=True, first=b""):
        self.listening = socket.create_server((where, port), family=family)
        if not reads:  # Little is under way then before the station has to wait.
            self.listening.setsockopt(socket.SOL_SOCKET, socket.SO_RCVBUF, 4096)
        self.port = self.listening.getsockname()[1]
        self.is_ready = threading.Event()
        self.line = None
        self.window = None  # A terminal whose output is taken while an answer is waited for.
        self.negotiates, self.reads, self.first = negotiates, reads, first
        self.again()

    def again(self):
        """Waits for a station, for the first or the next one."""
        self.raw = b""
        self.came = queue.Queue()
        self.is_ready.clear()
        threading.Thread(target=self.serve, daemon=True).start()

    def serve(self):
        came = self.came
        try:
            line = self.line = self.listening.accept()[0]
            line.setsockopt(socket.IPPROTO_TCP, socket.TCP_NODELAY, 1)
            if self.negotiates:
                self.negotiate()
            self.is_ready.set()
            while self.reads and (data := line.recv(65536)):
                self.take(data)
        except OSError:
            pass
        came.put(None)

    def negotiate(self):
        self.line.sendall(self.first + ASKED)  # At once, whatever is at the other end.
        last = OPTIONS[-1][1]
        while last not in self.raw:
            if not (data := self.line.recv(4096)):
                raise OSError
            self.raw += data
        self.began, _, self.raw = self.raw.partition(last)  # The station's side of the negotiation, and what is behind it.

    def take(self, data):
        self.raw += data
        while b"\xff\xef" in self.raw.replace(b"\xff\xff", b"\x00\x00"):
            end = self.raw.replace(b"\xff\xff", b"\x00\x00").index(b"\xff\xef")
            whole, self.raw = self.raw[:end].replace(b"\xff\xff", b"\xff"), self.raw[end + 2 :]
            self.came.put((whole[9], int.from_bytes(whole[7:9], "big"), whole[10:]))

    def ready(self):
        return self.is_ready.wait(60)

    def send(self, body, opcode=3):
        self.line.sendall(record(body, opcode))

    def send_raw(self, data):
        self.line.sendall(data)

    def answer(self, seconds=60):
        """The opcode, flags and body of the next record; None where none comes, or the line is closed."""
        end = time.monotonic() + seconds
        while time.monotonic() < end:
            try:
                return self.came.get(timeout=0.02)
            except queue.Empty:
                if self.window is not None:
                    self.window.read(0)
        return None

    def close(self):
        self.listening.close()
        self.hang_up()

    def hang_up(self):
        if self.line is not None:
            try:
                self.line.shutdown(socket.SHUT_RDWR)  # A close alone waits for the thread that reads.
            except OSError:
                pass
            self.line.close()


def inputs(answer, page="cp037"):
    """The key of an answer, and the text of its fields by their place."""
    if answer is None:
        return None, {}
    body, fields, at = answer[2], {}, 3
    while at + 2 < len(body):
        end = body.find(b"\x11", at + 3)  # Row and column may be 11, cells may not.
        end = len(body) if end < 0 else end
        fields[body[at + 1], body[at + 2]] = body[at + 3 : end].decode(page)
        at = end
    return body[2], fields


def plain(serve):
    """A server that does what is asked with its first connection; its port."""
    listening = socket.create_server(("127.0.0.1", 0))

    def run():
        line = listening.accept()[0]
        try:
            serve(line)
        except OSError:
            pass
        line.close()
        listening.close()

    threading.Thread(target=run, daemon=True).start()
    return listening.getsockname()[1]


def says(data):
    """What a server does that sends this, and then nothing until the other end closes."""
    def serve(line):
        line.sendall(data)
        while line.recv(4096):
            pass
    return serve


class Host5250:
    """The program host5250."""

    program = None

    def __init__(self, *words):
        self.child = subprocess.Popen([Host5250.program, *words], stdout=subprocess.PIPE, text=True)
        self.port = self.child.stdout.readline().split()[1]

    def stop(self):
        self.child.terminate()
        rest = self.child.stdout.read()
        self.child.wait()
        return rest
