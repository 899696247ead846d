"""The other side of a session's connection: it cuts, delays and joins what it sends at random."""
import random
import socket
import threading
import time

MOST_PIECES, LONGEST_PAUSE = 120, 0.004
# For what it waits at the most; the program waits for it longer, two minutes.
SECONDS = 60


class Peer:
    """Sends the parts of a plan, and keeps what comes."""

    def __init__(self, plan, seed):
        self.parts, self.random = plan.parts, random.Random(seed)
        # Whether each part waits for what the session has sent before it, as a host with a person at its other side.
        self.is_patient = self.random.randrange(2) == 0
        self.came, self.lates, self.has_ended = b"", 0, False
        self.changed = threading.Condition()

    def late(self):
        """A line has waited in vain."""
        with self.changed:
            self.lates += 1
            self.changed.notify_all()

    def play(self, side):
        """Sends the parts, reads to the end, and closes."""
        self.stream = side.stream
        self.stream.settimeout(SECONDS)
        self.stream.setsockopt(socket.IPPROTO_TCP, socket.TCP_NODELAY, 1)
        reader = threading.Thread(target=self.read, daemon=True)
        reader.start()
        try:
            for data in self.joined():
                self.send(data)
        except OSError:
            # The session has ended before it took all.
            pass
        reader.join(2 * SECONDS)
        side.close()

    def read(self):
        piece = b"-"
        while piece:
            try:
                piece = self.stream.recv(4096)
            except OSError:
                piece = b""
            with self.changed:
                self.came += piece
                self.has_ended = not piece
                self.changed.notify_all()

    def joined(self):
        """What is sent, each as soon as it may be; parts that needn't wait are joined at random. None: it closes."""
        data = b""
        for part in self.parts:
            is_free = part.lates <= self.lates and not self.is_patient and part.must <= len(self.came)
            if data and not (is_free and self.random.randrange(3)):
                yield data
                data = b""
            if not self.await_turn(part):
                return
            if part.data is None:
                if data:
                    yield data
                yield None
                return
            data += part.data
        if data:
            yield data

    def await_turn(self, part):
        """Waits until a part may be sent; False where the session has ended before."""
        def is_turn():
            behind = part.behind if self.is_patient else part.must
            return part.lates <= self.lates and behind <= len(self.came)
        with self.changed:
            self.changed.wait_for(lambda: is_turn() or self.has_ended, SECONDS)
            return is_turn()

    def send(self, data):
        if data is None:
            self.stream.shutdown(socket.SHUT_WR)
            return
        most = self.random.choice([1, 3, 40, 5000])
        if len(data) > most * MOST_PIECES:
            most = 5000
        while data and not self.has_ended:
            length = self.random.randint(1, most)
            self.stream.sendall(data[:length])
            data = data[length:]
            if self.random.randrange(4) == 0:
                time.sleep(self.random.random() * LONGEST_PAUSE)
