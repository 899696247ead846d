"""A TCP connection as the packets that a capture would have of it, and their file."""
from __future__ import annotations

import socket
import struct

FIN, SYN, ACK, PUSH = 0x01, 0x02, 0x10, 0x18
RAW_IP = 101


class Session:
    """A TCP connection between a station and a host, as the packets that a capture would have of it."""

    def __init__(self, port: int = 23, station: tuple[str, int] = ("10.0.0.2", 50000), host: str = "10.0.0.1") -> None:
        self.ends = {"host": (host, port), "station": station}
        self.next = {"host": 4_294_967_290, "station": 1000}
        self.packets: list[bytes] = []

    def packet(self, side: str, flags: int, data: bytes = b"", captured: bool = True) -> Session:
        other = "station" if side == "host" else "host"
        (source, source_port), (target, target_port) = self.ends[side], self.ends[other]
        ports = struct.pack(">HH", source_port, target_port)
        counts = struct.pack(">II", self.next[side], self.next[other] if flags & ACK else 0)
        segment = ports + counts + struct.pack(">BBHHH", 0x50, flags, 65535, 0, 0) + data
        if ":" in source:
            addresses = socket.inet_pton(socket.AF_INET6, source) + socket.inet_pton(socket.AF_INET6, target)
            whole = struct.pack(">IHBB", 6 << 28, len(segment), 6, 64) + addresses + segment
        else:
            addresses = socket.inet_aton(source) + socket.inet_aton(target)
            whole = struct.pack(">BBHHHBBH", 0x45, 0, 20 + len(segment), 1, 0, 64, 6, 0) + addresses + segment
        self.next[side] = (self.next[side] + len(data) + bool(flags & (SYN | FIN))) % (1 << 32)
        if captured:
            self.packets.append(whole)
        return self

    def open(self) -> Session:
        return self.packet("station", SYN).packet("host", SYN | ACK).packet("station", ACK)

    def back(self, side: str, count: int) -> Session:
        """What the side sends next begins so many bytes before: it sends them again."""
        self.next[side] = (self.next[side] - count) % (1 << 32)
        return self

    def host(self, data: bytes, captured: bool = True) -> Session:
        return self.packet("host", PUSH, data, captured)

    def station(self, data: bytes, captured: bool = True) -> Session:
        return self.packet("station", PUSH, data, captured)


def time_of(number: int) -> int:
    """When a capture's packet was taken, in microseconds since 1970."""
    return 1_700_000_000_000_000 + number * 334_500


def write_capture(path: str, packets: list[bytes], longest: int = 65535) -> None:
    """Writes a file of packets, of each at most so many bytes, as by `tcpdump -s`."""
    with open(path, "wb") as file:
        file.write(struct.pack("<IHHiIII", 0xA1B2C3D4, 2, 4, 0, 0, longest, RAW_IP))
        for number, packet in enumerate(packets):
            kept = packet[:longest]
            file.write(struct.pack("<IIII", *divmod(time_of(number), 1_000_000), len(kept), len(packet)) + kept)
