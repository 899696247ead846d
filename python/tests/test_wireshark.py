"""Wireshark reads what a live station says of itself, and how it answers a record that it refuses."""
from __future__ import annotations

import shutil
import subprocess
import tempfile
import unittest
import xml.etree.ElementTree

from packets import Session, write_capture
from ribbonscarp import Station
from support import PAST_END, record

# What the host sends, a packet each: NEW-ENVIRON (RFC 1572), the options of RFC 1205, and two records to refuse.
SENT = [
    *map(bytes.fromhex, ("FFFD27", "FFFA2701FFF0", "FFFD18", "FFFA1801FFF0", "FFFD19FFFB19", "FFFD00FFFB00")),
    record("04 23 61 01 05"),
    record(PAST_END),
]
VARIABLES = b"\0\x03DEVNAME\x01DSP01\x03KBDTYPE\x01AGB\x03CODEPAGE\x01273\x03CHARSET\x01697"


def fields_of(capture: str, protocol: str, names: set[str]) -> list[list[tuple[str, str]]]:
    """Of each packet of a station what Wireshark calls and shows of these fields of a protocol, in order."""
    command = ["tshark", "-r", capture, "-Y", f"{protocol} && ip.src == 10.0.0.2", "-T", "pdml"]
    read = subprocess.run(command, capture_output=True, timeout=120, check=True)
    packets = []
    for packet in xml.etree.ElementTree.fromstring(read.stdout).iter("packet"):
        fields = [(field.get("name", ""), field.get("show", "")) for field in packet.iter("field")]
        packets.append([(name.partition(".")[2], show) for name, show in fields if name.partition(".")[2] in names])
    return packets


@unittest.skipUnless(shutil.which("tshark"), "tshark isn't here")
class WiresharkTest(unittest.TestCase):
    def setUp(self) -> None:
        folder = tempfile.TemporaryDirectory()
        self.addCleanup(folder.cleanup)
        self.capture = f"{folder.name}/live.pcap"
        session = Session().open()
        with Station(device="DSP01", code_page=273) as station:
            for data in SENT:
                session.host(data).station(station.push(data))
        write_capture(self.capture, session.packets)

    def test_names(self) -> None:
        """The option is taken, and each variable is told."""
        packets = fields_of(self.capture, "telnet", {"cmd", "subcmd", "option_data", "string_subopt.value"})
        told = VARIABLES.hex(":")
        self.assertEqual(packets[0], [("cmd", "251"), ("subcmd", "39")])
        self.assertEqual(packets[1], [("cmd", "250"), ("subcmd", "39"), ("option_data", told), ("cmd", "240")])
        self.assertEqual(packets[3][2:], [("subcmd", "0"), ("string_subopt.value", "IBM-3179-2"), ("cmd", "240")])

    def test_negative_responses(self) -> None:
        """Records with the flag of a data stream error, an opcode of no operation, and four bytes that say why."""
        names = {"logical_record_length", "header_flags", "ds_output_error", "operation_code", "negative_response"}
        head = [("logical_record_length", "14"), ("header_flags", "0x80"), ("ds_output_error", "1")]
        wanted = [[*head, ("operation_code", "0x00"), ("negative_response", why)] for why in ("0x10030101", "0x10050121")]
        self.assertEqual(fields_of(self.capture, "tn5250", names), wanted)
