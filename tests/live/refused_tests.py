"""Records that `connect` refuses: each is told and answered, and the session goes on."""
import threading
import unittest

from live.lines import at_host, sending, settled_connect
from live.screens import PAST_END, PRICE, SIGN_ON, SIGN_ON_SCREEN
from live.taking_tests import PRICED_SCREEN, told_connect
from peers import expect
from records import ASKED, OF_COMMAND, OF_OTHER, record
from refusals import told_refusal

# An order that is left out, at the record's byte 14; and the same behind three FFs, which are doubled on the line.
ORDER, ORDER_BEHIND = "0411000010" "C1C2", "04110008" "010700000000FFFFFF" "10"

# What is sent, which of its bytes is refused, and why; then the answer.
REFUSED = [
    (record("05"), 10, "20 NoEscape", OF_COMMAND), (record("04AA"), 11, "21 UnknownCommand", OF_COMMAND),
    (record("04020462"), 15, "35 ReadScreen", OF_COMMAND), (record(ORDER), 14, "39 TransparentData", OF_OTHER),
    (record(ORDER_BEHIND), 26, "39 TransparentData", OF_OTHER),
    (record(PAST_END), len(record(PAST_END)) - 1, "53 FieldPastEnd", OF_OTHER),
    (bytes.fromhex("000A12A100000400000003FFEF"), 3, "11 BadType", OF_OTHER),
]
BEHIND_SIGN_ON = len(ASKED + record(SIGN_ON))

# Two records with FFs that stand twice, and with an option that is refused. The first is refused at a Roll's control
# byte, its byte 12, which comes as byte 16; the second, which is too short, at its last byte, which comes as byte 31.
ROLL = bytes.fromhex("00FFFF12 FFFD27 A0000004000003 042361 FFFF FFFD27 FFEF")
SHORT = bytes.fromhex("00FFFF FFFD27 FFEF")
REFUSES = bytes.fromhex("FFFC27")


def told(place, reason="39 TransparentData", who="record"):
    return told_refusal(who, BEHIND_SIGN_ON + place, reason)


def behind_sign_on(sent, answer):
    """What a host does that sends something behind the sign-on and takes what answers it."""
    return sending(SIGN_ON, then=sent, answer=answer)


class TestRefused(unittest.TestCase):
    def test_a_record_between_two(self):
        """It has no effect, isn't the record that is awaited, and the line at which it came didn't go well."""
        for sent, place, reason, answer in REFUSED:
            play = behind_sign_on(sent + record(PRICE), answer)
            at_host(play, ["--ready", "--wait", "60"], "await\nawait record\nshow\n", 1,
                    "ok\n" + told(place, reason) + "ok\n" + PRICED_SCREEN + "ok\n")

    def test_a_script_stops_there(self):
        play = behind_sign_on(record(ORDER) + record(PRICE), OF_OTHER)
        lines = "await\nawait record\nshow\n"
        at_host(play, ["--wait", "60"], None, 1, told(14), script=lines)
        at_host(play, ["--wait", "60", "--go-on"], None, 1, told(14) + PRICED_SCREEN, script=lines)
        at_host(play, ["--wait", "60", "--stop"], lines, 1, told(14))

    def test_a_station_of_the_profile(self):
        play = behind_sign_on(record(ORDER), b"")
        printed = told(14, who="station")
        at_host(play, ["--strict", "--wait", "60"], "await\nawait record\nshow\n", 1, printed)

    def test_some_in_one_wait(self):
        """Each is told in its turn, in a wait for anything, before how that ends."""
        sent = record(ORDER) + record(PRICE) + record(PAST_END)
        place = len(sent) - 1
        both = told(14) + told(place, "53 FieldPastEnd")
        for line, behind in [("await text No such text", "late\n"), ("await quiet 500", ""), ("await text 12.50", None)]:
            play = behind_sign_on(sent, OF_OTHER * 2)
            printed = told(14) if behind is None else both + behind
            # What one wait leaves the next line takes.
            last = told(place, "53 FieldPastEnd") + "12.50\n" if behind is None else "12.50\n"
            at_host(play, ["--wait", "3"], "await\n%s\nshow 5 19 5\n" % line, 1, printed + last)

    def test_what_is_shown(self):
        """It is told before what is shown, and isn't ahead."""
        for sent, answer, screen, ahead in [(record(ORDER), OF_OTHER, SIGN_ON_SCREEN, False),
                                            (record(ORDER) + record(PRICE), OF_OTHER, PRICED_SCREEN, True)]:
            for line, printed in [("show", screen), ("show 1 37 7", "Sign On\n")]:
                connect, host = told_connect(2, sent, answer)
                expect(connect.asked(line), told(14) + printed, line)
                if ahead:
                    expect(connect.asked("await record"), "", "await record")
                expect(connect.asked("await record"), "late\n", "await record")
                connect.end(1, "")
                host.end()

    def test_what_a_status_counts(self):
        """The bytes of a record that is refused, and not the record."""
        connect, host = told_connect(60, record(ORDER) + record(PRICE), OF_OTHER)
        *refused, status = connect.asked("status").splitlines(keepends=True)
        taken = BEHIND_SIGN_ON + len(record(ORDER) + record(PRICE))
        expect("".join(refused), told(14), "status")
        expect(status, "status unlocked ready 6 53 field 1 records 2 bytes %d\n" % taken, "status")
        connect.end(1, "")
        host.end()

    def test_it_is_told_at_the_eor_and_counts_all_bytes(self):
        for pieces in 0, 1:
            go = threading.Event()

            def play(side):
                side.send(ROLL[:-1], pieces)
                side.take(REFUSES * 2)
                go.wait(60)
                side.send(ROLL[-1:] + record(PRICE), pieces)
                side.take(OF_COMMAND)
                side.take_end()
            connect, host = settled_connect(play, 60)
            expect(connect.asked("await quiet 500"), "", "await quiet")
            go.set()
            expect(connect.asked("await record"), told(16, "33 Roll"), "await record")
            connect.end(1, "")
            host.end()

    def test_a_record_refused_as_a_whole_is_so_at_its_last_byte(self):
        play = behind_sign_on(ROLL + SHORT + record(PRICE), REFUSES * 2 + OF_COMMAND + REFUSES + OF_OTHER)
        printed = told(16, "33 Roll") + told(31, "16 TooShort")
        at_host(play, ["--ready", "--wait", "60"], "await\nawait record\n", 1, "ok\n" + printed + "ok\n")

    def test_keys_while_one_is_passed_over(self):
        go = threading.Event()
        whole = record(ORDER)

        def play(side):
            side.send(whole[:15])
            side.take(record("0636F1" "110635C1"))
            side.send(whole[15:] + record(PRICE))
            side.take(OF_OTHER)
            go.set()
            side.take_end()
        connect, host = settled_connect(play, 60)
        for line in "await quiet 500", "type A", "key Enter":
            expect(connect.asked(line), "", line)
        expect(connect.asked("await record"), told(14), "await record")
        go.wait(60)
        expect(connect.asked("show 5 2 22"), "Price  . . . .   12.50\n", "show")
        connect.end(1, "")
        host.end()
