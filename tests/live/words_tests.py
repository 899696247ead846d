"""Wrong lines and wrong command lines, and connections that nobody makes."""
import socket

from counted import Test
from live.lines import at_host, sending
from live.program import Run, timed
from live.screens import SIGN_ON, SIGN_ON_FIELDS
from peers import Host, swallowed


# Words behind `connect` that ask for nothing: options, no host, no port, no address in brackets.
WRONG_CONNECTS = [
    ["--wait", "0", "127.0.0.1"],
    ["--wait", "86401", "127.0.0.1"],
    ["--wait", "x", "127.0.0.1"],
    ["--wait", "-1", "127.0.0.1"],
    ["--wait", "1.5", "127.0.0.1"],
    ["--wait", "1", "--wait", "2", "127.0.0.1"],
    ["--terminal", "IBM-1", "127.0.0.1"],
    ["--terminal", "IBM-3179", "127.0.0.1"],
    ["--terminal", "", "127.0.0.1"],
    ["--answers", "127.0.0.1"],
    ["--strict", "--strict", "127.0.0.1"],
    ["--screen", "127.0.0.1"],
    ["127.0.0.1", "a", "b"],
    ["127.0.0.1", "99999"],
    ["127.0.0.1:23", "24", "b"],
    ["127.0.0.1", "23", "a", "b"],
    [],
] + [[word] for word in [
    "", ":23", "127.0.0.1:", "127.0.0.1:99999", "127.0.0.1:65536", "127.0.0.1:+23", "127.0.0.1:-1", "127.0.0.1: 23",
    "127.0.0.1:23 ", "127.0.0.1:0x17", "127.0.0.1:telnet", "127.0.0.1:1:2", "a:b:c",
    "[", "[]", "[::1", "[::1]x", "[::1]23", "[::1]:", "[host]:23", "[127.0.0.1]:23", "[127.0.0.1]", "::1]:23",
    "[fe80::1%]:23", "[%eth0]:23", "[host%eth0]:23", "[fe80::1%eth0:1]:23", "fe80::1%", "fe80::1%eth0:23",
]]
WRONG_SERVES = [
    [],
    ["--wait", "0", "127.0.0.1:0"],
    ["--terminal", "IBM-3179-2", "127.0.0.1:0"],
    ["--color", "127.0.0.1:0"],
    ["--extended", "127.0.0.1:0"],
    ["--strict", "127.0.0.1:0"],
    ["127.0.0.1:0", "a", "b"],
] + [[word] for word in [
    "127.0.0.1", "localhost", "::1", "[::1]", "::1:5250", ":5250", "127.0.0.1:", "127.0.0.1:65536", "127.0.0.1:99999",
    "127.0.0.1:+1",
]]


class TestWords(Test):
    def test_wrong_lines(self):
        # At standard input a line before it is carried out.
        at_host(sending(SIGN_ON), ["--wait", "60"], "await\nfields\nsettle\nshow\n", 2, SIGN_ON_FIELDS,
                "script line 3\n", host_ends=False)
        words = ["wait", "await ", "await records", "await text", "await text ", "key enter", "key", "send 3 00",
                 "down all", "show x", "fields ", "Show", "type", " await", "cancel", "\ufeffawait"]
        for line in words:
            # Nothing is connected: there is no host.
            Run(["connect", "--wait", "1", "127.0.0.1:1"], script="show\n\n%s\n" % line).end(2, "", "script line 3\n")
        words = ["wait", "await record", "await ", "  CLEAR-UNIT", "send", "send ", "send x", "send 3 ", "send 3 0",
                 "send 10", "send 256", "send 3 0440F3", "type A", "key Enter", "show x", "await enter", "cancel ",
                 "down all", "settle"]
        for line in words:
            run = Run(["serve", "--wait", "1", "127.0.0.1:0"], script="cancel\n# no line\n%s\n" % line)
            run.end(2, "", "script line 3\n")

    def test_wrong_command_lines(self):
        for words in WRONG_CONNECTS:
            Run(["connect"] + words, "").end(2, "", None)
        for words in WRONG_SERVES:
            Run(["serve"] + words, "").end(2, "", None)
        for words in (["help", "connect"], ["help", "serve"], ["connect", "--help"]):
            self.assertIn("Examples:", Run(words, "").end(0))

    def test_no_connection(self):
        gone = socket.socket()
        gone.bind(("127.0.0.1", 0))
        port = gone.getsockname()[1]
        # It is bound, and nobody listens.
        refused = "no connection to 127.0.0.1:%d: refused\n" % port
        Run(["connect", "--wait", "60", "127.0.0.1:%d" % port], "await\n").end(2, "", refused)
        Run(["serve", "127.0.0.1:%d" % port], "").end(2, "", "no connection: address in use\n")
        gone.close()
        unknown = "no connection to no-such-host.invalid:23: unknown name\n"
        Run(["connect", "--wait", "60", "no-such-host.invalid"], "await\n").end(2, "", unknown)
        Run(["serve", "no-such-host.invalid:0"], "").end(2, "", "no connection: unknown name\n")
        # By each option, of which one has a longer number than it needs.
        words = ["--ready", "--color", "--strict", "--extended", "--stop", "--wait=007", "--terminal=ibm-3196-a1",
                 "--record=" + self.folder + "/it"]
        Run(["connect", *words, "127.0.0.1:%d" % port], script="await\n").end(2, "", refused)
        # Not one of this machine's addresses.
        Run(["serve", "192.0.2.1:0"], "").end(2, "", "no connection: no address of this machine\n")
        fault = "cannot read: no such file: no such file\n"
        Run(["connect", "127.0.0.1", "no such file"], "").end(2, "", fault)

    def test_a_port_in_a_word_of_its_own(self):
        for more in {"script": "await\nfields\n"}, {"text": "await\nfields\n"}:
            host = Host(sending(SIGN_ON), "127.0.0.1")
            Run(["connect", "--wait", "60", "127.0.0.1", str(host.port)], **more).end(0, SIGN_ON_FIELDS)
            host.end()

    def test_a_time_out_while_connecting(self):
        with swallowed("127.0.0.1") as port:
            run = Run(["connect", "--wait", "1", "127.0.0.1:%d" % port], "")
            run.end(2, "", "no connection to 127.0.0.1:%d: late\n" % port)
        timed(0.9, 30, run.began, "it")
