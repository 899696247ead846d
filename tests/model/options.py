"""Who answers which option, by the tables of docs/PROFILE.md, "Option negotiation"."""
WILL, WONT, DO, DONT = 0xFB, 0xFC, 0xFD, 0xFE
BINARY, TERMINAL, END_OF_RECORD = 0, 24, 25
TERMINALS = ["IBM-5251-11", "IBM-5291-1", "IBM-5292-2", "IBM-3196-A1", "IBM-3179-2"]
NEEDED = {("own", BINARY), ("own", END_OF_RECORD), ("other", BINARY), ("other", END_OF_RECORD)}


def told(verb, option):
    return bytes([0xFF, verb, option])


def sub(option, data):
    return bytes([0xFF, 0xFA, option]) + data.replace(b"\xff", b"\xff\xff") + b"\xff\xf0"


class Station:
    """The station's options: which directions are on, of its own and of the host."""

    known = {DO: (BINARY, TERMINAL, END_OF_RECORD), WILL: (BINARY, END_OF_RECORD)}

    def __init__(self, terminal):
        self.terminal, self.on = terminal, set()

    @property
    def allows_records(self):
        return NEEDED <= self.on

    def answer(self, token):
        """What is written at a Telnet command."""
        if token == ("sub", TERMINAL, b"\x01") and ("own", TERMINAL) in self.on:
            return sub(TERMINAL, b"\0" + self.terminal.encode())
        if token[0] != "option":
            return b""
        _, verb, option = token
        asks, end = {DO: (DO, "own"), DONT: (DO, "own"), WILL: (WILL, "other"), WONT: (WILL, "other")}[verb]
        yes, no = (WILL, WONT) if end == "own" else (DO, DONT)
        direction = (end, option)
        if option not in self.known[asks]:
            return told(no, option) if verb == asks else b""
        if (direction in self.on) == (verb == asks):
            return b""
        self.on ^= {direction}
        return told(yes if verb == asks else no, option)


class UnsupportedTerminal(Exception):
    pass


class Host:
    """A host end's options, each direction off, asked or on."""

    def __init__(self, takes_any):
        self.takes_any, self.name = takes_any, None
        self.has_sent, self.is_judged = False, False
        self.state = {("other", TERMINAL): "asked"}

    opening = told(DO, TERMINAL)

    @property
    def allows_records(self):
        return self.is_judged and all(self.state.get(direction) == "on" for direction in NEEDED)

    def answer(self, token):
        if token[0] == "sub" and token[1] == TERMINAL and token[2][:1] == b"\0":
            return self.judge(token[2][1:])
        if token[0] != "option":
            return b""
        _, verb, option = token
        end = "other" if verb in (WILL, WONT) else "own"
        yes, no = (DO, DONT) if end == "other" else (WILL, WONT)
        is_on = verb in (WILL, DO)
        if option not in ((BINARY, TERMINAL, END_OF_RECORD) if end == "other" else (BINARY, END_OF_RECORD)):
            return told(no, option) if is_on else b""
        if verb == WONT and option == TERMINAL and not self.is_judged:
            raise UnsupportedTerminal
        return self.turn((end, option), is_on, told(yes, option), told(no, option))

    def turn(self, direction, is_on, yes, no):
        before = self.state.get(direction, "off")
        if is_on:
            self.state[direction] = "on"
            if before == "asked" and direction == ("other", TERMINAL) and not self.has_sent:
                self.has_sent = True
                return sub(TERMINAL, b"\x01")
            return yes if before == "off" else b""
        self.state[direction] = "off"
        return no if before == "on" else b""

    def judge(self, name):
        """The first name behind SEND; then what isn't on yet is asked for."""
        if not self.has_sent or self.is_judged:
            return b""
        if not self.takes_any:
            name = name.upper()
            if name.decode("latin-1") not in TERMINALS:
                raise UnsupportedTerminal
        self.is_judged, self.name = True, name
        asked = b""
        for end, option in ("other", END_OF_RECORD), ("own", END_OF_RECORD), ("other", BINARY), ("own", BINARY):
            if self.state.get((end, option), "off") != "on":
                self.state[(end, option)] = "asked"
                asked += told(DO if end == "other" else WILL, option)
        return asked
