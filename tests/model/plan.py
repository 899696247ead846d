"""Random sessions of `connect` and `serve`, with what the program is to do in each.

A plan has steps: what the other side sends, and lines of the script. What it sends isn't taken before a line waits, so
it may come long before its step. Only behind a line that waits in vain it has to come later, and behind one that takes
all that has come: that stands only where all is taken, and what comes next waits for bytes behind it.
"""
import random

from records import record
from model.bodies import Chance
from model.connect import Over

PRESENT, LATE = 120, 5
# How a script comes: as a file, all at once on standard input, or line by line, each behind the `ok` of the one before.
FORMS = ["file", "lines", "asked"]


class Part:
    """What the other side sends at once, or that it closes; it may wait for bytes, which it must have seen before or
    not, and for lines that wait in vain."""

    def __init__(self, data, behind, lates, must):
        self.data, self.behind, self.lates, self.must = data, behind, lates, must


class Plan:
    """A session. Its model has done all steps, once it is filled."""

    def __init__(self, seed, index, is_other):
        self.chance = Chance(random.Random(f"{seed}:{index}"))
        self.random = self.chance.random
        self.is_other = is_other
        self.form = self.random.choice(FORMS)
        self.is_ready = self.form == "asked" or self.chance.one_in(3)
        # Whether a line that is late, ended or refused ends the session: by a word, or without one in a file.
        self.after = self.random.choice([["--go-on"], ["--go-on"], ["--stop"], []])
        self.stops = self.after == ["--stop"] or (not self.after and self.form == "file")
        # Whether a line may wait in vain, once: its time is short then.
        self.is_slow = self.chance.one_in(20)
        self.wait = LATE if self.is_slow else PRESENT
        self.lates, self.is_silent, self.is_over = 0, False, False
        # How many bytes had gone out at the last line that took all that had come.
        self.looked = -1
        self.steps, self.parts, self.error = [], [], ""
        self.choose()
        self.model = self.new_model()
        self.fill()

    def do(self, model, step):
        """Has a model do a step. True where its line waits in vain."""
        kind, what = step
        if kind == "sends":
            model.came += what
        elif kind == "closes":
            model.is_closed = True
        else:
            self.number(model, what)
            return model.line(what)
        return False

    def number(self, model, what):
        """Has a model tell the number of a line that comes next, where the script is a file."""
        model.behind = f" (line {model.lines + 1})" if self.form == "file" else ""
        model.lines += len(self.text_of(what))

    def replayed(self):
        model = self.new_model()
        for step in self.steps:
            self.do(model, step)
        return model

    def sends(self, data):
        """The other side sends this, but not where the line before could take it or not."""
        self.comes("sends", data)

    def closes(self):
        self.comes("closes", None)

    def comes(self, kind, data):
        if self.looked < len(self.model.sent):
            self.steps.append((kind, data))
            self.parts.append(Part(data, len(self.model.sent), self.lates, self.looked + 1))
            self.do(self.model, self.steps[-1])

    def looks(self, line):
        """Whether a line takes all that has come."""
        return isinstance(line, str) and line.startswith(self.looking)

    def takes(self, data):
        """Whether the end takes this too, behind all that was sent; it need not once the session is over."""
        if self.is_over:
            return True
        model = self.replayed()
        model.came += data
        refused = model.refused_records
        try:
            model.take_all()
        except model.refused:
            return False
        return model.refused_records == refused

    def likely(self, make):
        """Mostly a record that is taken, and seldom one that was changed."""
        data = make()
        for _ in range(4):
            if self.chance.one_in(25) or self.takes(data):
                break
            data = make()
        return self.chance.changed(data) if self.chance.one_in(40) else data

    def in_two(self, data):
        """Sends a record's first bytes, and the others behind a line that waits, where they may still come."""
        at = self.random.randrange(1, len(data))
        self.sends(data[:at])
        self.line("await")
        if not self.is_silent and not self.chance.one_in(8):
            self.sends(data[at:])

    def late(self, line):
        """Whether a line would wait in vain."""
        if not (isinstance(line, str) and line.startswith("await")):
            return False
        try:
            return self.do(self.replayed(), ("line", line))
        except Over:
            return False

    def line(self, line):
        """A line of the script, but not one that waits in vain where none may any more."""
        if self.is_over:
            return
        is_late = self.late(line)
        if is_late and (not self.is_slow or self.lates):
            return
        if self.looks(line) and not self.model.is_settled():
            return
        self.steps.append(("line", line))
        try:
            self.do(self.model, self.steps[-1])
        except Over:
            self.is_over = True
        self.is_over = self.is_over or (self.stops and self.model.status == 1)
        if self.looks(line):
            self.looked = len(self.model.sent)
        if is_late:
            self.lates += 1
            # Without `ok` nothing tells the other side when to go on: it is silent from then on.
            self.is_silent = self.form != "asked"

    def fill(self):
        for token in self.negotiation():
            self.sends(token)
        for _ in self.chance.some(4, 22):
            if not self.is_over:
                self.step()
        if not self.is_silent and self.chance.one_in(4):
            if self.chance.one_in(3):
                self.sends(record(b"\x04\x40")[:self.random.randrange(1, 14)])
            self.closes()
            for _ in self.chance.some(1, 4):
                self.line(self.any_line())
        if self.is_over:
            # Lines that are never carried out.
            self.steps += [("line", self.never) for _ in self.chance.some(0, 2)]
        elif self.form != "file" and not self.is_ready and self.chance.one_in(20):
            self.steps.append(("line", "nonsense"))
            self.error, self.model.status = f"script line {len(self.script())}", 2
        else:
            self.finish()

    def negotiation(self):
        """The tokens of the other side, seldom in another order, without one, or with one more between two."""
        tokens = self.tokens()
        if self.chance.one_in(8):
            self.random.shuffle(tokens)
        if self.chance.one_in(20):
            tokens.pop(self.random.randrange(len(tokens)))
        for _ in range(2):
            if self.chance.one_in(4):
                tokens.insert(self.random.randrange(len(tokens) + 1), self.chance.noise())
        return tokens

    def finish(self):
        """What the program does behind the last line."""

    def script(self):
        """The lines of the script's text."""
        return [line for kind, what in self.steps if kind == "line" for line in self.text_of(what)]

    def text_of(self, line):
        return [line]

    def told(self):
        """The session as a person repeats it."""
        for kind, what in self.steps:
            if kind == "line":
                yield from (f"  > {line}" for line in self.text_of(what))
            else:
                yield f"  {kind} {what.hex().upper() if what else ''}"
