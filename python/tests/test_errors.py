"""Errors: they go to another process as they are."""
from __future__ import annotations

import copy
import pickle
import unittest

import ribbonscarp
from ribbonscarp import ConnectionEnded, FieldNotFound, Key, KeyRefusal, KeyRefused, LibraryNotFound, Reason
from ribbonscarp import RecordRefused, Refused, RibbonscarpError, SendRefused, Status, StatusError, TextTooLong, Truncated
from ribbonscarp import WaitedTooLong
from support import FORM, ready_station


class ErrorsTest(unittest.TestCase):
    def test_copies(self) -> None:
        """By pickle and by copy, with text and attributes."""
        with ready_station(FORM) as station:
            screen = station.screen
        refused = Refused(Reason.ROLL, 5, "33: no")
        refused.before, refused.after, refused.screen = b"\x04", b"\x23\x61", screen
        errors: list[RibbonscarpError] = [
            LibraryNotFound(["a.so isn't there"]),
            StatusError(Status.NOTHING_HELD, "closed"),
            refused,
            RecordRefused(Reason.ROLL, 12, "33: no", screen),
            Truncated(7),
            SendRefused(Reason.PAST_END, "51: no"),
            KeyRefused(KeyRefusal.LOCKED, Key.ENTER, (6, 53), "the keyboard is locked"),
            FieldNotFound("no field is 'User'"),
            TextTooLong("field 1 takes 6 characters"),
            WaitedTooLong("a record", 1.0, screen),
            ConnectionEnded("a record hasn't come", screen),
        ]
        kinds = [kind for kind in vars(ribbonscarp).values() if isinstance(kind, type)]
        kinds = [kind for kind in kinds if issubclass(kind, RibbonscarpError) and kind is not RibbonscarpError]
        self.assertEqual({type(error) for error in errors}, set(kinds))
        for error in errors:
            spelled = [pickle.loads(pickle.dumps(error, protocol)) for protocol in range(pickle.HIGHEST_PROTOCOL + 1)]
            for other in (*spelled, copy.copy(error), copy.deepcopy(error)):
                self.assertIs(type(other), type(error))
                self.assertEqual((str(other), repr(other), vars(other)), (str(error), repr(error), vars(error)))
