#!/usr/bin/env python3
"""Tests of tests/wrong_bodies.py, on a crate of three functions that is made for them. The last line is 'N passed, M failed'."""

import contextlib
import io
import os
from pathlib import Path

import wrong_bodies
from counted import Test, main
from wrong.edits import Unfit, read_edit, rounds, sources

os.environ["PYTHONDONTWRITEBYTECODE"] = "1"
SOURCE = """#![tactic(auto)]
ghost use Rattle.std.specs.Prelude.{◌≡◌, ◌+◌, ◌<◌};

pub fn more(count: u16) -> u16
    requires { count < 1000 }
    ensures { result ≡ count + 1 }
{
    count + 1
}

pub fn twice_more(count: u16) -> u16
    requires { count < 100 }
    ensures { result ≡ count + 2 }
{
    more(more(count))
}

pub fn same(count: u16) -> u16
    ensures { result ≡ count }
{
    count
}
"""
WRONG = "file: src/lib.rt\nold:     count + 1\nnew:     count\n"
HARMLESS = "file: src/lib.rt\nold:     more(more(count))\nnew:     let first = more(count); more(first)\n"


class TestTries(Test):
    """Edits of a crate, and what is told of them."""

    def setUp(self) -> None:
        super().setUp()
        self.root = Path(self.folder)
        self.crate = self.root / "crates" / "small"
        (self.crate / "src").mkdir(parents=True)
        (self.crate / "wrong-bodies").mkdir()
        (self.root / "crates.txt").write_text("small:\n")
        (self.crate / "src" / "lib.rt").write_text(SOURCE)

    def put(self, **edits: str) -> None:
        for name, text in edits.items():
            stem, _, kind = name.rpartition("_")
            (self.crate / "wrong-bodies" / f"{stem}.{kind}").write_text(text)

    def tried(self, *words: str) -> tuple[int, str]:
        with contextlib.redirect_stdout(io.StringIO()) as out:
            status = wrong_bodies.main(["--root", str(self.root), "--show", *words, "small"])
        return status, out.getvalue()

    def read(self, name: str):
        return read_edit(self.crate / "wrong-bodies" / name, sources(self.crate))

    def test_a_wrong_body_is_refused_and_a_harmless_one_beside_it_is_told(self) -> None:
        """`twice_more` calls what isn't proved in this round, and that alone refuses nothing."""
        self.put(wrong_edit=WRONG, harmless_edit=HARMLESS)
        status, out = self.tried()
        self.assertEqual(status, 1)
        self.assertIn("refused: wrong: more: returns", out)
        self.assertIn("FAILED harmless isn't refused at a contract: it is proved", out)
        self.assertTrue(out.endswith("1 passed, 1 failed\n"), out)

    def test_two_edits_of_one_function_go_into_two_rounds(self) -> None:
        self.put(one_edit=WRONG, other_edit=WRONG.replace("new:     count", "new:     count + 2"), third_edit=HARMLESS)
        edits = [self.read(f"{name}.edit") for name in ("one", "other", "third")]
        laid = [[it.name for it in members] for members in rounds(edits, sources(self.crate))]
        self.assertEqual(laid, [["one", "third"], ["other"]])

    def test_an_edit_that_does_not_fit_is_an_error(self) -> None:
        self.put(gone_edit=WRONG.replace("count + 1", "count + 7"), none_edit="file: src/lib.rt\n")
        self.assertRaises(Unfit, self.read, "gone.edit")
        status, out = self.tried()
        self.assertEqual(status, 1)
        self.assertIn("FAILED wrong-bodies/gone.edit doesn't fit", out)
        self.assertIn("FAILED wrong-bodies/none.edit doesn't fit", out)

    def test_twins(self) -> None:
        """An edit that adds a branch wants a twin, which has to be proved."""
        wrong = "file: src/lib.rt\nold:     more(more(count))\nnew:     if count < 7 { more(count) } else { more(more(count)) }\n"
        self.put(branch_edit=wrong)
        self.assertIn("FAILED branch.edit adds a function, a field or a branch, and has no twin", self.tried()[1])
        self.put(branch_twin=wrong.replace("{ more(count) }", "{ more(more(count)) }"))
        status, out = self.tried()
        self.assertEqual((status, out.splitlines()[-1]), (0, "2 passed, 0 failed"))
        self.put(branch_twin=wrong.replace("< 7", "< 8"))
        status, out = self.tried()
        self.assertEqual(status, 1)
        self.assertIn("FAILED branch.twin isn't proved: twice_more", out)

    def test_what_there_is_no_time_for_is_told(self) -> None:
        self.put(wrong_edit=WRONG, harmless_edit=HARMLESS, harmless_twin=HARMLESS)
        status, out = self.tried("--minutes", "0")
        self.assertEqual((status, out.splitlines()[-1]), (0, "0 passed, 0 failed"))
        self.assertIn("\nleft out: 3 wrong bodies and twins of small, for want of time\n", out)

    def test_a_text_that_cannot_be_read_refuses_nothing(self) -> None:
        self.put(unread_edit=WRONG.replace("new:     count", "new:     counted"))
        status, out = self.tried()
        self.assertEqual(status, 1)
        self.assertIn("FAILED unread isn't refused at a contract: open: the text can't be read", out)


main()
