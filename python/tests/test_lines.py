"""Edits with comments, and edits of more than one line."""

from __future__ import annotations

from nesthrim import Session, Unread, sweep
from tests.support import Case
from tests.test_sessions import two_stages

# (if the second line were taken for a part of the comment, it would be lost)
TWO_LINES = "delay c1 0 4 # slow\ndelay c2 0 6"


class Comments(Case):
    def test_a_batch(self) -> None:
        with Session(two_stages()) as session:
            self.assertEqual(1, session.batch("delay c1 0 4 # slow", "delay c2 0 6# slower", "delay c1 0 5"))
            self.assertEqual(["1 batch delay c1 0 4 ; delay c2 0 6 ; delay c1 0 5"], [" ".join(str(edit).split()) for edit in session.edits()])
            self.assertEqual(2, session.edit("delay c1 0 6 # slow"))
            self.fault(Unread, lambda: session.batch("# nothing"))
            self.assertEqual(2, session.version())

    def test_a_line_feed(self) -> None:
        with Session(two_stages()) as session:
            self.fault(Unread, lambda: session.batch(TWO_LINES, "delay c1 0 9"))
            self.fault(Unread, lambda: session.edit(TWO_LINES))
            self.assertEqual(0, session.version())

    def test_variants(self) -> None:
        n = two_stages()
        with Session(n) as session:
            session.batch("delay c1 0 4", "delay c2 0 6")
            wanted = session.waves()
        edits = [("delay c1 0 4 # slow", "delay c2 0 6"), ("batch delay c1 0 4 ; delay c2 0 6 # slow",)]
        self.assertEqual([wanted] * 4, sweep(n, edits * 2, "waves"))
        for _ in range(2):
            with n.edited("delay c1 0 4"):
                pass
            with self.assertRaises(Unread):
                with n.edited(TWO_LINES):
                    pass
