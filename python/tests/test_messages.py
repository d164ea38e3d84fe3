"""Arguments of another kind: what is said names the parameter."""

import unittest
from array import array

from cavzemil import Record, Screen, Window, bands, charge

SCREEN = Screen(4, 7, 70, 2, 5)
WINDOW = Window(0, 0, 1, 1)
INKS = 0, 0, 0


class Named(unittest.TestCase):
    """Calls that are handed something else than they ask for."""

    def check_told(self, kind, message, *calls):
        for call, *arguments in calls:
            with self.assertRaises(kind) as caught:
                call(*arguments)
            self.assertEqual(str(caught.exception), message)

    def test_separations(self):
        for wrong in "demichel", None, 0.0:
            due = "the separation must be a Separation or its number"
            self.check_told(
                TypeError, f"{due}, not {type(wrong).__name__} (Separation.parse reads names)",
                (SCREEN.render, wrong, WINDOW, bytes(3)), (SCREEN.render_brick, wrong, WINDOW, bytes(3), array("H")),
                (SCREEN.counts, wrong, INKS), (SCREEN.cell_at, wrong, 0, 0, INKS), (SCREEN.predict, wrong, INKS, []),
                (SCREEN.predict_cellular, wrong, INKS, []),
            )

    def test_inks(self):
        for kind, wrong, found in (TypeError, 5, "int"), (TypeError, None, "NoneType"), (ValueError, (1, 2), "2"):
            self.check_told(
                kind, f"inks must be 3 numbers (c, m, y), not {found}", (SCREEN.counts, 0, wrong),
                (SCREEN.cell_at, 0, 0, 0, wrong), (SCREEN.predict, 0, wrong, []),
            )

    def test_windows(self):
        for kind, wrong, found in (TypeError, 5, "int"), (ValueError, (1, 2, 3), "3"):
            self.check_told(
                kind, f"the window must be 4 numbers (x, y, columns, rows), not {found}",
                (SCREEN.render, 0, wrong, b""), (bands, wrong, 1, b""),
            )

    def test_records(self):
        due = f"the record must be 8 numbers ({', '.join(Record._fields)})"
        self.check_told(TypeError, f"{due}, not Screen", (Screen.from_record, SCREEN))
        self.check_told(ValueError, f"{due}, not 5", (Screen.from_record, (4, 7, 70, 2, 5)))

    def test_runs(self):
        """Runs of numbers, for which buffers and sequences are taken."""
        for wrong in "xxx", 5, None, [None], ["x"]:
            for call in SCREEN.predict, SCREEN.predict_cellular:
                with self.assertRaisesRegex(TypeError, "^primaries must be a buffer or a sequence of numbers: "):
                    call(0, INKS, wrong)
            with self.assertRaisesRegex(TypeError, "^tallies must be a buffer or a sequence of numbers: "):
                charge([0] * 8, wrong)
        with self.assertRaisesRegex(TypeError, "^prices must be 8 numbers .*, not int$"):
            charge(5, [0] * 8)
