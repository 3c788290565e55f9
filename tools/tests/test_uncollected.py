"""Work without python's search for what hangs on itself."""

from __future__ import annotations

import gc
import unittest

from uncollected import uncollected


class Uncollected(unittest.TestCase):
    def setUp(self) -> None:
        self.addCleanup(gc.enable if gc.isenabled() else gc.disable)

    def test_it_is_off_meanwhile_and_then_as_before(self) -> None:
        for is_on in (True, False):
            (gc.enable if is_on else gc.disable)()
            with uncollected():
                self.assertFalse(gc.isenabled())
            self.assertEqual(gc.isenabled(), is_on)

    def test_it_is_as_before_where_the_work_fails(self) -> None:
        gc.enable()
        with self.assertRaises(KeyError), uncollected():
            raise KeyError
        self.assertTrue(gc.isenabled())


if __name__ == "__main__":
    unittest.main()
