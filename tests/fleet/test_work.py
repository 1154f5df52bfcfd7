"""Work by several processes: its order, who does it, and processes that end."""

import os
import time

from common import Case, provisioning, provision_here, replaced, unittest

import fleet
from halivomue import work
from halivomue.filing import Failed


class Work(Case):
    def test_a_worker_that_ends_is_told(self):
        fleet.write(self.sent, 80, 40)

        def ends(*_):
            os._exit(3)

        with replaced(provisioning.Filer, "chunk", ends):
            with self.assertRaises(Failed) as caught:
                provision_here(self.sent, self.filed, jobs=2)
        self.assertIn("ended by itself", str(caught.exception))

    def test_results_come_in_order(self):
        def make(number):
            def slow(chunk):
                time.sleep(0.002 * (number == 0))
                return [value * 2 for value in chunk]

            return slow

        for jobs in (1, 2, 3):
            found = [value for chunk in work.ordered(range(500), make, jobs, lambda _: 1) for value in chunk]
            self.assertEqual(found, [2 * value for value in range(500)])

    def test_a_chunk_goes_to_a_process_that_is_free(self):
        """A slow process holds no other up, but for the chunks that may wait for its result."""
        def make(number):
            def slow(chunk):
                time.sleep(0.3 * (number == 0))
                return [number]

            return slow

        tasks = iter(range(100_000))
        found = work.ordered(tasks, make, 2, lambda _: 1, most=1)
        self.assertEqual(next(found), [0])
        self.assertLessEqual(next(tasks), 3 * work._AHEAD * 2)
        done = [next(found) for _ in range(work._AHEAD)]
        found.close()
        self.assertLessEqual(done.count([0]), work._UNDER_WAY)

    def test_one_of_several_processes_that_ends_is_told(self):
        def make(number):
            def ends(chunk):
                if number == 1:
                    os._exit(3)
                return chunk

            return ends

        with self.assertRaises(Failed) as caught:
            list(work.ordered(range(5000), make, 3, lambda _: 1))
        self.assertIn("ended by itself", str(caught.exception))

    def test_what_is_under_way_fits_the_pipes(self):
        """Long names and large results: nobody waits for the other forever."""
        names_ = [b"%06d" % number + b"x" * 3900 for number in range(300)]

        def make(number):
            return lambda chunk: [name * 40 for name in chunk]

        found = [name[:6] for chunk in work.ordered(names_, make, 2, len) for name in chunk]
        self.assertEqual(found, [name[:6] for name in names_])


if __name__ == "__main__":
    unittest.main()
