"""Folders that the run holds by their descriptors, while they are moved or exchanged."""

import contextlib
import hashlib
import itertools
import os
import shutil
import subprocess
import sys

from common import Case, provision_here, replaced, run, sample, tree, unittest

from halivomue import filing
from halivomue.filing import Failed


class Sent(Case):
    """Folders under SENT."""

    def swapped(self, when):
        """A run during which a folder of SENT is swapped for a link to another, before its file of that number is read."""
        outside = os.path.join(self.folder, "outside")
        for name in ("1.call", "2.call", "3.call"):
            self.put(f"a/{name}", sample("printed"))
            self.put(name, sample("forwarding"), outside)
        read, below = filing.read, filing.Folder.below
        late = iter(range(1, 9))

        def swap():
            if next(late) == when:
                os.rename(os.path.join(self.sent, "a"), os.path.join(self.folder, "moved"))
                os.symlink(outside, os.path.join(self.sent, "a"))

        def reading(name, folder=None):
            if folder is not None and when > 0:
                swap()
            return read(name, folder)

        entered = []

        def entering(folder, name, make=False):
            """The folder is listed first, and then entered to read its files."""
            entered.append(name)
            if when == 0 and entered.count(b"a") == 2 and not os.path.islink(os.path.join(self.sent, "a")):
                os.rename(os.path.join(self.sent, "a"), os.path.join(self.folder, "moved"))
                os.symlink(outside, os.path.join(self.sent, "a"))
            return below(folder, name, make)

        with replaced(filing, "read", reading), replaced(filing.Folder, "below", entering):
            return provision_here(self.sent, self.filed)

    def test_a_link_that_takes_a_folders_place_is_not_followed(self):
        outcome, lines = self.swapped(0)
        self.assertEqual(lines, [f"a/{number}.call: unreadable: a symbolic link, not followed" for number in (1, 2, 3)])
        self.assertEqual(outcome.done, 0)

    def test_nor_while_the_folder_is_held(self):
        outcome, lines = self.swapped(2)
        self.assertEqual((outcome.done, lines), (3, []))
        for name in ("1.call", "2.call", "3.call"):
            with open(os.path.join(self.filed, "a", name), "rb") as file:
                self.assertEqual(file.read(), sample("printed"))


class Swapped(Case):
    """A folder swapped for a link to another, at every call of the run that opens something."""

    def setUp(self):
        super().setUp()
        self.outside = os.path.join(self.folder, "outside")
        for name in ("1.call", "b/2.call", "b/c/3.call"):
            self.put("a/" + name, sample("printed"))
            self.put(name, sample("forwarding"), self.outside)

    def swapping(self, folder, at):
        """Replaces os.open, and swaps the folder for a link before the call of that number."""
        opens, calls = os.open, itertools.count(1)

        def swap(*arguments, **more):
            self.calls = next(calls)
            if self.calls == at:
                os.rename(folder, os.path.join(self.folder, "moved"))
                os.symlink(self.outside, folder)
            return opens(*arguments, **more)

        return swap

    def back(self, folder):
        if os.path.islink(folder):
            os.unlink(folder)
            os.rename(os.path.join(self.folder, "moved"), folder)

    def test_of_sent(self):
        """Before, files of the other folder were filed."""
        folder, at, told = os.path.join(self.sent, "a"), 1, set()
        while True:
            filed = self.filed + str(at)
            with replaced(os, "open", self.swapping(folder, at)):
                _, lines = provision_here(self.sent, filed)
            self.back(folder)
            told.update(lines)
            digests = {what for name, what in tree(filed).items() if name.endswith(b".call")}
            self.assertLessEqual(digests, {"folder", hashlib.sha256(sample("printed")).hexdigest()}, at)
            if self.calls < at:
                break
            at += 1
        self.assertGreater(at, 30)
        self.assertIn("a/b/2.call: unreadable: a symbolic link, not followed", told)

    def test_of_filed(self):
        """Before, files were put into the other folder."""
        before = tree(self.outside)
        for at in itertools.count(1):
            filed = self.filed + str(at)
            provision_here(self.sent, filed)
            for name in ("1.call", "b/2.call", "b/c/3.call"):
                os.unlink(os.path.join(filed, "a", name))
            with replaced(os, "open", self.swapping(os.path.join(filed, "a"), at)):
                with contextlib.suppress(Failed):
                    provision_here(self.sent, filed)
            self.assertEqual(tree(self.outside), before, at)
            self.back(os.path.join(filed, "a"))
            if self.calls < at:
                break
        self.assertGreater(at, 30)

    def test_back_and_forth(self):
        """While another process keeps swapping them."""
        folder, moved = os.path.join(self.sent, "a"), os.path.join(self.folder, "moved")
        script = f"import os\nwhile True:\n os.rename({folder!r}, {moved!r})\n os.symlink({self.outside!r}, {folder!r})\n" \
                 f" os.unlink({folder!r})\n os.rename({moved!r}, {folder!r})"
        swapper = subprocess.Popen([sys.executable, "-c", script])
        try:
            for number in range(25):
                filed = self.filed + str(number)
                provision_here(self.sent, filed)
                for name, what in tree(filed).items():
                    if name.endswith(b".call") and what != "folder":
                        self.assertEqual(what, hashlib.sha256(sample("printed")).hexdigest())
        finally:
            swapper.kill()
            swapper.wait()


class Filed(Case):
    """Folders under FILED."""

    def test_a_folder_of_filed_that_is_a_link(self):
        """Nothing is put where it leads; the audit doesn't read there."""
        self.put("a/1.call", sample("printed"))
        self.put("b/1.call", sample("printed"))
        outside = os.path.join(self.folder, "outside")
        os.mkdir(outside)
        os.mkdir(self.filed)
        os.symlink(outside, os.path.join(self.filed, "a"))
        outcome, lines = provision_here(self.sent, self.filed)
        self.assertEqual(lines, ["a/1.call: unreadable: cannot be filed: a symbolic link, not followed; "
                                 "what is filed under this name is not as a run files it"])
        self.assertEqual((outcome.done, os.listdir(outside)), (1, []))
        out, _ = run("audit", self.filed, status=1)
        self.assertIn("a: foreign: a symbolic link\n", out)

    def test_a_folder_of_filed_that_is_moved(self):
        """If the run puts files in a folder that isn't in its place any more, it fails, and reports none of them."""
        for name in ("a/1.call", "a/2.call", "b/1.call"):
            self.put(name, sample("printed"))
        folder, aside = os.path.join(self.filed, "a"), os.path.join(self.folder, "aside")

        def gone():
            os.rename(folder, aside)

        def another():
            os.rename(folder, aside)
            os.mkdir(folder)

        def link():
            os.rename(folder, aside)
            os.symlink(self.sent, folder)

        write = filing.write
        for jobs, move in ((1, gone), (2, another), (1, link)):
            def late(files, flush, target, *more, move=move):
                if files[1][0] == b"2.call":
                    move()
                write(files, flush, target, *more)

            with replaced(filing, "write", late), self.assertRaises(Failed) as caught:
                provision_here(self.sent, self.filed, jobs=jobs)
            self.assertEqual(str(caught.exception), f"{folder}: moved while files were put in it")
            self.assertEqual(tree(os.path.join(self.sent, "a")).keys(), {b"1.call", b"2.call"})
            if os.path.islink(folder):
                os.unlink(folder)
            provision_here(self.sent, self.filed)
            run("audit", self.filed)
            for left in (aside, self.filed):
                shutil.rmtree(left)

    def test_sent_and_filed_may_be_links(self):
        self.put("a.call", sample("printed"))
        self.put("b/b.call", sample("printed"))
        provision_here(self.sent, self.filed + "2")
        os.mkdir(self.filed)
        os.symlink("sent", os.path.join(self.folder, "to-sent"))
        os.symlink("filed", os.path.join(self.folder, "to-filed"))
        outcome, lines = provision_here(os.path.join(self.folder, "to-sent"), os.path.join(self.folder, "to-filed"))
        self.assertEqual((outcome.done, lines), (2, []))
        self.assertEqual(tree(self.filed), tree(self.filed + "2"))

    def test_no_descriptor_is_left_open(self):
        for name in ("a.call", "b/b.call", "c/c.call"):
            self.put(name, sample("printed"))
        before = os.listdir("/proc/self/fd")
        for jobs in (1, 2):
            provision_here(self.sent, self.filed + str(jobs), jobs=jobs)
            self.assertEqual(os.listdir("/proc/self/fd"), before)


if __name__ == "__main__":
    unittest.main()
