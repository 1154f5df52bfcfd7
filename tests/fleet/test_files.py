"""Files that a command is told to write: replaced completely or not at all, and only plain files."""

import os
import stat

from common import Case, provision_here, replaced, run, sample, tree, unittest

from halivomue import files
from halivomue.filing import Failed


class Page(Case):
    """`page --out` keeps to the rules of `shorten`'s OUT."""

    def setUp(self):
        super().setUp()
        self.put("a.call", sample("printed"))
        provision_here(self.sent, self.filed)
        self.out = os.path.join(self.folder, "page.html")

    def refused(self, out, why):
        before = tree(self.folder)
        told, said = run("page", self.filed, "--out", out, status=2)
        self.assertEqual((told, said), ("", f"halivomue page: {out}: cannot be written: {why}\n"))
        self.assertEqual(tree(self.folder), before)

    def test_what_is_not_a_plain_file(self):
        os.symlink(self.put("kept", b"kept", self.folder), self.out.encode())
        self.refused(self.out, "a symbolic link")
        self.refused(self.sent + "/..", "not a plain file")
        self.refused(self.folder + "/", "not a plain file")
        self.refused(os.path.join(self.folder, "none/page.html"), "No such file or directory")

    def test_a_device_or_a_pipe(self):
        """Before, it was gone and a file in its place."""
        pipe = os.path.join(self.folder, "pipe")
        os.mkfifo(pipe)
        made = [pipe]
        try:
            made.append(os.path.join(self.folder, "device"))
            os.mknod(made[-1], stat.S_IFCHR | 0o666, os.makedev(1, 3))
        except PermissionError:
            made.pop()
        for path in made:
            before = os.lstat(path)
            _, said = run("page", self.filed, "--out", path, status=2)
            self.assertEqual(said, f"halivomue page: {path}: cannot be written: not a plain file\n")
            self.assertEqual(os.lstat(path), before)

    def test_what_a_run_filed(self):
        why = f"it stands inside {self.filed}, which holds what a run filed and nothing else"
        os.symlink(self.filed, os.path.join(self.folder, "link"))
        for name in ("filed/report.csv", "filed/a.call", "filed/a.call.short", "filed/new.html", "filed/.halivomue/lock", "link/a.call"):
            path = os.path.join(self.folder, name)
            before = {name: what for name, what in tree(self.filed).items()}
            _, said = run("page", self.filed, "--out", path, status=2)
            self.assertEqual(said, f"halivomue page: {path}: cannot be written: {why}\n")
            self.assertEqual(tree(self.filed), before)

    def test_a_planted_file_does_not_become_the_page(self):
        planted = self.put(".page.html.tmp", b"planted", self.folder)
        before = os.stat(planted)
        run("page", self.filed, "--out", self.out)
        self.assertEqual((os.stat(planted).st_ino, os.stat(planted).st_size), (before.st_ino, before.st_size))
        self.assertNotEqual(os.stat(self.out).st_ino, before.st_ino)
        self.assertEqual({name for name in os.listdir(self.folder) if "page" in name}, {".page.html.tmp", "page.html"})


class Replaced(Case):
    def test_the_mode_stays(self):
        path = self.put("out", b"old")
        os.chmod(path, 0o600)
        files.replace(path, b"new")
        self.assertEqual(stat.S_IMODE(os.stat(path).st_mode), 0o600)
        files.replace(path, b"new", 0o640)
        self.assertEqual(stat.S_IMODE(os.stat(path).st_mode), 0o640)

    def test_whole_or_not_at_all(self):
        """If a step fails, the old file stays and no other is left."""
        path = self.put("out", b"old")
        for step in ("write", "fsync", "replace"):
            def fails(*_, **__):
                raise OSError(28, os.strerror(28))

            with replaced(os, step, fails), self.assertRaises(Failed) as caught:
                files.replace(path, b"new")
            self.assertEqual(str(caught.exception), f"{os.fsdecode(path)}: cannot be written: {os.strerror(28)}")
            self.assertEqual(tree(self.sent), {b"out": tree(self.sent)[b"out"]})
            with open(path, "rb") as file:
                self.assertEqual(file.read(), b"old")

    def test_the_new_files_name_cannot_be_guessed(self):
        """If somebody has that name all the same, the file isn't taken, nor is a link followed."""
        path, made = self.put("out", b"old"), []

        def opened(name, flags, *more, before=os.open, **others):
            if flags & os.O_CREAT:
                made.append(name)
            return before(name, flags, *more, **others)

        with replaced(os, "open", opened):
            for _ in range(3):
                files.replace(path, b"new")
        self.assertEqual(len(set(made)), 3)
        for name in made:
            self.assertRegex(name, rb"^out\.[0-9a-f]{16}\.new$")
        kept = self.put("kept", b"kept")
        for plant in (lambda at: self.put(at, b"planted"), lambda at: os.symlink(kept, os.path.join(os.fsencode(self.sent), at))):
            plant(b"out.guessed.new")
            before = tree(self.sent)
            with replaced(files.secrets, "token_hex", lambda _: "guessed"), self.assertRaises(Failed) as caught:
                files.replace(path, b"other")
            self.assertIn("cannot be written: File exists", str(caught.exception))
            self.assertEqual(tree(self.sent), before)
            os.unlink(os.path.join(self.sent, "out.guessed.new"))

    def test_names(self):
        for name in ("x" * 255, "-", "a b", b"\xff\n"):
            files.replace(os.path.join(os.fsencode(self.sent), os.fsencode(name)), b"1")
        self.assertEqual(len(os.listdir(self.sent)), 4)


if __name__ == "__main__":
    unittest.main()
