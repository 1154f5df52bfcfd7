"""`make install`, `make dist` and `pip install`: into empty folders and an empty virtual environment, and used from there,
without the toolchain and the sources."""

import importlib.util
import os
import re
import shlex
import shutil
import stat
import subprocess
import sys
import tempfile
import zipfile

from common import Case, PROGRAM, ROOT, SAMPLES, halivomue, sample, tree, unittest

ARCHIVES = os.environ.get("HALIVOMUE_ARCHIVE_DIR", str(ROOT / "crates/halivomue_c/out"))
# A path without the toolchain, and an environment without anything of these tests.
BARE = {"PATH": "/usr/bin:/bin", "LC_ALL": "C.UTF-8", "HOME": "/nonexistent"}
INSTALLED = {"bin/halivomue", "include/halivomue.h", "lib/libhalivomue_c.a", "lib/pkgconfig/halivomue.pc",
             "libexec/halivomue/halivomue", "share/man/man1/halivomue.1"}
SHORTENS = """
#include <halivomue.h>
#include <stdio.h>

int main(void)
{
    static uint8_t bytes[HALIVOMUE_LONGEST + 1], out[HALIVOMUE_ROOM];
    size_t length = fread(bytes, 1, sizeof bytes, stdin);
    struct halivomue_shortening answer = halivomue_shorten(bytes, length, out, sizeof out);

    if (halivomue_version() != 65536 * HALIVOMUE_VERSION_MAJOR + HALIVOMUE_VERSION_MINOR)
        return 2;
    fprintf(stderr, "%s", halivomue_reason(answer.number));
    fwrite(out, 1, answer.length, stdout);
    return answer.number != HALIVOMUE_ACCEPTED;
}
"""


def needs(*tools):
    missing = [tool for tool in tools if not shutil.which(tool)]
    return unittest.skipIf(missing, f"{', '.join(missing)} isn't installed: installation wasn't tried")


def ran(*words, status=0, **more):
    done = subprocess.run([os.fsencode(word) for word in words], capture_output=True, check=False, timeout=300,
                          stdin=more.pop("stdin", subprocess.DEVNULL) if "input" not in more else None, **more)
    if done.returncode != status:
        raise AssertionError(f"{words}: status {done.returncode}, not {status}:\n{done.stdout.decode()}{done.stderr.decode()}")
    return done


def make(*words, **more):
    """make, with the program and the archive as they are built."""
    environment = dict(os.environ, HALIVOMUE_PROGRAM=str(PROGRAM), HALIVOMUE_ARCHIVE_DIR=ARCHIVES, PYTHON=sys.executable)
    return ran("make", "-s", "-C", ROOT, *words, env=environment, **more)


def files_in(folder):
    return {os.fsdecode(name) for name, kind in tree(folder).items() if kind != "folder"}


class Moved(Case):
    """A folder that the program is used in, away from the sources."""

    def setUp(self):
        super().setUp()
        self.prefix = os.path.join(self.folder, "an installed one")

    def move(self):
        """The folder may be copied and moved."""
        moved = os.path.join(self.folder, "moved away")
        os.rename(self.prefix, moved)
        self.prefix = moved

    def halivomue(self, *words, status=0, by="bin/halivomue", **more):
        return ran(os.path.join(self.prefix, by), *words, status=status, cwd=self.sent, env=BARE, **more)

    def use_program(self):
        self.samples()
        self.assertEqual(self.halivomue("--version").stdout, f"halivomue {halivomue.__version__}\n".encode())
        said = self.halivomue("read", "printed.call", "refused.call", status=1).stdout
        self.assertEqual(said, b"printed.call: accepted\nrefused.call: refused 7 9\n")
        self.halivomue("nothing", status=2)
        os.chmod(os.path.join(self.sent, "printed.call"), 0o640)
        self.halivomue("shorten", "printed.call", "out")
        with open(os.path.join(self.sent, "out"), "rb") as file:
            self.assertEqual(file.read(), halivomue.shorten(sample("printed")).data)
        self.assertEqual(stat.S_IMODE(os.stat(os.path.join(self.sent, "out")).st_mode), 0o640)


@needs("make", "install")
class MakeInstall(Moved):
    def test_the_program(self):
        make("install", f"PREFIX={self.prefix}")
        self.assertEqual(files_in(self.prefix), INSTALLED)
        self.move()
        self.use_program()
        os.symlink(os.path.join(self.prefix, "bin/halivomue"), os.path.join(self.folder, "by-a-link"))
        ran(os.path.join(self.folder, "by-a-link"), "--version", env=BARE)
        os.unlink(os.path.join(self.prefix, "libexec/halivomue/halivomue"))
        self.assertIn(b"there is no", self.halivomue("--version", status=3).stderr)

    @needs("pkg-config", "gcc")
    def test_a_c_program(self):
        make("install", f"PREFIX={self.prefix}")
        self.move()
        environment = dict(BARE, PKG_CONFIG_PATH=os.path.join(self.prefix, "lib/pkgconfig"))
        self.assertEqual(ran("pkg-config", "--modversion", "halivomue", env=environment).stdout.decode().strip(), halivomue.__version__)
        flags = shlex.split(ran("pkg-config", "--cflags", "--libs", "halivomue", env=environment).stdout.decode())
        source, program = self.put("shortens.c", SHORTENS.encode()), os.path.join(self.folder, "shortens")
        ran("gcc", "-Wall", "-Werror", source, *flags, "-o", program, env=BARE)
        self.assertEqual(ran(program, input=sample("printed")).stdout, halivomue.shorten(sample("printed")).data)
        said = ran(program, input=sample("refused"), status=1)
        self.assertEqual((said.stdout, said.stderr), (b"", b"the record names a register, block, table or list that does not exist"))

    def test_staged_and_removed(self):
        """With DESTDIR, as package maintainers use it."""
        make("install", "PREFIX=/usr", f"DESTDIR={self.prefix}")
        self.assertEqual(files_in(os.path.join(self.prefix, "usr")), INSTALLED)
        self.put("usr/bin/other", b"", self.prefix)
        make("uninstall", "PREFIX=/usr", f"DESTDIR={self.prefix}")
        self.assertEqual(files_in(self.prefix), {"usr/bin/other"})


class ManPage(unittest.TestCase):
    PAGE = ROOT / "docs/halivomue.1"

    def test_it_has_what_the_program_has(self):
        """Commands, options and version are those of --help and the header."""
        text = self.PAGE.read_text().replace("\\-", "-")
        usage = subprocess.run([PROGRAM, "--help"], capture_output=True, check=True).stdout.decode()
        self.assertEqual(text.splitlines()[0], f'.TH HALIVOMUE 1 "" "halivomue {halivomue.__version__}"')
        self.assertEqual(set(re.findall(r"--[a-z]+", text)), set(re.findall(r"--[a-z]+", usage)))
        commands = text.partition(".SH COMMANDS")[2].partition(".PP")[0]
        self.assertEqual(re.findall(r"^\.TP\n\.B (\w+)", commands, re.M), re.findall(r"^  ([a-z]+) ", usage, re.M))

    @needs("man")
    def test_it_is_well_formed(self):
        said = ran("man", "--warnings", "-l", self.PAGE, env=dict(BARE, MANWIDTH="80"))
        self.assertEqual(said.stderr, b"")
        self.assertIn(b"EXIT STATUS", said.stdout)


PIP = all(importlib.util.find_spec(name) for name in ("pip", "venv", "ensurepip"))


@unittest.skipUnless(PIP, "pip, venv or ensurepip isn't installed: the package wasn't installed")
class Pip(Moved):
    """The package in an empty virtual environment, without a network."""

    @classmethod
    def setUpClass(cls):
        cls.top = tempfile.mkdtemp(prefix="fleet-")
        cls.addClassCleanup(shutil.rmtree, cls.top, ignore_errors=True)
        cls.environment = os.path.join(cls.top, "environment")
        ran(sys.executable, "-m", "venv", cls.environment)

    def python(self, *words, status=0, **more):
        """The environment's Python, with nothing of these tests around it."""
        return ran(os.path.join(self.environment, "bin/python"), *words, status=status, env=dict(BARE, **more.pop("env", {})), **more)

    def pip(self, *words, **more):
        return self.python("-m", "pip", "--no-cache-dir", "--disable-pip-version-check", *words, **more)

    def install(self, what, **more):
        self.pip("install", "--no-index", what, **more)
        self.addCleanup(self.pip, "uninstall", "-y", "halivomue")

    def use_package(self):
        self.samples()
        where = self.python("-c", "import halivomue; print(halivomue.__file__)", cwd=self.folder).stdout.decode()
        self.assertTrue(where.startswith(self.environment), where)
        said = self.python("-m", "halivomue", "provision", "--no-flush", self.sent, self.filed, cwd=self.folder, status=1).stdout
        self.assertIn(b"4 files: 3 accepted, 1 refused", said)
        self.python("-m", "halivomue", "audit", self.filed, cwd=self.folder)
        page = os.path.join(self.folder, "page.html")
        self.python("-m", "halivomue", "page", self.filed, "--out", page, cwd=self.folder)
        self.assertGreater(os.path.getsize(page), 1000)

    def test_of_the_sources(self):
        self.install(ROOT / "python", env={"HALIVOMUE_ARCHIVE_DIR": ARCHIVES})
        self.use_package()
        self.assertIn(f"Version: {halivomue.__version__}\n", self.pip("show", "halivomue").stdout.decode())
        self.pip("check")
        files = self.pip("show", "-f", "halivomue").stdout.decode()
        self.assertIn("halivomue/libhalivomue.so", files)
        self.assertIn("halivomue/py.typed", files)
        self.pip("uninstall", "-y", "halivomue")
        self.python("-c", "import halivomue", cwd=self.folder, status=1)

    def copied(self):
        """The folder python/ without the repository around it, and without a shared object."""
        copy = os.path.join(self.folder, "python")
        shutil.copytree(ROOT / "python", copy, ignore=shutil.ignore_patterns("*.so*", "__pycache__"))
        return copy

    def test_of_a_copied_folder(self):
        """An existing shared object is taken; if there is none, a line says so."""
        copy = self.copied()
        said = self.pip("install", "--no-index", copy, status=1)
        self.assertRegex(said.stderr + said.stdout, rb"libhalivomue.so isn't there, and can't be made here")
        library = os.environ.get("HALIVOMUE_LIBRARY", str(ROOT / "python/halivomue/libhalivomue.so"))
        shutil.copy(library, os.path.join(copy, "halivomue/libhalivomue.so"))
        self.install(copy)
        self.use_package()

    def test_the_same_wheel_twice(self):
        wheels = []
        for name in ("one", "two"):
            folder = os.path.join(self.folder, name)
            self.pip("wheel", "--no-index", "--no-deps", "-w", folder, ROOT / "python", env={"HALIVOMUE_ARCHIVE_DIR": ARCHIVES})
            (wheel,) = os.listdir(folder)
            self.assertEqual(wheel, f"halivomue-{halivomue.__version__}-py3-none-linux_x86_64.whl")
            with open(os.path.join(folder, wheel), "rb") as file:
                wheels.append(file.read())
        self.assertEqual(wheels[0], wheels[1])
        with zipfile.ZipFile(os.path.join(folder, wheel)) as archive:
            packed = {name.partition("/")[2] for name in archive.namelist() if name.startswith("halivomue/")}
        there = set(os.listdir(ROOT / "python/halivomue")) - {"__pycache__"}
        self.assertEqual(packed, {name for name in there if not name.startswith("libhalivomue.so.")} | {"libhalivomue.so"})

    @needs("make", "install", "tar", "gcc")
    def test_dist(self):
        """The packed folder has all: program, C library, samples and the package's wheel."""
        said = make("dist", f"DIST={self.folder}").stdout.decode()
        name = f"halivomue-{halivomue.__version__}-linux-x86_64"
        self.assertEqual(said.splitlines()[-1], f"{self.folder}/{name}.tar.gz")
        away = os.path.join(self.folder, "another machine")
        os.mkdir(away)
        ran("tar", "-C", away, "-xzf", f"{self.folder}/{name}.tar.gz")
        self.prefix = os.path.join(away, name)
        wheel = f"halivomue-{halivomue.__version__}-py3-none-linux_x86_64.whl"
        rest = {"LICENSE", "NOTICE", wheel, *(f"samples/{path.name}" for path in SAMPLES.iterdir())}
        self.assertEqual(files_in(self.prefix), INSTALLED | rest)
        self.use_program()
        os.unlink(os.path.join(self.sent, "out"))
        self.install(os.path.join(self.prefix, wheel))
        self.use_package()


if __name__ == "__main__":
    unittest.main()
