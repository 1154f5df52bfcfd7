"""What README.md and python/README.md show of the fleet level, run."""

import ast
import contextlib
import io
import os
import re
import shutil
import subprocess
import sys
import warnings

from common import Case, ROOT, SAMPLES, unittest


def blocks(name):
    """The indented blocks of a page."""
    text = (ROOT / name).read_text()
    return re.findall(r"(?:^    .*\n(?:\n(?=    ))?)+", text, re.M)


class Pages(Case):
    def setUp(self):
        super().setUp()
        shutil.copytree(SAMPLES, os.path.join(self.folder, "samples"))
        self.environment = dict(os.environ, PYTHONPATH=str(ROOT / "python"), PYTHONDONTWRITEBYTECODE="1", LC_ALL="C.UTF-8",
                                PATH=os.path.dirname(sys.executable) + os.pathsep + os.environ["PATH"])

    def shell(self, command):
        done = subprocess.run(["bash", "-c", command], cwd=self.folder, env=self.environment, capture_output=True, check=False)
        return (done.stdout + done.stderr).decode()

    def replayed(self, name, least):
        """Runs each `$` line of the blocks that use the package, and holds what it prints to the lines after it."""
        tried = 0
        for block in blocks(name):
            lines = [line[4:] for line in block.splitlines()]
            if not any(line.startswith("$ python3 -m halivomue") for line in lines):
                continue
            while lines:
                line = lines.pop(0)
                if not line.startswith("$ "):
                    continue
                due = []
                while lines and lines[0] and not lines[0].startswith("$ "):
                    due.append(lines.pop(0))
                self.assertEqual(self.shell(line[2:]).splitlines(), due, line)
                tried += 1
        self.assertGreaterEqual(tried, least)

    def test_readme(self):
        self.replayed("README.md", 3)

    def test_script_of_the_readme(self):
        """The five lines of a script, on a sample."""
        (script,) = [block for block in blocks("README.md") if "import halivomue" in block]
        code = re.sub("^    ", "", script, flags=re.M)
        self.assertLessEqual(len(code.strip().splitlines()), 5)
        done = subprocess.run([sys.executable, "-c", code], cwd=self.folder, env=self.environment, capture_output=True, check=True)
        self.assertEqual(done.stdout.decode(), "moved 1 grown 2 fresh 0 rescued 0\n")

    def test_package_page(self):
        self.replayed("python/README.md", 1)
        for block in blocks("python/README.md"):
            if ">>> " in block:
                due, given = [], []
                for line in re.sub("^    ", "", block, flags=re.M).splitlines():
                    (given if line.startswith((">>> ", "... ")) else due).append(line[4:] if line.startswith((">>> ", "... ")) else line)
                out = io.StringIO()
                with contextlib.redirect_stdout(out), warnings.catch_warnings():
                    warnings.simplefilter("ignore", ResourceWarning)
                    before = os.getcwd()
                    os.chdir(self.folder)
                    try:
                        space = {}
                        for line in given:
                            exec(compile(line, "page", "single"), space)
                    finally:
                        os.chdir(before)
                self.assertEqual(out.getvalue().splitlines(), due)


class Sources(unittest.TestCase):
    """The package itself."""

    def test_python_3_9_can_read_it(self):
        for path in sorted((ROOT / "python/halivomue").glob("*.py")):
            ast.parse(path.read_text(), str(path), feature_version=(3, 9))

    def test_nothing_but_the_standard_library(self):
        known = set(getattr(sys, "stdlib_module_names", ())) | {"tqdm"}
        if len(known) == 1:
            self.skipTest("this Python doesn't list its modules")
        for path in sorted((ROOT / "python/halivomue").glob("*.py")):
            for node in ast.walk(ast.parse(path.read_text())):
                names = [each.name for each in node.names] if isinstance(node, ast.Import) else []
                names += [node.module] if isinstance(node, ast.ImportFrom) and node.level == 0 else []
                self.assertLessEqual({name.split(".")[0] for name in names}, known, path)

    def test_lines_and_files(self):
        for path in [*(ROOT / "python/halivomue").iterdir(), *(ROOT / "tests/fleet").iterdir(), ROOT / "python/build", ROOT / "examples/loader.c"]:
            if path.is_file() and path.suffix not in (".so", ".pyc"):
                lines = path.read_text().splitlines()
                self.assertLess(len(lines), 900, path)
                self.assertLess(max(map(len, lines), default=0), 160, path)
                self.assertNotRegex(path.read_text(), r"/" + r"work/|/tmp" + r"/\w", path)

    def test_every_public_name_is_described(self):
        import halivomue

        for name in halivomue.__all__:
            if name not in ("Data", "LONGEST", "ROOM"):
                self.assertTrue(getattr(halivomue, name).__doc__, name)


if __name__ == "__main__":
    unittest.main()
