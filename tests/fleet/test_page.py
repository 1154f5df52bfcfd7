"""The page: made, self-contained, and opened in a real browser."""

import base64
import hashlib
import html
import json
import os
import re
import shutil
import time
import zlib
from urllib.parse import quote, unquote_to_bytes

from common import Case, halivomue, provision_here, replaced, run, sample, unittest

import browser
import fleet
from halivomue import Arm, Procedure, Table, diff, explain, instruction, names, page, show, styled, work


class Made(Case):
    def make(self, count=30, *words, **more):
        fleet.write(self.sent, count, 40)
        self.put("printed.call", sample("printed"))
        self.put("refused.call", sample("refused"))
        self.put(b"odd </script><b>&\xff\n.call", sample("untidy"))
        provision_here(self.sent, self.filed)
        self.out = os.path.join(self.folder, "page.html")
        return run("page", self.filed, "--out", self.out, *words, **more)[0]

    def text(self):
        with open(self.out, encoding="utf-8") as file:
            return file.read()

    def test_self_contained(self):
        said = self.make()
        self.assertIn("33 files", said)
        text = self.text()
        outside = set(re.findall(r"https?://[^\"' >]+", text))
        self.assertEqual(outside, set())
        self.assertEqual(re.findall(r"<(?:link|img|iframe|script src)[^>]*>", text), [])
        self.assertNotIn("</script><b>", text)
        self.assertEqual(text.count("<script"), 2)
        self.assertNotIn("<!--", text)

    def test_without_dot(self):
        """The page says that nothing is drawn, and all else is there."""
        with replaced(os, "environ", dict(os.environ, PATH="/nonexistent")):
            said = self.make(5)
        self.assertIn("8 files, 0 drawn; dot isn't installed", said)
        self.assertIn("dot isn't installed where this page was made", self.text())

    def test_chosen_drawings(self):
        if not shutil.which("dot"):
            self.skipTest("dot isn't installed")
        self.assertIn("33 files, 1 drawn", self.make(30, "--draw", "printed.call"))
        self.assertIn("33 files, 3 drawn", run("page", self.filed, "--out", self.out, "--most", "3")[0])

    def test_failures(self):
        run("page", os.path.join(self.folder, "none"), "--out", os.path.join(self.folder, "p"), status=2)
        self.make(2)
        _, said = run("page", self.filed, "--out", os.path.join(self.folder, "none/p.html"), status=2)
        self.assertIn("No such file or directory", said)
        os.unlink(os.path.join(self.filed, "printed.call.short"))
        run("page", self.filed, "--out", self.out)
        self.assertIn("it is not filed any more", self.text())
        os.unlink(os.path.join(self.filed, "report.csv"))
        _, said = run("page", self.filed, "--out", self.out, status=2)
        self.assertIn("start the run first", said)

    def test_a_drawing_that_takes_too_long_is_told(self):
        self.put("bin/dot", b"#!/bin/sh\nexec sleep 60\n", self.folder)
        os.chmod(os.path.join(self.folder, "bin/dot"), 0o755)
        for name in ("printed.call", "second.call", "third.call"):
            self.put(name, sample("printed"))
        provision_here(self.sent, self.filed)
        self.out = os.path.join(self.folder, "p.html")
        path = dict(os.environ, PATH=self.folder + "/bin:" + os.environ["PATH"])
        with replaced(page, "_PATIENCE", 0.2), replaced(os, "environ", path):
            page.write(os.fsencode(self.filed), self.out)
        self.assertEqual(self.text().count("dot needed more than 0.2 seconds"), 3)
        with replaced(os, "environ", path), replaced(work, "default_jobs", lambda: 1):
            started = time.monotonic()
            said = page.write(os.fsencode(self.filed), self.out, page.Options(seconds=1))
        self.assertLess(time.monotonic() - started, 20)
        self.assertIn("3 files, 0 drawn, 3 not (the page says why)", said)
        self.assertEqual(self.text().count("the time for all drawings, 1 seconds, was used up (--seconds)"), 2)

    def cases(self, blocks, arms):
        """A procedure of that many blocks with a Case each, by one table."""
        table = Table(tuple(Arm(4 * k, 4 * k + 3, (7 * k) % blocks) for k in range(arms)), blocks - 1)
        code = [[instruction("Case", statement=10 + b, v=0, table=0)] for b in range(blocks - 1)]
        return bytes(Procedure(["I64"], [*code, [instruction("Ret")]], None, [], [table]))

    def test_many_cases_are_not_drawn_and_told(self):
        """Four files with 160 Cases each: nothing waits for dot, each says why it isn't drawn, and has its text."""
        for number in range(4):
            self.put(f"cases-{number}.call", self.cases(160, 20 + number))
        self.put("few.call", self.cases(5, 100))
        provision_here(self.sent, self.filed)
        self.out = os.path.join(self.folder, "p.html")
        started = time.monotonic()
        said = page.write(os.fsencode(self.filed), self.out)
        self.assertLess(time.monotonic() - started, 60)
        if shutil.which("dot"):
            self.assertIn("5 files, 1 drawn, 4 not", said)
            for number in range(4):
                self.assertIn(f"it has {159 * (21 + number)} arrows, and at most 320 are drawn", self.text())
        self.assertEqual(self.text().count('"text":'), 5)

    def data(self):
        """What the page holds."""
        found = re.search(r'<script type="application/json" id="data">(.*?)</script>', self.text(), re.S)[1]
        return json.loads(found)

    def test_when_by_what_and_of_what(self):
        self.make(3)
        made = re.search(r'<p class="made">(.*?)</p>', self.text())[1]
        self.assertRegex(made, r": page made \d{4}-\d\d-\d\d \d\d:\d\d [+-]\d{4} by halivomue [\d.]+, of the report of \d{4}-")
        self.assertTrue(made.startswith(self.filed))
        self.assertIn(halivomue.__version__, made)

    def test_names_are_in_natural_order(self):
        wanted = ["a/lift-2.call", "a/lift-10.call", "a/lift-010.call", "a2/x.call", "a10/x.call", "lift-2b.call", "lift-10a.call", "lift.call"]
        for name in wanted:
            self.put(name, sample("printed"))
        provision_here(self.sent, self.filed)
        self.out = os.path.join(self.folder, "p.html")
        page.write(os.fsencode(self.filed), self.out)
        found = [row[0] for row in self.data()["rows"]]
        self.assertEqual(sorted(found), sorted(wanted))
        for first, second in (("a/lift-2.call", "a/lift-10.call"), ("a2/x.call", "a10/x.call"), ("lift-2b.call", "lift-10a.call")):
            self.assertLess(found.index(first), found.index(second))
        self.assertLess(found.index("a/lift-10.call"), found.index("lift-2b.call"))

    def test_reasons_links_and_digests(self):
        self.make(12)
        data = self.data()
        rows = {row[0]: dict(zip(data["columns"], row)) for row in data["rows"]}
        self.assertEqual((rows["refused.call"]["answer"], rows["refused.call"]["record"]), ("refused 7", 9))
        self.assertEqual(rows["refused.call"]["reason"], "record 9 names a register, block, table or list that does not exist")
        (odd,) = (name for name in rows if name.startswith("odd"))
        self.assertEqual(rows[odd]["reason"], "register 5 is written once, by CallNative in block 2, and read in another block (block 3)")
        for n, row in enumerate(data["rows"]):
            if str(n) in data["digests"]:
                way = data["links"].get(str(n)) or "/".join(map(quote, row[0].split("/")))
                for short, digest in zip(("", ".short"), filter(None, data["digests"][str(n)])):
                    path = os.path.join(os.path.dirname(self.out).encode(), unquote_to_bytes(data["base"] + way + short))
                    with open(path, "rb") as file:
                        self.assertEqual(hashlib.sha256(file.read()).hexdigest(), digest)

    def test_what_is_not_as_reported_is_marked(self):
        self.make(6)
        self.assertEqual(self.data()["differs"], {})
        with open(os.path.join(self.filed, "printed.call.short"), "ab") as file:
            file.write(b"x")
        first = next(row[0] for row in self.data()["rows"] if row[4] == "yes" and row[0].endswith(".call") and "/lift" in row[0])
        os.unlink(os.path.join(self.filed, first))
        self.assertIn("2 files not as the report says", run("page", self.filed, "--out", self.out)[0])
        data = self.data()
        names = {data["rows"][int(n)][0]: found for n, found in data["differs"].items()}
        self.assertEqual(set(names), {"printed.call", first})
        self.assertEqual(names[first], ["missing: the sent form"])
        self.assertTrue(names["printed.call"][0].startswith("altered: the shortened form"))

    def unpacked(self, text):
        return html.unescape(re.sub(r"<[^>]*>", "", zlib.decompress(base64.b64decode(text)).decode()))

    def test_the_texts_are_those_of_diff_and_explain(self):
        self.make(8)
        data = self.data()
        for n, made in data["drawings"].items():
            name = data["rows"][int(n)][0]
            with open(os.path.join(os.fsencode(self.filed), names.unquote(name)), "rb") as file:
                sent = file.read()
            short = halivomue.shorten(sent)
            compared = diff.compare(Procedure.parse(sent), Procedure.parse(short.data))
            alone = data["rows"][int(n)][4] == "as sent"
            due = show.lines(sent, name, False, page._WIDTH) if alone else diff.lines(compared, short.counts, page._WIDTH)
            self.assertEqual(self.unpacked(made["text"]), styled.plain(due))
            self.assertEqual(alone, "untidy" in made)
            if "untidy" in made:
                self.assertEqual(self.unpacked(made["untidy"]), styled.plain(explain.lines(sent, name, page._WIDTH)[0]))
        self.assertEqual(sum("untidy" in made for made in data["drawings"].values()), sum(row[5] == "no" for row in data["rows"]))

    def test_options(self):
        self.make(2)
        for words in (("--most", "-1"), ("--most", "x"), ("--seconds", "1.5"), ("--seconds", "9999999999")):
            _, said = run("page", self.filed, "--out", self.out, *words, status=2)
            self.assertIn("a number from 0 to", said)
        if shutil.which("dot"):
            self.assertIn("5 files, 0 drawn, 4 not", run("page", self.filed, "--out", self.out, "--seconds", "0")[0])

    @unittest.skipUnless(browser.chromium(), "chromium isn't installed: the page wasn't opened in a browser")
    def test_in_a_browser(self):
        """The table is sorted by clicks, files are found, and a drawing is shown."""
        self.make()
        with browser.Browser() as b:
            self.assertTrue(b.open(self.out))
            at = {name: n for n, name in enumerate(self.data()["columns"])}
            column = "[...document.querySelectorAll('tbody tr')].map(tr => tr.children[%d].textContent)"
            shown = b.run(column % 0)
            self.assertEqual(len(shown), 33)
            self.assertEqual(shown, [row[0] for row in self.data()["rows"]])
            grown = f"th:nth-child({at['grown'] + 1})"
            b.click(f"{grown} button")
            numbers = [int(text.replace(",", "")) for text in b.run(column % at["grown"]) if text]
            self.assertEqual(numbers, sorted(numbers, reverse=True))
            self.assertGreater(numbers[0], numbers[-1])
            self.assertEqual(b.run(f"document.querySelector('{grown}').getAttribute('aria-sort')"), "descending")
            b.click(f"{grown} button")
            again = [int(text.replace(",", "")) for text in b.run(column % at["grown"]) if text]
            self.assertEqual(again, sorted(numbers))
            b.click("th:nth-child(1) button")
            self.assertEqual(b.run(column % 0), shown)
            b.run("find.value = 'names a register'; find.oninput()")
            self.assertEqual(b.run(column % 0), ["refused.call"])
            b.click("tbody tr:last-child")
            self.assertIn("refused 7 9: record 9 names a register", b.until("document.getElementById('file').textContent"))
            b.run("find.value = 'printed'; find.oninput()")
            b.click("tbody tr")
            told = b.until("document.querySelector('#file h2').textContent === 'printed.call' && document.getElementById('file').textContent")
            self.assertIn("moved 1 grown 2 fresh 0 rescued 0, tidy", told)
            self.assertIn("the Br to block 2 gives way to a copy of block 2", told)
            if shutil.which("dot"):
                self.assertEqual(b.until("document.querySelectorAll('.draw svg').length"), 2)
                drawn = b.run("[...document.querySelectorAll('.draw svg')].map(svg => svg.textContent)")
                self.assertIn("Br block 2", drawn[0])
                self.assertIn("block 0, with a copy", drawn[1])
                self.assertGreater(b.run("document.querySelector('.draw svg').getBoundingClientRect().height"), 100)
            else:
                self.assertIn("Not drawn", told)
            self.assertEqual(b.faults(), [])
            picture = os.path.join(self.folder, "page.png")
            b.picture(picture)
            self.assertGreater(os.path.getsize(picture), 20_000)

    @unittest.skipUnless(browser.chromium(), "chromium isn't installed: the page wasn't opened in a browser")
    def test_filters(self):
        self.make()
        with open(os.path.join(self.filed, "printed.call.short"), "ab") as file:
            file.write(b"x")
        run("page", self.filed, "--out", self.out, "--most", "3")
        data = self.data()
        at = {name: n for n, name in enumerate(data["columns"])}
        due = {
            "refused": [row[0] for row in data["rows"] if row[at["answer"]].startswith("refused")],
            "untidy": [row[0] for row in data["rows"] if row[at["tidy"]] == "no"],
            "changed": [row[0] for row in data["rows"] if row[at["moved"]] == 1],
            "not as reported": ["printed.call"],
            "all": [row[0] for row in data["rows"]],
        }
        with browser.Browser() as b:
            b.open(self.out)
            for name, rows in due.items():
                self.assertTrue(rows)
                b.click(f"#filters button[data-filter='{name}']")
                self.assertEqual(b.run("[...document.querySelectorAll('tbody tr')].map(tr => tr.children[0].textContent)"), rows)
                self.assertEqual(b.run("document.querySelector('#filters [aria-pressed=true]').dataset.filter"), name)
            find = "[...document.querySelectorAll('tbody tr')].find(tr => tr.firstChild.textContent === 'printed.call')"
            self.assertEqual(b.run(f"{find}.children[{at['filed']}].textContent"), "altered")

    @unittest.skipUnless(browser.chromium(), "chromium isn't installed: the page wasn't opened in a browser")
    def test_layout(self):
        """A long name, a narrow window, and 340 files on paper."""
        long = "n" * 240 + ".call"
        self.put(long, sample("printed"))
        for number in range(339):
            self.put(f"site/lift-{number}.call", sample("printed"))
        self.make(0, "--most", "2")
        for width in (1400, 420):
            with browser.Browser(width, 900) as b:
                b.ask("Emulation.setDeviceMetricsOverride", width=width, height=900, deviceScaleFactor=1, mobile=False)
                b.open(self.out)
                name = b.run(f"data.rows.findIndex(row => row[0] === '{long}')")
                self.assertLessEqual(b.run("document.documentElement.scrollWidth"), width)
                shown = b.run(f"[...document.querySelector('tr[data-file=\"{name}\"]').children].filter(td => td.textContent && td.textContent !== '0')"
                              ".map(td => [td.getBoundingClientRect().left, td.getBoundingClientRect().right, td.offsetHeight,"
                              " td.scrollWidth - td.clientWidth])")
                self.assertGreater(len(shown), 8)
                for left, right, height, over in shown:
                    self.assertTrue(0 <= left < right <= width and height > 0 and over <= 1, (width, left, right, height, over))
                self.assertTrue(b.run("getComputedStyle(document.querySelector('.more')).display") == "none")
                if width == 420:
                    b.run(f"open({b.run('data.rows.findIndex(row => row[0] === String.raw`printed.call`)')})")
                    b.until("!document.getElementById('file').hidden")
                    self.assertLessEqual(b.run("document.documentElement.scrollWidth"), width)
        self.assertGreater(self.pages(), 6)

    def pages(self):
        """How many pages of paper the page takes; every file is on one."""
        with browser.Browser() as b:
            b.open(self.out)
            b.run("limit = 10; show(); addEventListener('beforeprint', () => { window.printed = document.querySelectorAll('tbody tr').length; })")
            data = base64.b64decode(b.ask("Page.printToPDF", preferCSSPageSize=True)["data"])
            self.assertEqual(b.run("window.printed"), len(self.data()["rows"]))
            self.assertEqual(b.run("document.querySelectorAll('tbody tr').length"), 10)
        return len(re.findall(rb"/Type\s*/Page\b", data))


if __name__ == "__main__":
    unittest.main()
