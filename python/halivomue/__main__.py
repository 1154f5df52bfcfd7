"""The commands: provision, audit and page; read, tidy, list and shorten; accounts; show, explain and diff."""

from __future__ import annotations

import argparse
import io
import os
import signal
import sys
from typing import IO, Callable, List, Optional

from . import __version__, asking, audit, filing, look, names, page, provisioning, report, work
from ._library import LibraryError
from .filer import Options
from .filing import Failed
from .provisioning import trimmed

_PROVISION = """\
Every procedure under SENT is filed under FILED, in the same tree: the sent bytes under the same name and
the shortened form beside them, with .short after the name. FILED/report.csv has a line for each file and the
totals. A file that is untidy or too large to be shortened is filed without a shortened form: only that of a
tidy file is promised to do what the file does. A file that is refused or unreadable is told and files
nothing; the others go on. A run that was interrupted is taken up again by the same command: what is filed
and unchanged isn't done again.

Each shortening that is filed now is billed: its price is added to the tally of the accounts, which are saved at
the end of the run. What is filed already and unchanged isn't billed again. Without --accounts the accounts are
FILED/.halivomue/accounts, which the first run makes.

examples:
  python3 -m halivomue provision sent filed
  python3 -m halivomue provision --strict --json --jobs 4 sent filed
  python3 -m halivomue provision --dry-run sent filed >would-be.csv
  python3 -m halivomue provision --accounts shop north-sent north-filed

ends with 0; 1 where a file was refused or unreadable, or untidy with --strict; 2 where the run itself failed"""

_AUDIT = """\
Every sent form under FILED is shortened again and compared with what is filed beside it, and with its line in
the report. What is altered, missing or foreign is named, a line each.

example:
  python3 -m halivomue audit filed

ends with 0; 1 where something was named; 2 where the audit itself failed"""

_PAGE = """\
Writes a page to look at: the totals, a table of the files, and for a file its control flow as sent and as
shortened, drawn by graphviz's dot, and what diff says of it. It is one file and opens without a network; its
links lead to the files as long as the page stands where it was written. A file whose drawing would take too
long, or that comes after --seconds are used up, has the text alone, and says why.

examples:
  python3 -m halivomue page filed --out page.html
  python3 -m halivomue page filed --out page.html --draw 'north/*' --draw '*/lift-7.call'

ends with 0, or 2 where the page could not be made"""


_ASK = {
    "read": "of each file: accepted, or refused, number and record",
    "tidy": "of each file: yes, or no and the lowest offending register, or refused",
    "list": "of each file: counts, registers, blocks and code of its shortened form, or refused",
}
_ASK_MORE = """\
The answers are those of the program `halivomue {command}`. With --json each is a line of JSON: name, answer
(accepted, refused or unreadable), number, record and reason of a refusal{more}. A name is quoted as in a report.

example:
  python3 -m halivomue {command} --json *.call

ends with 0; 1 where a file is refused or can't be read; 2 where the command failed"""
_ASK_JSON = {
    "read": "",
    "tidy": ", tidy (true or false), reg",
    "list": ", the four counts, registers (types), blocks (start, end), code (kind, op, statement, p1 to p6)",
}

_SHORTEN = """\
Writes the shortened form of IN to the file OUT, or of each IN into the folder OUT, under the same name: whole or
not at all, with the mode of IN, less what the umask takes away. A symbolic link, a device or a pipe isn't
replaced. With --accounts the price of each is added to the tally of the accounts in FILE, which is saved before
OUT gets its name; while the command runs, FILE.lock keeps others out.

examples:
  python3 -m halivomue shorten lift-7.call short.call
  python3 -m halivomue shorten --accounts shop lift-7.call short.call
  python3 -m halivomue shorten --json north/*.call shortened/

ends with 0; 1 where a file is refused, or can't be read or written; 2 where the command failed"""

_ACCOUNTS = """\
make  makes accounts with a tally of 0 in FILE, which must not exist
show  prints their tally, in cents

examples:
  python3 -m halivomue accounts make shop
  python3 -m halivomue accounts show shop

ends with 0, or 2 where the command failed"""

_LOOK = {
    "show": ("a procedure by names, as sent or as shortened", "  python3 -m halivomue show --short lift-7.call"),
    "explain": ("why a file is refused or untidy, and where", "  python3 -m halivomue explain lift-7.call"),
    "diff": ("both forms side by side, with what was done", "  python3 -m halivomue diff lift-7.call"),
}
_LOOK_ENDS = "in colour on a terminal, unless NO_COLOR is set\nends with 0; 1 where a file is refused or can't be read; 2 where the command failed"


def _number(least: int, most: int) -> Callable[[str], int]:
    """Reads an option's number."""

    def read(text: str) -> int:
        if text.isascii() and text.isdigit() and len(text) < 10 and least <= int(text) <= most:
            return int(text)
        raise argparse.ArgumentTypeError(f"a number from {least} to {most} expected, not {text!r}")

    return read


def parser() -> argparse.ArgumentParser:
    raw = argparse.RawDescriptionHelpFormatter
    top = argparse.ArgumentParser(prog="python3 -m halivomue", description="Call procedures, filed with their shortened forms.")
    top.add_argument("--version", action="version", version=f"halivomue {__version__}")
    commands = top.add_subparsers(dest="command", metavar="COMMAND", required=True)
    run = commands.add_parser("provision", help="file what is sent, with shortened forms", epilog=_PROVISION, formatter_class=raw)
    run.add_argument("sent", metavar="SENT", help="the folder of the files as sent")
    run.add_argument("filed", metavar="FILED", help="the folder to file them in; it is made where it isn't there")
    run.add_argument("--pattern", default="*.call", metavar="P", help="names that are procedures (default: %(default)s)")
    of_untidy = run.add_mutually_exclusive_group()
    of_untidy.add_argument("--strict", action="store_true", help="refuse untidy files")
    of_untidy.add_argument("--untidy", action="store_true", help="file shortened forms of untidy files too, though they may act differently")
    run.add_argument("--accounts", metavar="FILE", help="the accounts that are billed (default: FILED/.halivomue/accounts)")
    run.add_argument("--dry-run", action="store_true", help="file nothing; the report goes to standard output")
    run.add_argument("--json", action="store_true", help="write FILED/report.jsonl too, a line of JSON for each file")
    run.add_argument("--no-flush", action="store_true", help="don't wait for the disk: faster, but not safe from a power cut")
    check = commands.add_parser("audit", help="hold what is filed to the sent forms", epilog=_AUDIT, formatter_class=raw)
    check.add_argument("filed", metavar="FILED")
    for command in (run, check):
        command.add_argument(
            "--jobs", type=_number(1, 256), default=work.default_jobs(), metavar="N", help="processes (default: %(default)s, the processors)"
        )
    show = commands.add_parser("page", help="make a page of what is filed", epilog=_PAGE, formatter_class=raw)
    show.add_argument("filed", metavar="FILED")
    show.add_argument("--out", required=True, metavar="FILE", help="the page")
    show.add_argument("--draw", action="append", metavar="P", help="names to be drawn (default: all)")
    show.add_argument("--most", type=_number(0, 100_000), default=300, metavar="N", help="files to be drawn at most (default: %(default)s)")
    show.add_argument("--seconds", type=_number(0, 86_400), default=120, metavar="N", help="time for all drawings (default: %(default)s)")
    _add_asking(commands)
    _add_look(commands)
    return top


def _add_asking(commands: "argparse._SubParsersAction[argparse.ArgumentParser]") -> None:
    raw = argparse.RawDescriptionHelpFormatter
    for name, what in _ASK.items():
        more = _ASK_MORE.format(command=name, more=_ASK_JSON[name])
        asking_for = commands.add_parser(name, help=what, epilog=more, formatter_class=raw)
        asking_for.add_argument("files", nargs="*", metavar="FILE", help="- or none at all is standard input")
    short = commands.add_parser("shorten", help="write shortened forms", epilog=_SHORTEN, formatter_class=raw)
    short.add_argument("files", nargs="+", metavar="IN", help="a procedure's file; - is standard input")
    short.add_argument("out", metavar="OUT", help="a file, or a folder")
    short.add_argument("--accounts", metavar="FILE", help="add the price to the tally of these accounts")
    kept = commands.add_parser("accounts", help="make accounts, or show their tally", epilog=_ACCOUNTS, formatter_class=raw)
    kept.add_argument("what", choices=("make", "show"), metavar="make|show")
    kept.add_argument("file", metavar="FILE", help="the file that keeps the accounts")
    for command in (*_ASK, "shorten"):
        commands.choices[command].add_argument("--words", action="store_true", help="what the numbers mean, beside them")
        commands.choices[command].add_argument("--json", action="store_true", help="a line of JSON for each file")


def _add_look(commands: "argparse._SubParsersAction[argparse.ArgumentParser]") -> None:
    for name, (what, example) in _LOOK.items():
        epilog = f"example:\n{example}\n\n{_LOOK_ENDS}"
        look_at = commands.add_parser(name, help=what, epilog=epilog, formatter_class=argparse.RawDescriptionHelpFormatter)
        look_at.add_argument("files", nargs="+", metavar="FILE", help="a procedure's file; - is standard input")
    commands.choices["show"].add_argument("--short", action="store_true", help="the shortened form")
    commands.choices["diff"].add_argument("--all", action="store_true", help="blocks that are unchanged too")


class _Lines:
    """Lines on standard output, as long as somebody reads them."""

    def __init__(self, out: IO[str]) -> None:
        self.out = out

    def __call__(self, line: str) -> None:
        try:
            print(line, file=self.out, flush=True)
        except BrokenPipeError:
            self.out = open(os.devnull, "w")


def _provision(arguments: argparse.Namespace) -> int:
    options = Options(
        trimmed(arguments.sent),
        trimmed(arguments.filed),
        arguments.pattern,
        arguments.jobs,
        arguments.strict,
        arguments.untidy,
        arguments.dry_run,
        not arguments.no_flush,
        arguments.json,
        None if arguments.accounts is None else os.fsencode(arguments.accounts),
    )
    say = _Lines(sys.stderr if options.dry_run else sys.stdout)
    outcome = provisioning.run(options, provisioning.Told(say, progress=sys.stderr), sys.stdout)
    say(outcome.totals.answers_text())
    say(outcome.totals.sums_text())
    if outcome.passed_over:
        say(f"passed over: {report.counted(outcome.passed_over)} under SENT whose name doesn't match {options.pattern}")
    tally = f"{outcome.tally} cents: {names.shown(os.fsencode(outcome.accounts))}"
    if options.dry_run:
        say("nothing was filed or billed (--dry-run)")
        say(f"the tally would be {tally}")
    else:
        say(f"the tally is {tally}")
        kept = f", {outcome.kept} were filed already" if outcome.kept else ""
        say(f"{outcome.done} filed{kept}; report: {arguments.filed.rstrip('/')}/report.csv")
    return 1 if outcome.totals.failed else 0


def _audit(arguments: argparse.Namespace) -> int:
    say = _Lines(sys.stdout)
    outcome = audit.audit(trimmed(arguments.filed), arguments.jobs, say)
    say(outcome.text())
    return 1 if outcome.findings else 0


def _page(arguments: argparse.Namespace) -> int:
    options = page.Options(arguments.draw or ["*"], arguments.most, arguments.seconds)
    print(page.write(trimmed(arguments.filed), arguments.out, options))
    return 0


def _look(arguments: argparse.Namespace) -> int:
    wanted = look.Wanted(arguments.command, getattr(arguments, "short", False), getattr(arguments, "all", False))
    return look.main(wanted, arguments.files)


def _ask(arguments: argparse.Namespace) -> int:
    asked = asking.Asked(arguments.command, arguments.words, arguments.json)
    if arguments.command == "shorten":
        return asking.shorten(asked, [*arguments.files, arguments.out], arguments.accounts)
    return asking.ask(asked, arguments.files)


def _accounts(arguments: argparse.Namespace) -> int:
    return asking.accounts(arguments.what, arguments.file)


class _Stopped(Exception):
    pass


def _stop(*_: object) -> None:
    raise _Stopped


def main(words: Optional[List[str]] = None) -> int:
    arguments = parser().parse_args(words)
    for stream in (sys.stdout, sys.stderr):
        if isinstance(stream, io.TextIOWrapper):
            stream.reconfigure(encoding="utf-8", errors="backslashreplace")
    signal.signal(signal.SIGTERM, _stop)
    try:
        work_of = {"provision": _provision, "audit": _audit, "page": _page, "accounts": _accounts, **dict.fromkeys(_LOOK, _look)}
        return work_of.get(arguments.command, _ask)(arguments)
    except (Failed, LibraryError) as error:
        why = str(error)
    except (KeyboardInterrupt, _Stopped):
        goes_on = arguments.command == "provision" and not arguments.dry_run
        why = "interrupted" + ("; the same command goes on where it stopped" if goes_on else "")
    except BrokenPipeError as error:
        os.dup2(os.open(os.devnull, os.O_WRONLY), 1)
        why = filing.why(error)
    except OSError as error:
        why = filing.told(error)
    print(f"halivomue {arguments.command}: {why}", file=sys.stderr)
    return 2


if __name__ == "__main__":
    sys.exit(main())
