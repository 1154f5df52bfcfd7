"""Checks call procedures, says whether they are tidy, and shortens them, by the proved library.

    import halivomue

    short = halivomue.shorten(data)        # raises halivomue.Refused
    print(short.counts, short.price)       # moved 1 grown 2 fresh 0 rescued 0 3
    print(halivomue.Procedure.parse(short.data))

    accounts = halivomue.Accounts()        # with a tally
    accounts.shorten(data)                 # adds 3 cents to accounts.tally

    halivomue.provision("sent", "filed")   # files a fleet, with a report

`python3 -m halivomue --help` has the provisioning run, the audit and the page as commands.
"""

from ._library import VERSION as __version__
from ._library import Data, LibraryError, read, shorten, tidy
from .accounts import Accounts, AccountsFile, DamagedAccounts
from .answers import LONGEST, ROOM, Reading, Refused, Shortening, Tidiness
from .filing import Failed
from .procedure import Arm, Instruction, Procedure, Table, instruction
from .provisioning import Outcome, provision
from .report import Row

__all__ = [
    "Accounts",
    "AccountsFile",
    "Arm",
    "DamagedAccounts",
    "Data",
    "Failed",
    "Instruction",
    "LONGEST",
    "LibraryError",
    "Outcome",
    "Procedure",
    "ROOM",
    "Reading",
    "Refused",
    "Row",
    "Shortening",
    "Table",
    "Tidiness",
    "__version__",
    "instruction",
    "provision",
    "read",
    "shorten",
    "tidy",
]
