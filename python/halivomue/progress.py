"""A progress bar on a terminal, and nothing in a log."""

from __future__ import annotations

import importlib
import time
from typing import IO, Any, Callable, Optional


def _bar(total: int, out: IO[str]) -> Optional[Any]:
    try:
        tqdm = importlib.import_module("tqdm")
    except ImportError:
        return None
    return tqdm.tqdm(total=total, unit=" files", file=out, dynamic_ncols=True, leave=False)


def _duration(seconds: float) -> str:
    whole = int(seconds)
    return f"{whole // 60}:{whole % 60:02d}" if whole < 3600 else f"{whole // 3600}:{whole // 60 % 60:02d}:{whole % 60:02d}"


class Progress:
    """tqdm's bar if it is installed, else a line that is rewritten."""

    def __init__(self, out: Optional[IO[str]], count: Callable[[], int]) -> None:
        self.out = out if out is not None and out.isatty() else None
        self.total = count() if self.out is not None else 0
        self.done = 0
        self.started, self.told = time.monotonic(), 0.0
        self.bar = _bar(self.total, self.out) if self.out is not None else None

    def __enter__(self) -> "Progress":
        return self

    def __exit__(self, *_: object) -> None:
        self.clear()
        if self.bar is not None:
            self.bar.close()

    def add(self, count: int) -> None:
        """Notes that some more are done."""
        self.done += count
        if self.bar is not None:
            self.bar.update(count)
        elif self.out is not None and time.monotonic() - self.told > 0.1:
            self._tell(self.out)

    def _tell(self, out: IO[str]) -> None:
        self.told = time.monotonic()
        rate = self.done / max(self.told - self.started, 1e-9)
        left = _duration(max(self.total - self.done, 0) / rate) if rate else "?"
        out.write(f"\r\x1b[K{self.done} of {self.total} files, {rate:.0f} a second, {left} left")
        out.flush()

    def clear(self) -> None:
        """Clears the line for other output."""
        if self.bar is not None:
            self.bar.clear()
        elif self.out is not None:
            self.out.write("\r\x1b[K")
            self.out.flush()
