"""Has several processes work on a series of tasks, with the results in the tasks' order.

Tasks go out in chunks, each to a process that is free. A process has at most two chunks at a time, and
only a limited number of results wait for earlier ones, so memory doesn't grow with the number of tasks.
"""

from __future__ import annotations

import ctypes
import gc
import os
import signal
from collections import deque
from typing import Any, Callable, Deque, Dict, Iterable, Iterator, List, Tuple

from . import filing
from .filing import Failed

CHUNK = 256
# Bytes of a chunk: small enough that everything under way fits into the pipes between the processes.
_CHUNK_BYTES = 16_384
_UNDER_WAY = 2
# Chunks from the first whose result is due to the last that is given out, for each process.
_AHEAD = 8
_PR_SET_PDEATHSIG = 1

#: Work on a chunk of tasks, made in each process from its number.
Worker = Callable[[List[Any]], Any]


def default_jobs() -> int:
    """How many processors this process may use."""
    return len(os.sched_getaffinity(0)) if hasattr(os, "sched_getaffinity") else os.cpu_count() or 1


def chunks(tasks: Iterable[Any], size: Callable[[Any], int], most: int) -> Iterator[List[Any]]:
    """The tasks in chunks of at most so many, and not too large."""
    chunk: List[Any] = []
    held = 0
    for task in tasks:
        chunk.append(task)
        held += size(task)
        if len(chunk) == most or held > _CHUNK_BYTES:
            yield chunk
            chunk, held = [], 0
    if chunk:
        yield chunk


def _serve(link: Any, others: List[Any], parent: int, make: Callable[[int], Worker], number: int) -> None:
    """A process's life: chunks in, results out, until the other end is closed."""
    ctypes.CDLL(None).prctl(_PR_SET_PDEATHSIG, signal.SIGKILL, 0, 0, 0)
    if os.getppid() != parent:
        os._exit(1)
    signal.signal(signal.SIGINT, signal.SIG_IGN)
    signal.signal(signal.SIGTERM, signal.SIG_DFL)
    for other in others:
        other.close()
    # What existed before the fork stays, and little of what a chunk creates needs the collector.
    gc.freeze()
    gc.set_threshold(50_000)
    work = make(number)
    while True:
        try:
            chunk = link.recv()
        except (EOFError, OSError):
            return
        try:
            answer: Tuple[bool, Any] = True, work(chunk)
        except Failed as error:
            answer = False, str(error)
        except OSError as error:
            answer = False, filing.told(error)
        try:
            link.send(answer)
        except OSError:
            return


def _received(link: Any) -> Any:
    try:
        good, result = link.recv()
    except (EOFError, OSError):
        raise Failed("a process of the run ended by itself") from None
    if not good:
        raise Failed(result)
    return result


def _give(link: Any, chunk: List[Any]) -> None:
    """Hands a chunk to a process; if the process has ended, raises what it last reported."""
    try:
        link.send(chunk)
    except OSError:
        while True:
            _received(link)


def _results(links: List[Any], coming: Iterator[List[Any]]) -> Iterator[Any]:
    """The results of the chunks in their order, each done by the process that has least to do."""
    from multiprocessing.connection import wait

    under_way: Dict[Any, Deque[int]] = {link: deque() for link in links}
    done: Dict[int, Any] = {}
    given = due = 0
    while True:
        free = min(links, key=lambda link: len(under_way[link]))
        if len(under_way[free]) < _UNDER_WAY and given < due + _AHEAD * len(links):
            chunk = next(coming, None)
            if chunk is not None:
                _give(free, chunk)
                under_way[free].append(given)
                given += 1
                continue
        if due == given:
            return
        for link in wait([link for link in links if under_way[link]]):
            done[under_way[link].popleft()] = _received(link)
        while due in done:
            yield done.pop(due)
            due += 1


def ordered(
    tasks: Iterable[Any], make: Callable[[int], Worker], jobs: int, size: Callable[[Any], int], most: int = CHUNK
) -> Iterator[Any]:
    """The results of the tasks, chunk by chunk, in order."""
    return ordered_chunks(chunks(tasks, size, most), make, jobs)


def ordered_chunks(coming: Iterator[List[Any]], make: Callable[[int], Worker], jobs: int) -> Iterator[Any]:
    """The results of the chunks, in order."""
    if jobs == 1:
        work = make(0)
        for chunk in coming:
            yield work(chunk)
        return
    # Imported only here, so that a script that only shortens doesn't wait for it.
    import multiprocessing

    context = multiprocessing.get_context("fork")
    started: List[Tuple[Any, Any]] = []
    try:
        for number in range(jobs):
            here, there = context.Pipe()
            others = [link for _, link in started] + [here]
            process = context.Process(target=_serve, args=(there, others, os.getpid(), make, number), daemon=True)
            process.start()
            there.close()
            started.append((process, here))
        yield from _results([link for _, link in started], coming)
    finally:
        for _, link in started:
            link.close()
        for process, _ in started:
            process.join()
