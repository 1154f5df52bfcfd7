#!/usr/bin/env python3
"""Runs the parts of the test command, two at a time, and prints what each printed and how long it took.

    tests/parts.py PART..      each is a shell command, as one word

What a part prints is shown when it ends. If one fails, no further part is started, and the end of its output is the last
thing printed. The seconds of each part are added to build/seconds.txt.
"""

import os
import subprocess
import sys
import time
from concurrent.futures import ThreadPoolExecutor, as_completed

ROOT = os.path.dirname(os.path.dirname(os.path.abspath(__file__)))
os.chdir(ROOT)
LINES = 40  # of a failed part


def run(part):
    began = time.time()
    done = subprocess.run(["bash", "-c", part], stdin=subprocess.DEVNULL, stdout=subprocess.PIPE, stderr=subprocess.STDOUT, text=True, errors="replace")
    return part, done.returncode, done.stdout, time.time() - began


def main():
    seconds, failed = {}, []
    with ThreadPoolExecutor(2) as pool:
        waiting = [pool.submit(run, part) for part in sys.argv[1:]]
        for ended in as_completed(waiting):
            if ended.cancelled():
                continue
            part, status, said, took = ended.result()
            seconds[part] = took
            print(f"== {part}: {'passed' if status == 0 else 'FAILED'} ({took:.0f} s)\n{said}", end="", flush=True)
            if status:
                failed.append((part, said))
                for other in waiting:
                    other.cancel()
    with open("build/seconds.txt", "a") as out:
        out.writelines(f"{part}: {took:.0f}\n" for part, took in seconds.items())
    for part, said in failed:
        print(f"FAILED: {part}\n" + "\n".join(said.rstrip("\n").split("\n")[-LINES:]))
    return 1 if failed else 0


if __name__ == "__main__":
    sys.exit(main())
