#!/usr/bin/env python3
"""Measures how long the full plan takes to be read and written back: bench_plan.py [REPETITIONS]."""
import subprocess
import sys
import time
from pathlib import Path

TOP = Path(__file__).resolve().parent.parent
CRATE = TOP / "crates" / "bench"
BENCH = CRATE / "out" / "bench"
DATA = CRATE / "data"
RUNS = 5


def seconds(times):
    start = time.perf_counter()
    said = subprocess.run([BENCH, str(times)], cwd=DATA, check=True, capture_output=True, text=True).stdout
    took = time.perf_counter() - start
    if said != f"reads and writes {times}\n":
        sys.exit(f"bench said {said!r}")
    return took


def built():
    """The program, proved and built first if it is not there."""
    if not BENCH.exists():
        # the run itself finds no full.txt where it is started
        subprocess.run(["rt", "run", "--", "0"], cwd=CRATE, capture_output=True)
    return BENCH


def main():
    times = int(sys.argv[1]) if len(sys.argv) > 1 else 20000
    built()
    size = (DATA / "full.txt").stat().st_size
    # the least of some runs, without what starting the program takes
    took = min(seconds(times) for _ in range(RUNS)) - min(seconds(0) for _ in range(RUNS))
    print(f"{size} bytes, {times} times: {1e6 * took / times:.1f} microseconds a reading and writing, {size * times / took / 1e6:.0f} MB/s")


if __name__ == "__main__":
    main()
