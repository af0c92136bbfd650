#!/usr/bin/env python3
"""Counts machine instructions: of stint for an event line, by kind of work, and of reading and writing the full plan.

count_instructions.py [STINT [BENCH]], where the programs of crates/stint and crates/bench stand for what is not named.
Each run is made once under valgrind's callgrind. What stint takes for its plan alone is subtracted, and the rest is divided by
the number of lines. The load of the machine does not matter, and two runs of one program differ by some thousandths at most, so
versions can be compared.
"""
import subprocess
import sys
import tempfile
from pathlib import Path

import bench_events
import bench_plan

# a busy field is rounds in which every task works once: requests wait, and jobs come late
KINDS = {
    "a busy field": bench_events.mixed(ticks=64) * 20,
    "ticks, nobody holds": ["K"] * 5000,
    "ticks, 16 hold": [f"N,{t}" for t in range(16)] + [f"A,{t},{t},W" for t in range(16)] + ["K"] * 5000,
    "release and finish": ["N,5", "F,5"] * 2500,
    "release, ask, give and finish": ["N,5", "A,5,3,W", "G,5", "F,5"] * 1250,
    "a give that is refused": ["G,5"] * 5000,
    "no event": ["?"] * 5000,
}
PLANS = 20


def instructions(command, text=b""):
    """How many instructions a command takes on this input; it is run where the full plan lies."""
    with tempfile.TemporaryDirectory() as folder:
        counts = Path(folder) / "counts"
        source = Path(folder) / "input"
        source.write_bytes(text)
        traced = ["valgrind", "--tool=callgrind", f"--callgrind-out-file={counts}", *map(str, command)]
        # from a file, since of a pipe the sizes of the pieces change from run to run
        with source.open("rb") as events:
            subprocess.run(traced, stdin=events, cwd=bench_plan.DATA, capture_output=True, check=True)
        return next(int(line.split()[1]) for line in counts.read_text().splitlines() if line.startswith("summary:"))


def main():
    named = [Path(name).resolve() for name in sys.argv[1:]]
    stint = named[0] if named else bench_events.built()
    bench = named[1] if len(named) > 1 else bench_plan.built()
    alone = instructions([stint], bench_events.PLAN.encode())
    print(f"stint, the full plan alone: {alone}")
    for name, lines in KINDS.items():
        text = bench_events.PLAN + "".join(line + "\n" for line in lines)
        print(f"stint, {name}: {(instructions([stint], text.encode()) - alone) / len(lines):.0f} a line")
    plans = instructions([bench, PLANS]) - instructions([bench, 0])
    print(f"the full plan read and written: {plans / PLANS:.0f}")


if __name__ == "__main__":
    main()
