#!/usr/bin/env python3
"""Times stint on a plan and a million events, and tells its peak memory: bench_events.py [EVENTS].

The first run has 64 tasks that release, ask, give and finish in turn, with ticks between; the second has ticks alone; the third has
lines that are no events.
"""
import subprocess
import sys
import tempfile
import time
from pathlib import Path

CRATE = Path(__file__).resolve().parent.parent / "crates" / "stint"
STINT = CRATE / "out" / "stint"
TASKS = 64
RUNS = 5
PLAN = "C,8\n" * 8 + "S,4\n" * 8 + "W\n" * 8 + "".join(f"T,{t % 8}\n" for t in range(TASKS))
PLAN += "".join(f"L,{t},{r},10000\n" for t in range(TASKS) for r in range(16)) + "\n"


def mixed(ticks=16):
    """A round in which every task works once, with so many ticks in it."""
    row = [f"N,{t}" for t in range(TASKS)]
    row += [f"A,{t},{t % 16},{'R' if t % 16 > 7 and t % 3 else 'W'}" for t in range(TASKS)]
    row += ["K"] * ticks
    row += [f"{kind},{t}" for t in range(TASKS) for kind in "GF"]
    return row


def made(row, events):
    text = "\n".join(row) + "\n"
    times = -(-events // len(row))
    return (PLAN + text * times).encode(), len(row) * times


def peak(data):
    """The most memory that stint has held, when it has read all and waits for more."""
    child = subprocess.Popen([STINT], stdin=subprocess.PIPE, stdout=subprocess.DEVNULL)
    child.stdin.write(data)
    child.stdin.flush()
    time.sleep(0.2)
    status = Path(f"/proc/{child.pid}/status").read_text()
    child.stdin.close()
    child.wait()
    return next(line.split(":")[1].strip() for line in status.splitlines() if line.startswith("VmHWM"))


def seconds(path):
    with open(path, "rb") as source:
        start = time.perf_counter()
        subprocess.run([STINT], stdin=source, stdout=subprocess.DEVNULL, check=True)
        return time.perf_counter() - start


def run(name, row, events):
    data, count = made(row, events)
    with tempfile.NamedTemporaryFile() as file:
        file.write(data)
        file.flush()
        took = min(seconds(file.name) for _ in range(RUNS))
    print(f"{name}: {count} lines in {took * 1000:.0f} ms, {count / took / 1e6:.2f} million a second, {took / count * 1e9:.0f} ns each; peak memory {peak(data)}")


def built():
    """The program, proved and built first if it is not there."""
    if not STINT.exists():
        subprocess.run(["rt", "run"], cwd=CRATE, stdin=subprocess.DEVNULL, capture_output=True, check=True)
    return STINT


def main():
    built()
    events = int(sys.argv[1]) if len(sys.argv) > 1 else 1_000_000
    run("mixed", mixed(), events)
    run("ticks", ["K"], events)
    run("no events", ["?"], events)


if __name__ == "__main__":
    main()
