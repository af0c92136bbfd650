#!/usr/bin/env python3
"""Writes the listings of crates/listings, and the input and output of the program in crates/stint.

What must be printed is computed here from the rules of plans, banks and the controller, without the program.
"""
import random
import re
from pathlib import Path

CRATES = Path(__file__).resolve().parent.parent / "crates"
LIMIT = 16384
NUMBER = rb"(0|[1-9][0-9]{0,4})"
FORM = re.compile(rb"([CST]),N|(W)|(L),N,N,N".replace(b"N", NUMBER))


def refusal(line, rows):
    """The first question that a line answers no, given the rows before it; else its row."""
    form = FORM.fullmatch(line)
    if not form:
        return 16
    parts = [g for g in form.groups() if g is not None]
    kind, numbers = parts[0].decode(), [int(n) for n in parts[1:]]
    kinds = [k for k, _ in rows]
    if kinds and "CSWTL".index(kind) < "CSWTL".index(kinds[-1]):
        return 17
    if kind == "L" and kinds and kinds[-1] == "L" and numbers[:2] <= rows[-1][1][:2]:
        return 17
    processors = sum(n[0] for k, n in rows if k == "C")
    clusters, tasks = kinds.count("C"), kinds.count("T")
    resources = kinds.count("S") + kinds.count("W")
    limits = {
        "C": [(1, 8)],
        "S": [(1, processors)],
        "W": [],
        "T": [(0, clusters - 1)],
        "L": [(0, tasks - 1), (0, resources - 1), (1, 10000)],
    }
    if not all(low <= n <= high for n, (low, high) in zip(numbers, limits[kind])):
        return 18
    used, room = {
        "C": (clusters, 8),
        "S": (resources, 16),
        "W": (resources, 16),
        "T": (tasks, 64),
        "L": (0, 1),
    }[kind]
    return 19 if used == room else (kind, numbers)


def limits(rows):
    """The line of each resource: its turn limits times the longest length declared for it."""
    m = sum(n[0] for k, n in rows if k == "C")
    out = b""
    for r, (kind, numbers) in enumerate([row for row in rows if row[0] in "SW"]):
        longest = max([n[2] for k, n in rows if k == "L" and n[1] == r], default=0)
        if kind == "S":
            write, read = -(-m // numbers[0]) - 1, "-"
        else:
            write, read = 2 * m - 2, min(2, m - 1) * longest
        out += f"B,{r},{write * longest},{read}\n".encode()
    return out


class Slots:
    """The first k in order of entry hold."""

    def __init__(self, k):
        self.k, self.line = k, []

    def knows(self, mode):
        return mode == "W"

    def holding(self):
        return set(self.line[: self.k])

    def enter(self, task, mode):
        self.line.append(task)

    def leave(self, task):
        self.line.remove(task)


class ReadersWriters:
    """Reads together, a writer alone; reads behind a writer are collected until it leaves."""

    def __init__(self):
        self.held, self.reads, self.writers = {}, [], []

    def knows(self, mode):
        return True

    def holding(self):
        return set(self.held)

    def enter(self, task, mode):
        writing = "W" in self.held.values() or self.writers
        if mode == "R" and not writing or mode == "W" and not self.held and not self.reads and not self.writers:
            self.held[task] = mode
        else:
            (self.reads if mode == "R" else self.writers).append(task)

    def leave(self, task):
        mode = self.held.pop(task)
        if mode == "W" and self.reads:
            self.held, self.reads = dict.fromkeys(self.reads, "R"), []
        elif not self.held and self.writers:
            self.held[self.writers.pop(0)] = "W"


class Controller:
    """The rules of docs/CONTROLLER.md, over the rows of an accepted plan."""

    def __init__(self, rows):
        self.processors = [n[0] for k, n in rows if k == "C"]
        self.banks = [Slots(n[0]) if k == "S" else ReadersWriters() for k, n in rows if k in "SW"]
        self.cluster = [n[0] for k, n in rows if k == "T"]
        self.length = {tuple(n[:2]): n[2] for k, n in rows if k == "L"}
        self.jobs = {}  # of each task: its release, what it wants, whether that is issued, ticks used and blocked
        self.clock = self.releases = 0

    def holds(self, t):
        job = self.jobs.get(t)
        return job is not None and job["issued"] and t in self.banks[job["want"][0]].holding()

    def ready(self, t):
        return t in self.jobs and (self.jobs[t]["want"] is None or self.holds(t))

    def rank(self, t, of):
        """How many of these jobs of the same cluster were released before t's."""
        return sum(
            self.cluster[u] == self.cluster[t] and self.jobs[u]["release"] < self.jobs[t]["release"] for u in of
        )

    def runs(self, t):
        return self.ready(t) and self.rank(t, [u for u in self.jobs if self.ready(u)]) < self.processors[self.cluster[t]]

    def first(self, t):
        return t in self.jobs and self.rank(t, self.jobs) < self.processors[self.cluster[t]]

    def issue(self, t):
        job = self.jobs[t]
        self.banks[job["want"][0]].enter(t, job["want"][1])
        job["issued"], job["used"] = True, 0
        return "hold" if self.holds(t) else "wait"

    def call(self, kind, numbers, mode):
        """The answer to an event, as it is printed."""
        t = numbers[0] if numbers else None
        if kind != "K" and t >= len(self.cluster):
            return "no,1"
        if kind == "N":
            if t in self.jobs:
                return "no,5"
            self.jobs[t] = {"release": self.releases, "want": None, "issued": False, "used": 0, "blocked": 0}
            self.releases += 1
            return str(self.releases - 1)
        if kind == "A":
            r = numbers[1]
            if r >= len(self.banks):
                return "no,2"
            if not self.banks[r].knows(mode):
                return "no,3"
            if (t, r) not in self.length:
                return "no,4"
        if kind in "AF":
            if not self.runs(t):
                return "no,7"
            if self.holds(t):
                return "no,8"
        if kind == "A":
            self.jobs[t]["want"] = (r, mode)
            return self.issue(t) if self.first(t) else "back"
        if kind == "G":
            if not self.holds(t):
                return "no,9"
            job = self.jobs[t]
            self.banks[job["want"][0]].leave(t)
            job["want"], job["issued"] = None, False
            return str(job["used"])
        if kind == "F":
            blocked = self.jobs.pop(t)["blocked"]
            back = [u for u in self.jobs if self.cluster[u] == self.cluster[t]
                    and self.jobs[u]["want"] is not None and not self.jobs[u]["issued"]]
            back = min(back, key=lambda u: self.jobs[u]["release"], default=None)
            if back is None or not self.first(back):
                return f"{blocked},-"
            return f"{blocked},{back},{self.issue(back)}"
        late = [u for u in sorted(self.jobs) if self.holds(u) and self.jobs[u]["used"] >= self.length[u, self.jobs[u]["want"][0]]]
        if late:
            return f"no,10,{late[0]}"
        blocked = [u for u in self.jobs if self.first(u) and not self.runs(u)]
        for u in self.jobs:
            self.jobs[u]["used"] += self.holds(u)
            self.jobs[u]["blocked"] += u in blocked
        self.clock += 1
        return str(self.clock)


EVENT = re.compile(rb"([NGF]),N\n|(A),N,N,([WR])\n|(K)\n".replace(b",N", b"," + NUMBER))


def event(line):
    """The letter, the numbers and the mode of an event line with its newline, if it is one."""
    form = EVENT.fullmatch(line)
    if not form:
        return None
    one, t, ask, u, r, mode, tick = form.groups()
    if one:
        return one.decode(), [int(t)], None
    return ("A", [int(u), int(r)], mode.decode()) if ask else ("K", [], None)


def replay(rows, text):
    controller, out = Controller(rows), b""
    for line in re.findall(rb"[^\n]*\n|[^\n]+", text):
        read = event(line)
        out += line[:-1] + b"," + controller.call(*read).encode() + b"\n" if read else b"?,no,21\n"
    return out


def answer(data):
    end = re.search(rb"^\n", data[:LIMIT], re.MULTILINE)
    if not end:
        return b"plan,no,22,0\n"
    text = data[: end.start()]
    rows = []
    for at, line in enumerate(text.split(b"\n")[:-1], 1):
        row = refusal(line, rows)
        if isinstance(row, int):
            return b"plan,no,%d,%d\n" % (row, at)
        rows.append(row)
    kinds = {k for k, _ in rows}
    if "C" in kinds and "T" in kinds and kinds & {"S", "W"}:
        return limits(rows) + replay(rows, data[end.end() :])
    return b"plan,no,20,%d\n" % (len(rows) + 1)


def lines(*words):
    return "".join(w + "\n" for word in words for w in word.split()).encode()


def lengths(of):
    return [f"L,{t},{r},{of(16 * t + r)}" for t in range(64) for r in range(16)]


HEAD = "C,1 S,1 T,0"
TASKS = [f"T,{t % 8}" for t in range(64)]
FULL = lines("C,8 " * 8, *[f"S,{1 + 7 * r}" for r in range(10)], "W " * 6, *TASKS,
             *lengths(lambda place: 10000 - 9 * place))
LONGEST = lines("C,8 " * 8, "S,64 " * 16, *TASKS, *lengths(lambda place: 10000))
TWO = "C,1 S,1 W T,0 T,0"

PLANS = {
    # accepted, and incomplete
    "smallest": lines(HEAD),
    "reader_writer_alone": lines("C,1 W T,0"),
    "three_tasks": lines("C,2 S,1 T,0 T,0 T,0 L,0,0,2 L,1,0,1 L,2,0,1"),
    "each_kind": lines("C,2 C,8 S,10 S,1 W W T,1 T,0 L,0,0,1 L,0,3,9 L,1,0,10000"),
    "full": FULL,
    "longest": LONGEST,
    "nothing": b"",
    "cluster_alone": lines("C,8"),
    "no_cluster": lines("W"),
    "no_resource": lines("C,1 T,0"),
    "no_task": lines("C,1 S,1"),
    # limits and names
    "cluster_of_0": lines("C,0"),
    "cluster_of_9": lines("C,9"),
    "cluster_of_99999": lines("C,99999"),
    "slots_0": lines("C,1 S,0"),
    "slots_as_processors": lines("C,2 C,3 S,5 T,0"),
    "slots_above_processors": lines("C,2 C,3 S,6 T,0"),
    "slots_before_clusters": lines("S,1"),
    "task_before_clusters": lines("T,0"),
    "task_of_no_cluster": lines("C,1 S,1 T,1"),
    "length_first": lines("L,0,0,1"),
    "length_0": lines(HEAD, "L,0,0,0"),
    "length_1": lines(HEAD, "L,0,0,1"),
    "length_10000": lines(HEAD, "L,0,0,10000"),
    "length_10001": lines(HEAD, "L,0,0,10001"),
    "length_of_no_task": lines(HEAD, "L,1,0,5"),
    "length_of_no_resource": lines(HEAD, "L,0,1,5"),
    "length_above_of_no_task": lines(HEAD, "L,0,0,5 L,99999,0,5"),
    "length_above_of_no_resource": lines(HEAD, "L,0,0,5 L,0,99999,5"),
    "length_of_resource_16": lines(TWO, "L,0,1,5 L,0,16,5"),
    # full tables
    "ninth_cluster": lines("C,1 " * 9),
    "ninth_cluster_of_9": lines("C,1 " * 8, "C,9"),
    "slots_17": lines("C,1", "S,1 " * 17),
    "slots_17_too_large": lines("C,1", "S,1 " * 16, "S,2"),
    "reader_writers_17": lines("C,1", "W " * 17),
    "resources_17": lines("C,1", "S,1 " * 9, "W " * 8),
    "task_65": lines("C,1 S,1", "T,0 " * 65),
    "task_65_of_no_cluster": lines("C,1 S,1", "T,0 " * 64, "T,1"),
    # order
    "cluster_behind_slots": lines("C,1 S,1 C,1"),
    "cluster_behind_reader_writer": lines("C,1 W C,1"),
    "cluster_behind_task": lines("C,1 T,0 C,1"),
    "cluster_behind_length": lines(HEAD, "L,0,0,1 C,1"),
    "slots_behind_reader_writer": lines("C,1 W S,1"),
    "slots_behind_task": lines("C,1 T,0 S,1"),
    "slots_behind_length": lines(HEAD, "L,0,0,1 S,1"),
    "reader_writer_behind_task": lines("C,1 T,0 W"),
    "reader_writer_behind_length": lines(HEAD, "L,0,0,1 W"),
    "task_behind_length": lines(HEAD, "L,0,0,1 T,0"),
    "order_before_limits": lines("C,1 S,1 C,9"),
    "order_before_full": lines("C,1 " * 8, "S,1 C,1"),
    "length_again": lines(HEAD, "L,0,0,5 L,0,0,5"),
    "length_99999_again": lines(HEAD, "L,0,0,5 L,0,0,99999"),
    "length_resource_falls": lines(TWO, "L,0,1,5 L,0,0,5"),
    "length_task_falls": lines(TWO, "L,1,0,5 L,0,1,5"),
    "length_task_falls_to_resource_16": lines(TWO, "L,1,0,5 L,0,16,5"),
    "length_task_rises": lines(TWO, "L,0,1,5 L,1,0,5"),
    "length_behind_full": FULL + lines("L,63,15,1"),
    "first_refused_line": b"C,1\nC,08\nC,9\nx\n",
}
# lines behind C,1 that have none of the five forms
FORMS = {
    "blank_ahead": b" C,1", "blank_behind": b"C,1 ", "blank_inside": b"C, 1", "blank_line": b" ",
    "tab": b"C,1\t", "carriage_return": b"C,1\r", "carriage_return_line": b"\r",
    "lower_case": b"c,1", "other_letter": b"X,1", "two_letters": b"CC,1", "no_letter": b",1",
    "comma_behind": b"C,1,", "comma_alone": b",", "two_commas": b"C,,1", "no_comma": b"C1",
    "no_number": b"C", "empty_number": b"C,", "empty_middle": b"L,0,,5", "two_numbers": b"C,1,1",
    "length_of_two": b"L,0,0", "length_of_four": b"L,0,0,5,5", "reader_writer_number": b"W,1",
    "reader_writer_comma": b"W,", "leading_zero": b"C,08", "two_zeros": b"T,00",
    "six_digits": b"S,100000", "six_zeros": b"T,000000", "many_digits": b"C," + b"1" * 99,
    "plus": b"C,+1", "minus": b"C,-1", "point": b"C,1.", "letter_in_number": b"C,1a",
    "byte_0": b"C,1\0", "byte_255": b"\xff", "byte_255_behind": b"C,1\xff", "digit_of_two_bytes": "C,¹".encode(),
}
INPUTS = {name: plan + b"\n" for name, plan in PLANS.items()}
INPUTS |= {f"form_{name}": b"C,1\n" + line + b"\n\n" for name, line in FORMS.items()}
# where the plan ends
FILL = b"x" * (LIMIT - 2 - len(LONGEST))
INPUTS |= {
    "no_input": b"",
    "no_empty_line": lines(HEAD),
    "no_empty_line_refused": lines("C,9"),
    "no_newline": lines(HEAD)[:-1],
    "empty_line_first": b"\n" + lines(HEAD) + b"\n",
    "more_behind": lines(HEAD) + b"\n\nC,9\n\xff \r\n\nx",
    "much_behind": lines(HEAD) + b"\n" + lines("C,9 " * 5000),
    "end_at_16384": LONGEST + FILL + b"\n\n",
    "end_at_16385": LONGEST + FILL + b"x\n\n",
    "long_line_end_at_16384": b"x" * (LIMIT - 2) + b"\n\n",
    "long_line_end_at_16385": b"x" * (LIMIT - 1) + b"\n\n",
    "refused_line_end_at_16385": b"C,9\n" + b"x" * (LIMIT - 5) + b"\n\n",
    "no_newline_16384": b"x" * LIMIT,
}


# event lines behind a plan
EXAMPLE = "C,2 S,1 T,0 T,0 T,0 L,0,0,2 L,1,0,1 L,2,0,1"
ALL = "N,0 N,1 N,2 N,3 "
READ = "C,4 W " + "T,0 " * 5 + "L,0,0,3 L,1,0,3 L,2,0,3 L,3,0,3 L,4,0,3"
RUNS = {
    "example": (EXAMPLE, "N,0 N,1 N,2 A,0,0,W A,2,0,W A,1,0,W A,2,0,W K K K G,0 F,0 K G,1 F,1 F,2 G,2 F,2"),
    "no_events": (HEAD, ""),
    "ticks": (HEAD, "K " * 12),
    "reads_together": (READ, ALL + "A,0,0,R A,1,0,R A,2,0,R K G,1 K G,0 G,2 F,0 F,1 F,2"),
    "writer_alone": (READ, ALL + "A,0,0,W A,1,0,W A,2,0,R K A,3,0,R G,0 K A,0,0,W G,2 G,3 K G,1 G,0"),
    "collected_reads": (READ, ALL + "A,0,0,R A,1,0,W A,2,0,R A,3,0,R K G,0 K K G,1 K G,2 K G,3 F,1 F,3"),
    "next_writer": (READ, ALL + "A,3,0,W A,2,0,W A,1,0,W K G,3 G,2 K G,1 K"),
    "held_back_reader": (READ, ALL + "N,4 A,4,0,R A,0,0,W A,1,0,R A,4,0,R K G,0 F,0 G,4 G,1 F,4"),
    "two_clusters": ("C,1 C,1 S,1 T,0 T,1 T,0 L,0,0,2 L,1,0,3 L,2,0,1",
                     "N,0 N,1 N,2 A,0,0,W A,1,0,W A,2,0,W K K G,0 A,2,0,W F,0 A,2,0,W K G,1 F,1 K G,2 F,2"),
    "two_resources": ("C,2 S,2 W T,0 T,0 T,0 L,0,0,5 L,0,1,2 L,1,1,2 L,2,0,1",
                      "N,2 N,0 N,1 A,2,0,W A,0,1,W K A,0,0,W G,0 A,0,0,W K G,2 F,2 A,1,1,R G,0 A,0,1,W K G,1 G,0 F,0 F,1"),
    "no_task_1": (EXAMPLE, "N,3 A,3,9,W G,3 F,3 N,99999 A,99999,99999,R F,64"),
    "no_resource_2": (EXAMPLE, "A,0,1,W A,0,16,R N,0 A,0,99999,W A,0,0,W"),
    "no_mode_3": (EXAMPLE, "N,0 A,0,0,R A,1,0,R A,0,0,W G,0"),
    "no_length_4": ("C,1 S,1 W T,0 T,0 L,0,0,2 L,1,1,2", "N,0 A,0,1,R A,1,0,W A,0,1,W A,0,0,W"),
    "not_idle_5": (EXAMPLE, "N,0 N,0 A,0,0,W N,0 N,1 A,1,0,W N,1 G,0 N,0 F,0 N,0"),
    "not_running_7": (EXAMPLE, "F,0 A,0,0,W N,0 N,1 N,2 A,2,0,W F,2 A,1,0,W A,0,0,W A,0,0,W F,0 A,2,0,W A,2,0,W F,2"),
    "still_holding_8": (EXAMPLE, "N,0 A,0,0,W A,0,0,W F,0 G,0 F,0"),
    "not_holding_9": (EXAMPLE, "G,0 N,0 G,0 A,0,0,W N,1 A,1,0,W G,1 G,0 G,0 G,1"),
    "late_10": (EXAMPLE, "N,1 N,0 A,1,0,W K K K G,1 A,0,0,W K K K G,0 K"),
    "late_lowest": ("C,2 S,2 T,0 T,0 L,0,0,1 L,1,0,1", "N,0 N,1 A,0,0,W A,1,0,W K K G,0 K G,1 K"),
    "release_numbers": ("C,1 S,1 T,0", "N,0 F,0 " * 12),
    "long_numbers": ("C,1 S,1 T,0 L,0,0,10000", "N,0 A,0,0,W " + "K " * 1200 + "G,0 F,0"),
}
BAD_LINES = [b"", b" ", b"K ", b" K", b"k", b"K,", b"KK", b"N", b"N,", b"N0", b"n,0", b"N,0,", b"N,0,0", b"N,00", b"N,01", b"N,-1", b"N,+1",
             b"N,100000", b"N,0 ", b"N, 0", b"N,\xb9", b"A,0,0", b"A,0,0,", b"A,0,0,w", b"A,0,0,X", b"A,0,0,WW", b"A,0,0,W,", b"A,0,W",
             b"A,0,,W", b"A,,0,W", b"A,00,0,W", b"A,0,01,R", b"A0,0,W", b"G", b"G,", b"G,0,W", b"F,", b"F,x", b"T,0", b"C,1", b"?",
             b"?,no,21", b"K\r", b"\r", b"K\0", b"\xff", b"A,99999,99999,WW", b"A,100000,0,W", b"x" * 14, b"x" * 15, b"x" * 16,
             b"x" * 17, b"x" * 40, b"N,0" + b"0" * 30, b"K" * 300, b"A,99999,99999,W" + b" " * 3]
BEHIND = lines(EXAMPLE) + b"\n"
INPUTS |= {f"run_{name}": lines(plan) + b"\n" + lines(events) for name, (plan, events) in RUNS.items()}
INPUTS |= {
    "unreadable_lines": BEHIND + b"N,0\n" + b"".join(line + b"\nK\n" for line in BAD_LINES),
    "unreadable_last": BEHIND + b"N,0\nK",
    "unreadable_last_letter": BEHIND + b"N",
    "unreadable_last_long": BEHIND + b"K\n" + b"y" * 500,
    "longest_event": BEHIND + b"A,99999,99999,W\nA,99999,99999,R\nK\n",
    "empty_lines": BEHIND + b"\n" * 30 + b"K\n\nK\n",
    "no_final_newline": BEHIND + b"K\nN,0\nA,0,0,W",
    "refused_plan_and_events": lines("C,1 S,2 T,0") + b"\nN,0\nK\nK",
    "line_of_70000": BEHIND + b"N,0\n" + b"z" * 70000 + b"\nK\n",
}


def random_plan(draw):
    clusters = [f"C,{draw.randint(1, 3)}" for _ in range(draw.randint(1, 3))]
    processors = sum(int(c[2:]) for c in clusters)
    slots = [f"S,{draw.randint(1, processors)}" for _ in range(draw.randint(0, 2))]
    writers = ["W"] * draw.randint(0 if slots else 1, 2)
    tasks = [f"T,{draw.randrange(len(clusters))}" for _ in range(draw.randint(2, 9))]
    resources = len(slots) + len(writers)
    declared = [f"L,{t},{r},{draw.randint(1, 4)}" for t in range(len(tasks)) for r in range(resources) if draw.random() < 0.8]
    return lines(*clusters, *slots, *writers, *tasks, *declared)


def accepted_rows(plan):
    """The rows of a plan that is accepted."""
    rows = []
    for line in plan.split(b"\n")[:-1]:
        rows.append(refusal(line, rows))
    return rows


def random_line(draw, controller):
    """An event line, with its newline, that is mostly accepted; the controller is called with it."""
    tasks, banks = len(controller.cluster), len(controller.banks)
    for _ in range(draw.randint(1, 8)):
        t, r = draw.randint(0, tasks - (draw.random() < 0.95)), draw.randint(0, banks - (draw.random() < 0.95))
        mode = "W" if r < banks and isinstance(controller.banks[r], Slots) and draw.random() < 0.9 else draw.choice("WR")
        kind = draw.choice("NAAGFK")
        good = {"N": t not in controller.jobs, "G": controller.holds(t), "K": True}.get(kind, t < tasks and controller.runs(t) and not controller.holds(t))
        if good:
            break
    line = {"A": f"A,{t},{r},{mode}", "K": "K"}.get(kind, f"{kind},{t}").encode()
    if draw.random() < 0.03:
        line = draw.choice(BAD_LINES)
    read = event(line + b"\n")
    if read:
        controller.call(*read)
    return line + b"\n"


def random_run(seed):
    """A random plan, with events of which most are accepted."""
    draw = random.Random(seed)
    plan = random_plan(draw)
    controller = Controller(accepted_rows(plan))
    text = b"".join(random_line(draw, controller) for _ in range(draw.randint(20, 120)))
    return plan + b"\n" + (text if draw.random() < 0.8 else text[:-1])


INPUTS |= {f"random_{seed}": random_run(seed) for seed in range(300)}


# the program's run: the worked example and its events, and then more than two full pipes, so that it is read in many pieces
PIPE = 65536
# every number that this plan can show: its tasks declare a length at its one resource (4), and 6 and 11 are for 100,000,000 calls
SHOWN = [1, 2, 3, 5, 7, 8, 9, 10, 21]
LONG_LINES = [b"z" * 1000, b"K" * 5000, b"A,0,0,W" * 40, b"," * 17, b"N,0 " * 4]


def long_run():
    """An input that begins with the worked example, is longer than two full pipes, and ends without a newline."""
    draw = random.Random(2)
    text = INPUTS["run_example"]
    plan, events = text.split(b"\n\n")
    controller = Controller(accepted_rows(plan + b"\n"))
    for line in events.split(b"\n")[:-1]:
        controller.call(*event(line + b"\n"))
    for at, line in enumerate([*LONG_LINES, b"N,0"], 1):
        while len(text) < 24000 * at:
            text += random_line(draw, controller)
        text += line + b"\n"
    return text[:-1]


def check_long_run(text, printed):
    """Fails where the run does not show what it is for."""
    example = INPUTS["run_example"]
    assert text.startswith(example) and printed.startswith(answer(example))
    assert len(text) > 2 * PIPE and not text.endswith(b"\n") and printed.endswith(b"?,no,21\n")
    for end in range(PIPE, len(text), PIPE):
        assert text[end - 1] != 10 and text[end] != 10, f"a line ends at {end}"
    assert refusals(printed) == SHOWN


def refusals(printed):
    """The numbers that event lines are refused with."""
    return sorted({int(n) for n in re.findall(rb"^[NAGFK?].*,no,(\d+)", printed, re.MULTILINE)})


def main():
    data = CRATES / "listings" / "data"
    data.mkdir(parents=True, exist_ok=True)
    for old in data.iterdir():
        old.unlink()
    for name, text in INPUTS.items():
        (data / f"{name}.in").write_bytes(text)
        (data / f"{name}.out").write_bytes(answer(text))
    shown = refusals(b"".join(answer(text) for text in INPUTS.values()))
    (CRATES / "listings" / "args").write_text("".join(f"{name}\n" for name in INPUTS))
    (CRATES / "listings" / "stdout").write_text("".join(f"{name} true\n" for name in INPUTS))
    (CRATES / "bench" / "data" / "full.txt").write_bytes(FULL)
    print(f"{len(INPUTS)} listings, with refusals {shown} of events; the full plan has {len(FULL)} bytes, the longest {len(LONGEST)}")
    run = long_run()
    printed = answer(run)
    check_long_run(run, printed)
    (CRATES / "stint" / "stdin").write_bytes(run)
    (CRATES / "stint" / "stdout").write_bytes(printed)
    print(f"the run of stint has {len(run)} bytes and prints {len(printed)}, with refusals {SHOWN} of events")


if __name__ == "__main__":
    main()
