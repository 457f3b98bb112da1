"""Cases and answers: reading both, counting what occurred, comparing."""

import os
import subprocess
import sys
from pathlib import Path

ROOT = Path(__file__).resolve().parent.parent.parent
BUILD = ROOT / "tests" / "oracle" / "build"
ORACLE = ROOT / "target" / "oracle" / "oracle"
GENERATE = ROOT / "target" / "oracle" / "generate"

KINDS = "box circle ellipse arc line arrow spline text dot brace block".split()

# The built-in kind table: texts and dots on the screen, blocks not drawn.
BUILT_IN = "0000000000000001010002"

# Limit, work, positions, feature lines and warnings of `place`, the kind table that
# it lends, the tier that it names, and that tier's allowance.
PLACE_SIZES = (32768, 2048, 2048, 512, 512, BUILT_IN, 1, "-")


class Case:
    def __init__(self, name, sizes, data):
        self.name, self.sizes, self.data = name, sizes, data

    def for_place(self):
        return self.sizes == PLACE_SIZES

    def kinds(self):
        return self.sizes[5]

    def tier(self):
        return self.sizes[6]

    def text(self):
        sizes = " ".join(map(str, self.sizes))
        return f"case {self.name} {sizes} {len(self.data)}\n".encode() + self.data


def build():
    """The oracle and the generator; status 3 where they can't be had."""
    status = subprocess.run([BUILD]).returncode
    if status:
        sys.exit(status)


def generated(*args):
    data = subprocess.run([GENERATE, *map(str, args)], check=True, stdout=subprocess.PIPE).stdout
    at = 0
    while at < len(data):
        end = data.index(b"\n", at)
        _, name, *numbers, kinds, tier, allowance, length = data[at:end].decode().split(" ")
        at = end + 1 + int(length)
        yield Case(name, (*map(int, numbers), kinds, int(tier), allowance), data[end + 1 : at])


def answered(cases, *options, program=ORACLE):
    """Each case's lines, in the cases' order; None for one at which the
    program stopped."""
    answers = []
    while len(answers) < len(cases):
        given = b"".join(case.text() for case in cases[len(answers) :])
        command = [program, "batch", *options]
        out = subprocess.run(command, input=given, stdout=subprocess.PIPE, stderr=subprocess.DEVNULL)
        blocks = out.stdout.decode().split("> ")[1:]
        answers += [block.splitlines()[1:] for block in blocks]
        if out.returncode != 0:
            answers.append(None)
    return answers


def split(lines):
    """The answer's lines, and what the oracle counted beside them."""
    counted = [line.removeprefix("T ").rsplit(" ", 1) for line in lines if line.startswith("T ")]
    lines = [line for line in lines if not line.startswith("T ")]
    return lines, {key: int(n) for key, n in counted}


# Each kind at each entry of the kind table, and those of the built-in one; then of
# items at 2 that are no blocks, what they have.
AT_ENTRIES = [f"{kind} at {entry}" for kind in KINDS[:-1] for entry in range(3)] + ["block at 2"]
AT_BUILT_IN = [f"{kind} at {entry}" for kind, entry in zip(KINDS, bytes.fromhex(BUILT_IN))]
AT_2 = [f"at 2, {what}" for what in ("hidden", "screen class", "labelled", "control point")]

OTHER_TIERS = ["tier 0", "tier above 1", "tier 0, spent mark 1", "tier 0, spent mark 0 and 0 left"]

# Rows that `place` is not asked for: it lends the built-in table and names tier 1.
NOT_FOR_PLACE = {"refused 20", "kinds other", *AT_ENTRIES, *AT_2, *OTHER_TIERS} - {*AT_BUILT_IN}

# The rows of the table, in its order: everything that can occur.
ROWS = (
    ["accepted"]
    + [f"refused {n}" for n in range(21)]
    + [f"warning {n}" for n in range(1, 7)]
    + ["point", "line", "polygon"]
    + ["role 0", "role 1 (fill)", "placement 0", "placement 1 (screen)"]
    + ["part 0", "part above 0"]
    + ["method 0 (anchor)", "method 1 (two points)", "method 2 (Helmert)"]
    + ["control points 0", "control points 1", "control points 2", "control points 3 to 63"]
    + ["control points 64"]
    + ["spent mark 0", "spent mark 1", "allowance left 0"]
    + [f"kind-{k}" for k in KINDS]
    + [f"flag-{f}" for f in "hidden nested closed fill screen".split()]
    + [f"draw-{p}" for p in "segment piece ellipse rounded-box sharp-box".split()]
    # A piece and a sharp box are always granted what they want.
    + [f"short-{p}" for p in "segment ellipse rounded-box split".split()]
    + ["unwritten", "unused-outline"]
    + ["step-below-100", "step-above-100"]
    + ["kinds built-in", "kinds other"]
    + AT_ENTRIES
    + AT_2
    + ["tier 1"]
    + OTHER_TIERS
)


def rows_of(lines, counted):
    """The rows that an answer belongs to, each as often as it occurred."""
    for line in lines:
        kind, *rest = line.split(" ")
        if kind == "P":
            continue
        n = [int(v) for v in rest]
        if kind == "E":
            yield f"refused {n[0]}"
        elif kind == "R":
            yield "accepted"
            yield ["method 0 (anchor)", "method 1 (two points)", "method 2 (Helmert)"][n[0]]
            yield "control points " + (str(n[1]) if n[1] < 3 or n[1] == 64 else "3 to 63")
        elif kind == "F":
            yield ["point", "line", "polygon"][n[1]]
            yield ["role 0", "role 1 (fill)"][n[2]]
            yield ["placement 0", "placement 1 (screen)"][n[3]]
            yield "part above 0" if n[4] else "part 0"
        elif kind == "W":
            yield f"warning {n[0]}"
        elif kind == "B":
            yield f"spent mark {n[1]}"
            if n[0] == 0:
                yield "allowance left 0"
    # What the oracle counted beside an answer holds for one that is written.
    if lines and lines[0].startswith("R "):
        yield from (key for key in counted if key != "granted")


def case_rows(case, lines):
    """The rows that a case's kind table, its tier and its answer belong to."""
    yield "kinds built-in" if case.kinds() == BUILT_IN else "kinds other"
    tier = case.tier()
    yield f"tier {tier}" if tier < 2 else "tier above 1"
    if tier == 0 and lines[-1].startswith("B "):
        left, mark = lines[-1].split(" ")[1:]
        if mark == "1":
            yield "tier 0, spent mark 1"
        elif left == "0":
            yield "tier 0, spent mark 0 and 0 left"


class Table:
    """How often each row occurred, in streams: in all, and under the sizes of
    `place`."""

    def __init__(self):
        self.seen = {row: [0, 0] for row in ROWS}

    def add(self, case, lines, counted):
        for row in {*rows_of(lines, counted), *case_rows(case, lines)}:
            self.seen[row][0] += 1
            self.seen[row][1] += case.for_place()

    def show(self):
        print(f"{'streams in which it occurred':32}{'all':>9}{'place':>9}")
        for row, (every, place) in self.seen.items():
            print(f"{row:32}{every:9}{place:9}")

    def empty(self):
        return [
            row
            for row, (every, place) in self.seen.items()
            if not every or not place and row not in NOT_FOR_PLACE
        ]


def first_difference(ours, theirs):
    """The first line in which two answers differ, or None."""
    for k, (a, b) in enumerate(zip(ours, theirs)):
        if a != b:
            return k + 1, a, b
    if len(ours) != len(theirs):
        k = min(len(ours), len(theirs))
        return k + 1, (ours + ["(nothing)"])[k], (theirs + ["(nothing)"])[k]
    return None


def placed(program, case):
    """What the program `place` prints for a stream."""
    # Files in memory: pipes would cost more than the program does.
    with open(os.memfd_create("stream"), "w+b") as given, open(os.memfd_create("lines"), "w+b") as out:
        given.write(case.data)
        given.flush()
        given.seek(0)
        status = subprocess.call([program], stdin=given, stdout=out)
        out.seek(0)
        text = out.read().decode("ascii", "replace")
    return text.splitlines() if status == 0 else [f"(status {status})"]
