"""The fixed list: streams and the oracle's answers, under the sizes, the kind
table and the tier of `place`.

An entry is three parts: a line `case NAME`; a line `stream` with the stream's
bytes, compressed by zlib, in base64; and a line `answer COUNT SUM` with the
number of the answer's lines and the SHA-256 of their text. The lines
themselves follow where they are few.
"""

import base64
import hashlib
import zlib
from pathlib import Path

LIST = Path(__file__).resolve().parent / "list.txt"
FEW = 24


def sum_of(lines):
    return hashlib.sha256("".join(f"{line}\n" for line in lines).encode()).hexdigest()


class Entry:
    def __init__(self, name, data, count, total, lines):
        self.name, self.data = name, data
        self.count, self.sum, self.lines = count, total, lines

    @staticmethod
    def of(name, data, lines):
        shown = lines if len(lines) <= FEW else []
        return Entry(name, data, len(lines), sum_of(lines), shown)

    def text(self):
        packed = base64.b64encode(zlib.compress(self.data, 9)).decode()
        head = [f"case {self.name}", f"stream {packed}", f"answer {self.count} {self.sum}"]
        return "".join(f"{line}\n" for line in head + self.lines)

    def difference(self, lines):
        """The first line in which an answer differs from the entry's, or
        None."""
        if lines is None:
            return 1, "(nothing)", "(an answer)"
        if len(lines) == self.count and sum_of(lines) == self.sum:
            return None
        for k, (given, kept) in enumerate(zip(lines, self.lines)):
            if given != kept:
                return k + 1, given, kept
        return len(lines), f"({len(lines)} lines)", f"({self.count} lines, other text)"


def read():
    lines = LIST.read_text().splitlines()
    entries, at = [], 0
    while at < len(lines):
        name = lines[at].removeprefix("case ")
        data = zlib.decompress(base64.b64decode(lines[at + 1].removeprefix("stream ")))
        _, count, total = lines[at + 2].split(" ")
        shown = int(count) if int(count) <= FEW else 0
        entries.append(Entry(name, data, int(count), total, lines[at + 3 : at + 3 + shown]))
        at += 3 + shown
    return entries
