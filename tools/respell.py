#!/usr/bin/env python3
"""Spells the repository's own names as today's Rattle does: words in snake case, a dash only between two names that are
words themselves. Run once, after port.py, at the top of the repository: `python3 tools/respell.py [--list]`.

It also moves specs/Contracts.antt and specs/Contracts/ to specs/Inner.antt and specs/Inner/, since Rattle makes a module
`specs.contracts`. It goes by whole words, in .antt files and in the ghost parts of .rt files.
"""
import os
import re
import subprocess
import sys

TOP = os.getcwd()
CRATES = os.path.join(TOP, "crates")
WORD = re.compile(r"[^\s(){}\[\];,.@\"`|]+")
DECLARED = re.compile(r"^\s*(?:(?:abbrev|unfoldable|pub|private|opaque)\s+)*([^\s:(){}.,;]+(?:\s+[^\s:(){}.,;]+)*)\s*:\s")
DEFINED = re.compile(r"^\s*(?:pub\s+)?(?:abbrev|unfoldable)\s+(?:pub\s+)?([^\s:(){}.,;]+)\s*:\s")
# Words of the library that a name may hold beside a dash.
LIBRARY = set("length take drop get_or set append reverse map add sub mul div mod cond eqb ltb leb not min max suc".split())
# Names that would otherwise fall together with another one, or with a parameter of the function whose clause cites them.
BY_HAND = {
    "fit_at": "fit_at_lem",
    "in-float": "in_float_lem",
    "of-fields": "of_fields_lem",
    "in-range": "in_range_lem",
    "item_by": "item_by_lem",
    "label_is": "label_is_lem",
    "laid_out": "laid_out_is",
    "places-at": "places_start",
    "variables-at": "variables_start",
    "point-of": "point_of_lem",
    "ring_of": "ring_of_lem",
    "same_point": "same_point_lem",
    "scene-of": "scene_of_lem",
    "so-far": "so_far_is",
    "two_to": "two_to_j",
}
# Fields of a record in specs/ that have the name of the code's.
ALLOWED = {"lon_count", "places_at", "variables_at", "fit_at", "item_by", "label_is", "laid_out", "ring_of", "same_point", "two_to"}


def files(ext):
    for folder, dirs, names in os.walk(CRATES):
        dirs[:] = sorted(d for d in dirs if d != "out")
        for n in sorted(names):
            if n.endswith(ext):
                yield os.path.join(folder, n)


def read(p):
    with open(p, encoding="utf-8") as f:
        return f.read()


def ghost_parts(text):
    """The spans of a .rt file that are written in antt: clauses, ghost items and ghost imports."""
    spans = []
    for m in re.finditer(r"\bghost use\b[^;]*;", text):
        spans.append(m.span())
    for m in re.finditer(r"\b(?:requires|ensures|also_owns|also_shares|ghost|invariant)\b[^{};()]*\{", text):
        if text[m.start() : m.start() + 9] == "ghost use":
            continue
        depth, i = 1, m.end()
        while depth and i < len(text):
            depth += {"{": 1, "}": -1}.get(text[i], 0)
            i += 1
        spans.append((m.end(), i - 1))
    return sorted(spans)


def snake(word):
    word = re.sub(r"(?<=[a-z0-9])([A-Z])(?=[a-z])", lambda m: "_" + m.group(1).lower(), word)
    return re.sub(r"(?<=[a-z0-9])([A-Z])(?![a-z])", lambda m: "_" + (m.group(1).lower() if word[0].islower() and "-" not in word else m.group(1)), word)


def is_plain(name):
    return re.match(r"^[A-Za-z][\w'-]*$", name) is not None


def main(argv):
    antt = list(files(".antt"))
    rt = list(files(".rt"))
    declared, defined, tokens = {}, set(), set()
    for p in antt:
        text = read(p)
        bare = re.sub(r"(?m)--.*$", "", text)
        tokens.update(m.group(0) for m in WORD.finditer(bare) if bare[m.start() - 1 : m.start()] != ".")
        for line in text.split("\n"):
            if line.lstrip().startswith("--") or "tie." in line:
                continue
            m = DECLARED.match(line)
            if m:
                for n in m.group(1).split():
                    if is_plain(n):
                        declared.setdefault(n, p)
            m = DEFINED.match(line)
            if m:
                defined.add(m.group(1))
    code = set()
    for p in rt:
        text = read(p)
        spans, at, plain = ghost_parts(text), 0, ""
        for a, b in spans:
            tokens.update(m.group(0) for m in WORD.finditer(text[a:b]) if text[a + m.start() - 1] != ".")
            plain += text[at:a]
            at = b
        plain += text[at:]
        plain = re.sub(r"//[^\n]*", "", plain)
        code.update(re.findall(r"\b([a-z]\w*)\s*:\s*[&\w\[(]", plain))
        code.update(re.findall(r"\blet (?:mut )?(\w+)", plain))
    words = {snake(d) for d in defined} | LIBRARY
    new = {}
    for n in sorted(declared):
        if n in BY_HAND:
            new[n] = BY_HAND[n]
            continue
        if n[0].isupper() and "-" not in n:
            continue
        if n.endswith("-spec"):
            new[n] = n.replace("-", "_")
            continue
        parts = [snake(x) for x in n.split("-")]
        to = parts[0]
        for a, b in zip(parts, parts[1:]):
            to += ("-" if a in words and b in words else "_") + b
        if to != n:
            new[n] = to
    # A lemma that would have its definition's name.
    for n, to in list(new.items()):
        if "-" in n and any(m != n and "-" not in m and t == to for m, t in new.items()):
            new[n] = to + "_lem"
    back = {}
    for n, to in new.items():
        back.setdefault(to, []).append(n)
    bad = 0
    for to, olds in sorted(back.items()):
        if len(olds) > 1:
            print("together:", to, olds, [os.path.relpath(declared[n], CRATES) for n in olds])
            bad += 1
        if to in tokens and to not in ALLOWED:
            print("taken:", to, olds, os.path.relpath(declared[olds[0]], CRATES), "own" if to in declared else "")
            bad += 1
        if to in code:
            print("in code:", to, olds, os.path.relpath(declared[olds[0]], CRATES))
    if "--list" in argv:
        for n, to in sorted(new.items()):
            print(n, to)
    if bad:
        print(f"{bad} names fall together: nothing was written")
        return 1
    if "--dry" in argv:
        return 0

    def turn(text):
        return WORD.sub(lambda m: new.get(m.group(0), m.group(0)), text)

    for p in antt:
        text = read(p)
        to = turn(text)
        to = re.sub(r"(?<=\.specs\.)Contracts\b", "Inner", to)
        to = re.sub(r"(?m)^(\s*pub mod )Contracts$", r"\1Inner", to)
        if to != text:
            with open(p, "w", encoding="utf-8") as f:
                f.write(to)
    for p in rt:
        text = read(p)
        out, at = "", 0
        for a, b in ghost_parts(text):
            out += text[at:a] + re.sub(r"(?<=\.specs\.)Contracts\b", "Inner", turn(text[a:b]))
            at = b
        out += text[at:]
        if out != text:
            with open(p, "w", encoding="utf-8") as f:
                f.write(out)
    for c in sorted(os.listdir(CRATES)):
        for old in ("Contracts.antt", "Contracts"):
            p = os.path.join(CRATES, c, "specs", old)
            if os.path.exists(p):
                subprocess.run(["git", "mv", p, os.path.join(CRATES, c, "specs", old.replace("Contracts", "Inner"))], check=True)
    return 0


if __name__ == "__main__":
    raise SystemExit(main(sys.argv[1:]))
