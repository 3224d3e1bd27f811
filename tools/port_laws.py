#!/usr/bin/env python3
"""Moves laws from specs/ to proofs/ in the crates whose must-fail edits change a definition.

usage: port_laws.py [--check] [FOLDER]       at the top of the repository, once, after port_names.py

Today's Rattle refuses such an edit only where what rests on the definition stands in proofs/: a theorem of specs/ that falls makes the text one
that cannot be read. Moved is each file that specs/Lib.antt lists below its line 'laws' and that rests, by its imports, on a file that an edit
changes, but for those that a definition or a contract imports. Statements and proofs stay as they are, and so does the file's name.
"""
import os
import re
import sys

# Crates in which such an edit is refused by a function, so that their theorems stay.
STAY = {"words"}
ROOT = next((a for a in sys.argv[1:] if a != "--check"), ".")
WRITES = "--check" not in sys.argv


def read(path):
    with open(path, encoding="utf-8") as f:
        return f.read()


def write(path, text):
    with open(path, "w", encoding="utf-8") as f:
        f.write(text)


def crates():
    top = os.path.join(ROOT, "crates")
    return sorted(c for c in os.listdir(top) if os.path.isdir(os.path.join(top, c, "specs")))


def listed(crate):
    """The modules of specs/Lib.antt: (name, whether below 'laws', the comment above it)."""
    found, laws, comment = [], False, []
    for line in read(os.path.join(ROOT, "crates", crate, "specs", "Lib.antt")).split("\n"):
        if re.match(r"-- -+ *laws", line):
            laws, comment = True, []
        elif re.match(r"-- -+ *definitions", line):
            laws, comment = False, []
        elif line.startswith("--"):
            comment.append(line)
        elif m := re.match(r"(?:pub )?mod (\S+)", line):
            found.append((m[1], laws, comment))
            comment = []
        else:
            comment = []
    return found


def imports(crate, text):
    return set(re.findall(rf"Rattle\.{crate}\.specs\.([A-Z]\w*)", text))


def main():
    moved = []
    for crate in crates():
        folder = os.path.join(ROOT, "crates", crate)
        edits = os.path.join(folder, "must-fail")
        changed = set()
        if os.path.isdir(edits):
            for f in os.listdir(edits):
                changed.update(re.findall(r"(?m)^file: specs/(\w+)\.antt", read(os.path.join(edits, f))) if f.endswith(".edit") else [])
        if not changed or crate in STAY:
            continue
        modules = listed(crate)
        texts = {}
        for m, laws, _ in modules:
            texts[m] = read(os.path.join(folder, "specs", m + ".antt"))
            for sub, _, fs in os.walk(os.path.join(folder, "specs", m)):
                texts[m] += "".join(read(os.path.join(sub, f)) for f in sorted(fs) if f.endswith(".antt"))
        uses = {m: imports(crate, t) - {m} for m, t in texts.items()}
        rests = set(changed)
        while True:
            more = {m for m in texts if m not in rests and uses[m] & rests}
            if not more:
                break
            rests |= more
        laws = {m for m, is_law, _ in modules if is_law}
        # what definitions and contracts import stays
        stays = {m for m, is_law, _ in modules if not is_law}
        for sub, _, fs in os.walk(os.path.join(folder, "src")):
            for f in fs:
                stays |= imports(crate, read(os.path.join(sub, f)))
        while True:
            more = {u for m in stays if m in uses for u in uses[m]} - stays
            if not more:
                break
            stays |= more
        go = [(m, c) for m, is_law, c in modules if is_law and m in rests and m not in stays]
        kept = sorted(laws & rests & stays)
        if kept:
            print(f"{crate}: stay, since definitions or contracts import them: {' '.join(kept)}")
        lib = os.path.join(folder, "proofs", "Lib.antt")
        have = set(re.findall(r"mod (\S+)", read(lib))) if os.path.exists(lib) else set()
        clash = [m for m, _ in go if m in have or os.path.exists(os.path.join(folder, "proofs", m + ".antt"))]
        if clash:
            print(f"{crate}: names that proofs/ has already: {clash}")
        if go:
            print(f"{crate}: {' '.join(m for m, _ in go)}")
        moved += [(crate, m) for m, _ in go if m not in clash]
        if WRITES and go:
            go = [(m, c) for m, c in go if m not in clash]
            os.makedirs(os.path.join(folder, "proofs"), exist_ok=True)
            for m, _ in go:
                os.rename(os.path.join(folder, "specs", m + ".antt"), os.path.join(folder, "proofs", m + ".antt"))
                if os.path.isdir(os.path.join(folder, "specs", m)):
                    os.rename(os.path.join(folder, "specs", m), os.path.join(folder, "proofs", m))
            path = os.path.join(folder, "specs", "Lib.antt")
            out, comment = [], []
            for line in read(path).split("\n"):
                if line.startswith("-- -"):
                    out += comment + [line]
                    comment = []
                elif line.startswith("--"):
                    comment.append(line)
                elif (n := re.match(r"(?:pub )?mod (\S+)", line)) and n[1] in {m for m, _ in go}:
                    comment = []
                else:
                    out += comment + [line]
                    comment = []
            text = "\n".join(out + comment)
            text = re.sub(r"-- -+ *laws *\n(?=\s*$)", "", text)
            write(path, text.rstrip("\n") + "\n")
            head = read(lib).rstrip("\n") + "\n" if os.path.exists(lib) else "-- Laws of this crate's definitions. A line of comment for each file.\n"
            head += "".join("\n".join(c + [f"pub mod {m}"]) + "\n" for m, c in go)
            write(lib, head)
    if WRITES:
        names = {}
        for c, m in moved:
            names.setdefault(c, []).append(m)
        path = re.compile("|".join(rf"Rattle\.{c}\.specs\.(?:{'|'.join(ms)})(?![\w'])" for c, ms in names.items()))
        for folder, dirs, fs in os.walk(os.path.join(ROOT, "crates")):
            dirs[:] = [d for d in dirs if d not in ("out", "target")]
            for f in fs:
                if f.endswith((".rt", ".antt", ".edit")):
                    p = os.path.join(folder, f)
                    t = read(p)
                    n = path.sub(lambda m: m[0].replace(".specs.", ".proofs."), t)
                    if n != t:
                        write(p, n)
        print(f"{len(moved)} files of {len(names)} crates moved")


main()
