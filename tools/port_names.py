#!/usr/bin/env python3
"""Spells the repository's own definitions and lemmas in snake case: `headerFits` and `length-none` become `header_fits` and `length_none`.

usage: port_names.py [--check] [FOLDER [BEFORE]]      FOLDER: the repository, straight after the kit's port.py; BEFORE: it as it was before that

Renamed are the names that the files of specs/ and proofs/ declare (definitions, lemmas, constructors, fields, local definitions) and those that
an `as` of an import gives, where they begin with a small letter. Types, modules, functions of src/, strings, inputs and outputs keep their
spelling, and so does a name in each file that imports it from the kit's libraries. OTHER gives another spelling to a name that would meet
another one. In comments and pages only what stands between backticks is renamed. With --check nothing is written, and names that would
fall together are listed.
"""
import collections
import os
import re
import sys

# Names that in snake case would fall together with another name that the same files have.
OTHER = {"ofDefinition": "is_of_definition"}
NAME = r"[^\s(){}\[\].;,@\"«»:⟨⟩`]+"
DECLARED = re.compile(r"^ *(?:(?:abbrev|pub|unfoldable|axiom|ruleset|mutual) )*((?:" + NAME + r" )+?)(?:\{[^{}\n]*\} )*:(?![:=])")
ALIAS = re.compile(r" as (" + NAME + r")(?=\s*[,};]|\s*$)", re.M)
USE = re.compile(r"^(?:pub )?(?:ghost )?use ([^\s;{]+?)(?:\.\{([^}]*)\}|(?=[\s;]))", re.M)
TOKEN = re.compile(r"(--|//)[^\n]*|\"(?:[^\"\\]|\\.)*\"|" + NAME)
TICKED = re.compile(r"`[^`\n]*`")
# The names that port.py made of the members of a cycle of calls, and short ones for them; they name folders of proofs.
CYCLES = {
    "walk_arms_walk_list_walk_statement": "walk_statements",
    "walk_arguments_walk_expression": "walk_expressions",
    "write_arguments_write_branch_write_call_write_choice_write_expression_write_last": "write_expressions",
    "write_arm_write_arms_write_block_write_body_write_choice_write_guarded_write_if_write_item_write_list_write_loop_write_round_write_rounds_write_statement_write_switch": "write_statements",
    "lowest_deep_lowest_deep_parts": "lowest_depth",
    "print_enclosed_print_item_print_list": "print_items",
    "count_item_count_list": "count_items",
    "write_front_write_function": "write_functions",
    "m": "run",
}
KEYWORDS = {"use", "pub", "let", "where", "module", "record", "data", "unfolding", "in", "elim", "abbrev", "unfoldable", "as", "mod"}


def snake(name):
    if name in OTHER:
        return OTHER[name]
    words = re.sub(r"(?<=[a-z0-9])[A-Z](?=[a-z0-9]|$|-)", lambda m: "_" + m[0].lower(), name)
    return words if name in DASHED else words.replace("-", "_")


# Lemmas with a dash that are renamed for a word in camel case keep the dash.
DASHED = set()


def wanted(name):
    return re.match(r"[a-z]", name) and re.fullmatch(r"[A-Za-z0-9_'′₀-₉-]+", name) and snake(name) != name


def own_crates(root):
    return {c for c in os.listdir(os.path.join(root, "crates")) if os.path.isdir(os.path.join(root, "crates", c))}


def files(root, endings):
    for folder, dirs, names in os.walk(root):
        dirs[:] = sorted(d for d in dirs if d not in ("out", "target", ".git", "unlanded"))
        for f in sorted(names):
            if f.endswith(endings):
                yield os.path.join(folder, f)


def read(path):
    with open(path, encoding="utf-8") as f:
        return f.read()


def of_the_kit(text, own):
    """The names that a file imports from the kit's libraries."""
    found = set()
    for m in USE.finditer(text):
        steps = m[1].split(".")
        if steps[0] == "Rattle" and len(steps) > 1 and steps[1] in own:
            continue
        for it in (m[2] or "").split(","):
            found.add(it.strip().split(" as ")[0].strip())
    return found


def name_cycles(root):
    """Gives cycles of calls, and their folders of proofs, the short names of CYCLES."""
    long = re.compile("|".join(re.escape(c) for c in sorted(CYCLES, key=len, reverse=True)))
    for path in list(files(os.path.join(root, "crates"), (".antt", ".rt", ".edit"))):
        text = read(path)
        new = re.sub(r"(?<=\+)(?:%s)(?=\W)|(?<=cycle\()(?:%s)(?=\))" % (long.pattern, long.pattern), lambda m: CYCLES[m[0]], text)
        if new != text:
            with open(path, "w", encoding="utf-8") as f:
                f.write(new)
    for folder, dirs, _ in os.walk(os.path.join(root, "crates"), topdown=False):
        for d in dirs:
            if d[:1] == "+" and d[1:] in CYCLES:
                os.rename(os.path.join(folder, d), os.path.join(folder, "+" + CYCLES[d[1:]]))


def declared(root):
    """Names of several words that are camel case, and names of definitions, constructors and fields with dashes: a dash in a lemma's name stays."""
    names, words_of = set(), set()
    for path in files(os.path.join(root, "crates"), (".antt", ".rt")):
        text = read(path)
        names.update(n for n in ALIAS.findall(text) if wanted(n) and re.search("[A-Z]", n))
        if path.endswith(".antt"):
            of_function = "/proofs/" in path and (path.endswith("/Proof.antt") or "/Proof/" in path)
            within = False
            for line in text.split("\n"):
                if line and not line.startswith(" "):
                    within = re.match(r"(?:abbrev )?(?:pub )?(?:record|data) ", line)
                m = DECLARED.match(line)
                if m and not of_function:
                    words = m[1].split()
                    word = within and line.startswith(" ") or re.match(r" *(?:pub )?(?:abbrev|unfoldable)", line)
                    if words[0] not in KEYWORDS:
                        names.update(w for w in words if wanted(w) and (word or re.search("[A-Z]", w)))
                        words_of.update(w for w in words if word)
    DASHED.update(n for n in names if "-" in n and n not in words_of)
    # A name with a dash that would meet one in camel case keeps its dash.
    camel = {snake(n) for n in names if re.search("[A-Z]", n)}
    return {n for n in names if re.search("[A-Z]", n) or snake(n) not in camel}


def apart(root, before):
    """Gives names with a dash their dash back where the kit's port.py made them one with a name that was in camel case."""
    full = lambda n: re.sub(r"(?<=[a-z0-9])[A-Z](?=[a-z0-9]|$|-)", lambda m: "_" + m[0].lower(), n).replace("-", "_")
    old = set()
    for path in files(os.path.join(before, "crates"), (".antt", ".rt")):
        text = read(path)
        old.update(ALIAS.findall(text))
        for line in text.split("\n") if path.endswith(".antt") else ():
            m = DECLARED.match(line)
            if m and m[1].split()[0] not in KEYWORDS:
                old.update(m[1].split())
    by = collections.defaultdict(set)
    for n in old:
        if re.match("[a-z]", n):
            by[full(n)].add(n)
    by = {s: ns for s, ns in by.items() if len(ns) > 1}
    # A name that port.py left alone is kept apart by its spelling.
    for path in files(os.path.join(root, "crates"), (".antt", ".rt")):
        was = os.path.join(before, os.path.relpath(path, root))
        if not os.path.exists(was):
            # a folder of a cycle has another name now
            parts = was.split("/")
            at = next((i for i, p in enumerate(parts) if p.startswith("+")), None)
            if at is None:
                continue
            folder = "/".join(parts[:at])
            tail = "/".join(parts[at + 1:])
            found = [x for x in os.listdir(folder) if x[:1] == "+" and os.path.exists(os.path.join(folder, x, tail))] if os.path.isdir(folder) else []
            if len(found) != 1:
                continue
            was = os.path.join(folder, found[0], tail)
        text = read(path)
        words = [m[0] for m in TOKEN.finditer(read(was))]
        have, changed = set(words), False
        for s, ns in by.items():
            if not any("-" in n and n in have for n in ns):
                continue
            then = [w for w in words if w in ns]
            now = [m for m in TOKEN.finditer(text) if m[0] == s or m[0] in ns]
            if len(then) != len(now):
                if any(m[0] == s for m in now):
                    print(f"look: {path}: {s}: {len(then)} then, {len(now)} now")
                continue
            for w, m in reversed(list(zip(then, now))):
                if "-" in w and m[0] == s:
                    text = text[: m.start()] + re.sub(r"(?<=[a-z0-9])[A-Z](?=[a-z0-9]|$|-)", lambda x: "_" + x[0].lower(), w) + text[m.end() :]
                    changed = True
        if changed:
            with open(path, "w", encoding="utf-8") as f:
                f.write(text)


def turned(text, names, kept, whole):
    """The text with each name respelled; in comments, and where not `whole`, only between backticks."""

    def one(word):
        return snake(word) if word in names and word not in kept else word

    def ticked(m):
        return re.sub(NAME, lambda w: one(w[0]), m[0])

    if not whole:
        return TICKED.sub(ticked, text)

    def token(m):
        if m[1]:
            return TICKED.sub(ticked, m[0])
        if m[0].startswith('"'):
            return m[0]
        return one(m[0])

    return TOKEN.sub(token, text)


def main(argv):
    writes = "--check" not in argv
    rest = [a for a in argv if a != "--check"]
    root = rest[0] if rest else "."
    own = own_crates(root)
    if writes:
        if len(rest) > 1:
            apart(root, rest[1])
        name_cycles(root)
    names = declared(root)
    by_new = collections.defaultdict(set)
    for n in names:
        by_new[snake(n)].add(n)
    paths = list(files(os.path.join(root, "crates"), (".antt", ".rt", ".edit")))
    if not writes:
        for new, olds in sorted(by_new.items()):
            if len(olds) > 1:
                print("together:", new, sorted(olds))
        seen = collections.defaultdict(lambda: [0, ""])
        for path in paths:
            text = read(path)
            words = set(re.findall(NAME, re.sub(r"(--|//)[^\n]*|\"(?:[^\"\\]|\\.)*\"", "", text)))
            for w in words & names:
                if snake(w) in words:
                    seen[w][0] += 1
                    seen[w][1] = path
        for w, (n, path) in sorted(seen.items(), key=lambda x: -x[1][0]):
            print("beside:", w, snake(w), n, path)
        print(len(names), "names")
        return
    changed = 0
    for path in paths:
        text = read(path)
        new = turned(text, names, of_the_kit(text, own), True)
        if new != text:
            changed += 1
            with open(path, "w", encoding="utf-8") as f:
                f.write(new)
    pages = [p for p in files(root, (".md",)) if "/target/" not in p]
    for path in pages:
        text = read(path)
        new = turned(text, names, set(), False)
        if new != text:
            changed += 1
            with open(path, "w", encoding="utf-8") as f:
                f.write(new)
    path = os.path.join(root, "wrong-clauses", "edits")
    if os.path.exists(path):
        text = read(path)
        with open(path, "w", encoding="utf-8") as f:
            f.write(turned(text, names, set(), True))
    print(f"{len(names)} names, {changed} files changed")


main(sys.argv[1:])
