#!/usr/bin/env python3
"""Runs the kit's port.py over the repository in parts, since over all crates at once it stops at its own limit of half an hour.

usage: port_parts.py FROM WORK TO      FROM: a checkout of the older form; WORK: an empty folder; TO: a second checkout, whose crates are replaced

Each part is a repository of its own with some crates of crates.txt, in their order, and gets one run. Imports of the proofs of crates of
another part are respelled here. The one folder of proofs that is named after 26 functions is called '+m' before its run.
"""
import os
import re
import shutil
import subprocess
import sys

# The folder of the kit is that of the page which `rt doc` names.
KIT = os.path.join(os.path.dirname(subprocess.run(["rt", "doc"], capture_output=True, text=True, check=True).stdout.strip()), "port")
source, work, to = (os.path.abspath(a) for a in sys.argv[1:4])
lines = {l.split(":")[0].split()[0]: l for l in open(os.path.join(source, "crates.txt")) if ":" in l and not l.startswith("#")}
size = {c: sum(os.path.getsize(os.path.join(d, f)) for d, _, fs in os.walk(os.path.join(source, "crates", c)) for f in fs) for c in lines}
parts, held = [[]], 0
for c in lines:
    if held + size[c] > sum(size.values()) / 22 and parts[-1]:
        parts.append([])
        held = 0
    parts[-1].append(c)
    held += size[c]
for i, part in enumerate(parts):
    top = os.path.join(work, f"part{i:02d}")
    os.makedirs(os.path.join(top, "crates"))
    for c in part:
        shutil.copytree(os.path.join(source, "crates", c), os.path.join(top, "crates", c))
    for folder, dirs, _ in os.walk(os.path.join(top, "crates")):
        for d in dirs:
            if d[:1] == "+" and len(d) > 150 and d.startswith("+assign"):
                os.rename(os.path.join(folder, d), os.path.join(folder, "+m"))
                subprocess.run(f"grep -rlF '{d}' crates | xargs sed -i 's/{d}/+m/g'", shell=True, cwd=top)
    open(os.path.join(top, "crates.txt"), "w").write("".join(lines[c] for c in part))
    open(os.path.join(top, ".gitignore"), "w").write("out/\n")
    subprocess.run("git init -q . && git add -A && git -c user.name=part -c user.email=part@example commit -qm part", shell=True, cwd=top, check=True)
    subprocess.run([sys.executable, os.path.join(KIT, "port.py")], cwd=top, check=True)
    for c in part:
        shutil.rmtree(os.path.join(to, "crates", c), ignore_errors=True)
        shutil.copytree(os.path.join(top, "crates", c), os.path.join(to, "crates", c))
for folder, dirs, files in os.walk(os.path.join(to, "crates")):
    for f in files:
        if f.endswith((".antt", ".rt")):
            path = os.path.join(folder, f)
            old = open(path, encoding="utf-8").read()
            new = re.sub(r"Rattle·(\w+)·(specs|proofs)\.\2", r"Rattle.\1.\2", old)
            new = re.sub(r"Rattle·(\w+)", r"Rattle.\1", new)
            if new != old:
                open(path, "w", encoding="utf-8").write(new)
