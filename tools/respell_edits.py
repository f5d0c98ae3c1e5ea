#!/usr/bin/env python3
"""Turns the must-fail edits to today's spelling: each edit is carried out on its file, and the changed file is turned beside the unchanged one.

usage: python3 tools/respell_edits.py lay FOLDER       FOLDER: a checkout of the older commit; writes the changed files there as zzN.rt and ZzN.antt
       (in FOLDER: git add -A; git commit; python3 /opt/rattle/port/port.py; python3 .../tools/respell.py)
       python3 tools/respell_edits.py take FOLDER      writes crates/*/must-fail/*.edit here: the lines in which the two turned files differ
"""
import glob
import json
import os
import sys


def edits(root):
    return sorted(glob.glob(f"{root}/crates/*/must-fail/*.edit") + glob.glob(f"{root}/crates/*/must-fail/more/*.edit"))


def read(path):
    with open(path, encoding="utf-8") as f:
        return f.read()


def write(path, text):
    os.makedirs(os.path.dirname(path), exist_ok=True)
    with open(path, "w", encoding="utf-8") as f:
        f.write(text)


def lay(root):
    laid = []
    for edit in edits(root):
        crate = os.path.relpath(edit, f"{root}/crates").split("/")[0]
        texts, path, old = {}, None, None
        for line in read(edit).split("\n"):
            if line.startswith("file:"):
                path = line[5:].strip()
                texts.setdefault(path, read(f"{root}/crates/{crate}/{path}"))
            elif line.startswith("old: "):
                old = line[5:]
            elif line.startswith("new:"):
                assert texts[path].count(old) == 1, (edit, old)
                texts[path] = texts[path].replace(old, line[5:])
        places = []
        for path, text in texts.items():
            n = sum(len(it[2]) for it in laid) + len(places)
            folder, name = os.path.split(path)
            changed = os.path.join(folder, f"zz{n}.rt" if name.endswith(".rt") else f"Zz{n}.antt")
            write(f"{root}/crates/{crate}/{changed}", text)
            places.append([path, changed])
        laid.append([os.path.relpath(edit, root), crate, places])
    write(f"{root}/edits.json", json.dumps(laid))


def take(root):
    bad = 0
    for edit, crate, places in json.loads(read(f"{root}/edits.json")):
        head = [line for line in read(f"{root}/{edit}").split("\n") if line.startswith("#")]
        out = list(head)
        for path, changed in places:
            base, other = (read(f"{root}/crates/{crate}/{it}").split("\n") for it in (path, changed))
            today = f"crates/{crate}/{path}"
            text = read(today) if os.path.exists(today) else ""
            out.append(f"file: {path}")
            if len(base) != len(other):
                print(f"{edit}: {len(base)} lines against {len(other)}")
                bad += 1
                continue
            pairs = [(a, b) for a, b in zip(base, other) if a != b]
            if not pairs:
                print(f"{edit}: nothing differs")
                bad += 1
            for a, b in pairs:
                if text.count(a) != 1:
                    print(f"{edit}: {text.count(a)} times in {path}: {a.strip()[:100]}")
                    bad += 1
                out += [f"old: {a}", f"new: {b}"]
        # today's rt tries each edit over what the crate's own check proved: those of must-fail/more stand with the others
        write(edit.replace("/must-fail/more/", "/must-fail/"), "\n".join(out) + "\n")
    print(f"{bad} to do by hand")


{"lay": lay, "take": take}[sys.argv[1]](sys.argv[2])
