#!/usr/bin/env python3
"""Brings must-fail edits over: the same wrong text, in today's spelling.

usage: tools/turn_edits.py LIST TURNED ROOT

An edit stands for a file before and a file after. Both were turned by port.py and respell.py, in a copy of the repository in which the file
after stands in a crate of its own: TURNED is that copy, and LIST says which crate there belongs to which edit. What
differs between the two turned files is the edit in today's spelling; where the file in ROOT has other text since, or the
edit speaks of a file that is gone, a line says so.
"""
import difflib
import json
import os
import sys


def lines(path):
    """Imports aside, which the scripts spell by what else a crate has."""
    with open(path, encoding="utf-8") as it:
        return [l for l in it.read().split("\n") if l.strip() and not l.startswith(("use ", "ghost use ", "pub use "))]


def once(text, old):
    return text.count(old) == 1


def main(argv):
    listed, turned, root = argv
    for path, it in sorted(json.load(open(listed)).items()):
        if not os.path.exists(os.path.join(root, path)):
            print("gone:", path)
            continue
        out, bad = [l for l in it["head"] if l.strip()], []
        kept, applied = list(out), {}
        for f in it["files"]:
            own = os.path.join(root, "crates", it["crate"], f)
            if not os.path.exists(own):
                bad.append(f"no {f}")
                continue
            before = lines(os.path.join(turned, "crates", it["crate"], f))
            after = lines(os.path.join(turned, "crates", it["z"].split("/")[1], f))
            now = open(own, encoding="utf-8").read()
            applied[f] = now
            out.append("file: " + f)
            for op, a, b, c, d in difflib.SequenceMatcher(None, before, after, autojunk=False).get_opcodes():
                if op == "equal":
                    continue
                if b - a != d - c:
                    bad.append(f"{f}: {b - a} lines become {d - c}: {before[a:b]} -> {after[c:d]}")
                    continue
                for x, y in zip(before[a:b], after[c:d]):
                    if x == y:
                        continue
                    x, y = x.strip(), y.strip()
                    if not once(now, x):
                        # the text may stand in another layout: the part that changes, with what is round it
                        bad.append(f"{f}: {now.count(x)} times: {x} -> {y}")
                        continue
                    out += ["old: " + x, "new: " + y]
                    now = now.replace(x, y)
                    applied[f] = now
        # what still stands as it was stays as it was
        for f in it["files"]:
            kept.append("file: " + f)
            own = os.path.join(root, "crates", it["crate"], f)
            was = open(own, encoding="utf-8").read() if os.path.exists(own) else ""
            now = was
            for g, x, y in it["pairs"]:
                if g == f and once(now, x):
                    kept += ["old: " + x, "new: " + y]
                    now = now.replace(x, y)
                elif g == f:
                    kept = None
                    break
            if kept is None or now != applied.get(f):
                kept = None
                break
        if kept:
            out, bad = kept, []
        if bad:
            print("by hand:", path)
            for b in bad:
                print("   ", b)
        if any(l.startswith("old:") for l in out):
            with open(os.path.join(root, path), "w", encoding="utf-8") as to:
                to.write("\n".join(out) + "\n")


if __name__ == "__main__":
    main(sys.argv[1:])
