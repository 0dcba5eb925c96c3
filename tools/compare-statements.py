#!/usr/bin/env python3
"""compare-statements.py OLD NEW: the statements of the lemma files (crates/*/proofs, but for those of single functions), old beside new.

A statement is what stands between `pub NAME :` and the clause that proves it, with its line breaks taken out."""
import pathlib
import re
import sys

FUNCTION_FILES = {"Answers.antt", "Invariants.antt", "Proof.antt", "Lib.antt"}


def statements(root):
    found = {}
    for file in sorted(pathlib.Path(root, "crates").glob("*/proofs/**/*.antt")):
        if file.name in FUNCTION_FILES or "/out/" in str(file):
            continue
        crate = file.relative_to(pathlib.Path(root, "crates")).parts[0]
        lines = file.read_text().split("\n")
        for i, line in enumerate(lines):
            m = re.match(r"\s*(?:abbrev |unfoldable )?pub (\S+) :(.*)", line)
            if not m or "abbrev" in line or "unfoldable" in line:
                continue
            name, text = m.group(1), m.group(2)
            for more in lines[i + 1:]:
                if re.match(r"\s*(unfolding |%s\b|%s[ {(=])" % (re.escape(name), re.escape(name)), more) or not more.strip():
                    break
                text += " " + more
            found.setdefault((crate, name), []).append((file.name, " ".join(text.split())))
    return found


old, new = statements(sys.argv[1]), statements(sys.argv[2])
same = 0
for key in sorted(old):
    if key not in new:
        print("gone: %s %s" % key)
    elif sorted(t for _, t in old[key]) == sorted(t for _, t in new[key]):
        same += 1
    else:
        print("changed: %s %s" % key)
        for file, text in old[key]:
            print("    - %s" % text)
        for file, text in new[key]:
            print("    + %s" % text)
added = sorted(k for k in new if k not in old)
print("new: " + ", ".join("%s %s" % k for k in added))
print("statements: %d before, %d now; the same %d, changed %d, gone %d, new %d" % (
    len(old), len(new), same, sum(1 for k in old if k in new) - same, sum(1 for k in old if k not in new), len(added)))
