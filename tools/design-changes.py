#!/usr/bin/env python3
"""design-changes.py OLD NEW: what docs/DESIGN-PASS.md ends with: each public signature and clause, each definition, type and statement of a
lemma file that differs between two trees, the old beside the new. It reads the kit's contracts.py and tools/compare-statements.py."""
import json
import pathlib
import re
import subprocess
import sys

OLD, NEW = sys.argv[1], sys.argv[2]
HERE = pathlib.Path(__file__).parent
data = json.loads(subprocess.run(["python3", "/opt/rattle/port/contracts.py", OLD, NEW, "--json"], capture_output=True, text=True).stdout)


def found(root, pattern, name, text):
    """What matches in the sources, comments left out: by crate and name, each as one line."""
    places = {}
    for file in sorted(pathlib.Path(root, "crates").glob("*/src/*.rt")):
        code = re.sub(r"^\s*//.*\n", "", file.read_text(), flags=re.M)
        for m in re.finditer(pattern, code, re.S | re.M):
            places.setdefault((file.parts[-3], m.group(name)), []).append(" ".join(m.group(text).split()))
    return places


def heads(root):
    """Each public function's signature and clauses."""
    return found(root, r"^( *)pub (?:extern \"C\" )?fn (\w+).*?(?=\n\1\{| \{\n)", 2, 0)


def types(root):
    """Each public type with its derives."""
    return found(root, r"(?:#\[derive[^\n]*\]\n)*pub (?:struct|enum) (\w+)[^{;]*\{.*?^\}", 1, 0)


old, new = heads(OLD), heads(NEW)
print("### Public functions that went\n")
for key in sorted(old):
    if key not in new:
        print("- %s `%s`" % (key[0], "; ".join(old[key])))
print("\n### Public functions that came\n")
for key in sorted(new):
    if key not in old:
        print("- %s `%s`" % (key[0], "; ".join(new[key])))
print("\n### Public functions, signature and clauses\n")
for key in sorted(old):
    if key in new and sorted(old[key]) != sorted(new[key]):
        print("- %s `%s`" % key)
        for text in old[key]:
            print("  - old `%s`" % text)
        for text in new[key]:
            print("  - new `%s`" % text)
print("\n### Public types\n")
old, new = types(OLD), types(NEW)
for key in sorted(set(old) | set(new)):
    if old.get(key) != new.get(key):
        print("- %s %s" % key)
        print("  - old `%s`" % "; ".join(old.get(key, ["none"])))
        print("  - new `%s`" % "; ".join(new.get(key, ["none"])))
print("\n### Definitions that went\n")
print(", ".join("%s `%s`" % tuple(x) for x in data["definitions"]["gone"]))
print("\n### Definitions\n")
for x in data["definitions"]["changed"]:
    print("- %s `%s`\n  - old `%s`\n  - new `%s`" % (x[0], x[1], " ".join(str(x[2]).split()), " ".join(str(x[3]).split())))
print("\n### Statements of lemma files\n")
text = subprocess.run(["python3", str(HERE / "compare-statements.py"), OLD, NEW], capture_output=True, text=True).stdout
for line in text.split("\n"):
    if line.startswith("    "):
        print("  - %s `%s`" % ("old" if line[4] == "-" else "new", line[6:]))
    elif line:
        print("- " + line)
print("\n### Must-fail edits whose text changed\n")
for x in data["edits and outputs"]["changed"]:
    if x[1].endswith(".edit"):
        print("- %s `%s`\n  - old `%s`\n  - new `%s`" % (x[0], x[1], " ".join(str(x[2]).split()), " ".join(str(x[3]).split())))
