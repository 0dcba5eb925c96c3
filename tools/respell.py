#!/usr/bin/env python3
"""Brings the repository's own definitions and lemmas to one spelling: words in snake case, types and modules in camel case.

usage: python3 tools/respell.py [--list]     at the top of the repository, once, right after /opt/rattle/port/port.py

A name is the repository's own where a file of specs/, or a file of lemmas right in proofs/, declares it: a definition, a lemma, a
record's field, a constructor. Names of src/, strings, inputs and outputs keep theirs: in a .rt file only clauses, ghost items and
`ghost use` lines hold the names that change, and no token there that stands for code has a dash or a hump in its middle. Must-fail
edits and the pages that name a definition are turned by the same list. --list prints old and new names and changes nothing.
"""
import collections
import glob
import re
import sys

PREFIX = r"(?:(?:pub|abbrev|unfoldable|data|record)\s+)*"
DECLARED = re.compile(r"^\s*(" + PREFIX + r")([^\s(){}:;,.]+)((?:\s+[({][^)}]*[)}])*)\s*:(?=\s|$)(.*)")
TOKEN = re.compile(r"[A-Za-z_][A-Za-z0-9_'-]*(?<!-)")
TYPE = re.compile(r"(Type 0|Fml|Contract 𝓤|RattleType|SProp 𝓤)\s*$")
# a proof's parts that stand for memory, and single letters, keep their form
KEEP = {"Loan", "Kept", "Ref", "Asks", "R", "T", "E", "S", "Tokens"}

# names that would fall together with another: said by hand
BY_HAND = {
    "is-ready": "machine_ready", "tables-kept": "havoc_tables", "nodes-kept": "havoc_nodes", "cache-next": "next_cache",
    "bit-or": "bit_or_one",
    "FrozenLoc": "frozen_loc_of", "PersistentLoc": "persistent_loc_of", "Graph": "node_graph", "inOrder": "sets_in_order",
    "isFree": "is_free_block", "noTable": "no_table_read", "noWrites": "has_no_writes", "notWritten": "not_written_bytes",
    "placeAt": "formatted_place", "DEVICE": "device_bytes", "CONTENTS": "contents_bytes", "RULE": "rule_bytes", "LOC": "loc_bytes",
    "OP": "op_bytes",
}
# a definition over the store's own types beside upstream's of the same name: the module that declares the first
TWO_KINDS = {
    "GraphClosed": "sectortype.specs.Graph", "LocsValid": "sectortype.specs.Graph", "WFIndirectionTable": "sectortype.specs.Graph",
    "WFCompleteIndirectionTable": "sectortype.specs.Graph", "WFSuccs": "blocksystem.specs.Start", "Formed": "blocksystem.proofs.IdleDisk",
}
# names that a lemma gives to its own parts, and names that a file gives what it brings in
LOCAL = {n: n.replace("-", "_") for n in """none-blank drop-list no-op zero-iff some-refusal open-list at-l zero-back open-rows
no-loads node-is some-twenty none-t none-n still-t still-n id-of cache-same after-4 zero-front zero-iff-map map-inserted map-removed
none-iff-map count-of-form length-of-form form-inserted form-removed""".split()}
LOCAL |= {"areaAt": "area_at", "wholeGraph": "whole_graph", "completeTest": "complete_test", "tableTest": "table_test",
    "succGraph": "succ_graph", "validTest": "valid_test", "updateLoc": "update_loc", "systemCrash": "system_crash",
    "tableWrites": "table_writes",
    "nodeWrites": "node_writes", "tableReads": "table_reads"}
# a name of one file alone that would hide a definition
IN_FILE = {("crates/blocksystem/proofs/Counting.antt", "read_table"): "table_read"}
IMPORTS = re.compile(r"^use ([^\s{]+)\.\{([^}]*)\}")


def files(*patterns):
    return sorted(f for p in patterns for f in glob.glob(p, recursive=True) if "/out/" not in f)


def snake(n):
    n = n.replace("-", "_")
    n = re.sub(r"([A-Z]+)([A-Z][a-z])", r"\1_\2", n)
    n = re.sub(r"([a-z0-9])([A-Z])", r"\1_\2", n)
    return re.sub(r"__+", "_", n.lower())


def turned(name, head, kind):
    is_type = bool(TYPE.search(kind)) or "data" in head or "record" in head
    if is_type:
        return name if name[0].isupper() else name[0].upper() + name[1:]
    if name in KEEP:
        return name
    return snake(name)


def own_names():
    found = {}
    for f in files("crates/*/specs/**/*.antt", "crates/*/proofs/*.antt"):
        with open(f, encoding="utf-8") as h:
            for line in h:
                m = DECLARED.match(line)
                if not m or not TOKEN.fullmatch(m.group(2)):
                    continue
                new = turned(m.group(2), m.group(1), m.group(4).strip())
                found.setdefault(m.group(2), collections.Counter())[new] += 1
    return found


def library_names():
    """Names that a file brings in from a module that is not the repository's."""
    theirs = collections.defaultdict(set)
    own = {c.split("/")[1] for c in glob.glob("crates/*/")}
    for f in files("crates/*/specs/**/*.antt", "crates/*/proofs/**/*.antt"):
        with open(f, encoding="utf-8") as h:
            for line in h:
                m = IMPORTS.match(line)
                if m:
                    parts = m.group(1).split(".")
                    mine = parts[0] == "Rattle" and len(parts) > 1 and parts[1] in own
                    for n in m.group(2).split(","):
                        n = n.split(" as ")[0].strip()
                        if not mine:
                            theirs[n].add(m.group(1))
    return theirs


def table():
    """Old name to new; where a lemma's name falls together with a definition's, the lemma gets _lem."""
    found = own_names()
    out = {}
    for old, news in found.items():
        if old in TWO_KINDS:
            continue
        new = BY_HAND.get(old) or next(iter(news))
        if len(news) > 1:
            raise SystemExit(f"two kinds: {old} {dict(news)}")
        if new != old:
            out[old] = new
    taken = collections.Counter(out.get(n, n) for n in found)
    for old in sorted(out):
        if taken[out[old]] > 1 and "-" in old:
            out[old] += "_lem"
    taken = collections.defaultdict(list)
    for n in found:
        taken[out.get(n, n)].append(n)
    for new, olds in taken.items():
        if len(olds) > 1 and not (len(olds) == 2 and ("read_table" in olds)):
            print("fall together:", new, olds, file=sys.stderr)
    return out


def of_file(f, text, names):
    """The names that change in this file: two definitions of one name are told apart by where the file has them from."""
    out = dict(names)
    if "/specs/" in f or re.fullmatch(r"crates/\w+/proofs/\w+\.antt", f):
        out.update(LOCAL)
    for n, module in TWO_KINDS.items():
        path = "crates/" + module.replace(".", "/") + ".antt"
        brought = re.search(r"use Rattle\." + re.escape(module) + r"\.\{[^}]*\b" + n + r"\b", text)
        other = re.search(r"use Rattle\.(?!" + re.escape(module) + r"\.)[^{\n]*\{[^}]*\b" + n + r"\b", text)
        if brought and other:
            # such a file gives the store's own another name where it brings it in
            out["both", n] = re.compile(r"(use Rattle\." + re.escape(module) + r"\.\{[^}]*\b)" + n + r"(?= as )")
        elif f == path or brought:
            out[n] = "is_formed" if n == "Formed" else snake(n)
    for (path, old), new in IN_FILE.items():
        if f == path:
            out[old] = new
    return out


# words of the prose that are written as a lemma's name is
ENGLISH = {"page-in", "no-op", "one-by-one"}
# what stands before a module's name
MODULE = re.compile(r"(\b(specs|proofs)\.|\bmod )$")
STRING = re.compile(r'(b?"(?:[^"\\\\]|\\\\.)*")')


def line_turned(f, line, mine):
    """A comment or a page may speak of upstream's own definition, whose name begins with a capital: there that stays. Strings stay."""
    def word(m):
        n = m.group(0)
        if plain and (n[0].isupper() or n in ENGLISH) or MODULE.search(m.string, 0, m.start()):
            return n
        return mine.get(n, n)
    plain = f.endswith(".md") or line.lstrip().startswith(("--", "//", "#"))
    if line.startswith("file: "):
        return line
    if f.endswith(".md"):
        def page_word(m):
            n = m.group(0)
            return snake(n) if n not in mine and not n[0].isupper() and snake(n) != n and snake(n) in mine["declared",] else word(m)
        return re.sub(r"`[^`]*`", lambda m: TOKEN.sub(page_word, m.group(0)), line)
    if f.endswith(".rt"):
        # a constant of the code is written in capitals
        if not line.lstrip().startswith(("ghost use", "requires", "ensures")):
            mine = {k: v for k, v in mine.items() if not (isinstance(k, str) and k.isupper())}
        return "".join(p if i % 2 else TOKEN.sub(word, p) for i, p in enumerate(STRING.split(line)))
    return TOKEN.sub(word, line)


def main():
    names = table()
    theirs = library_names()
    for n in sorted(set(names) & set(theirs)):
        print("also a library's:", n, sorted(theirs[n]), file=sys.stderr)
    if "--list" in sys.argv:
        for old in sorted(names):
            print(old, names[old])
        return
    declared = {names.get(n, n) for n in own_names()}
    changed = 0
    for f in files(
        "crates/*/specs/**/*.antt", "crates/*/proofs/**/*.antt", "crates/*/src/**/*.rt", "crates/*/must-fail/*.edit", "README.md",
        "docs/CLAIMS.md", "docs/CONTRACTS.md", "docs/DIFFERENCES.md", "docs/DECISIONS.md", "docs/REPLAY.md", "docs/PERFORMANCE.md",
    ):
        with open(f, encoding="utf-8") as h:
            text = h.read()
        mine = of_file(f, text, names)
        mine["declared",] = declared
        words = set(TOKEN.findall(text))
        for old in sorted(words & {n for n in mine if isinstance(n, str)}):
            if mine[old] in words:
                print(f"hidden? {f}: {old} becomes {mine[old]}, which the file has", file=sys.stderr)
        new = "".join(line_turned(f, line, mine) for line in text.splitlines(keepends=True))
        for old, at in mine.items():
            if isinstance(old, tuple) and old[0] == "both":
                new = at.sub(lambda m, n=old[1]: m.group(1) + snake(n), new)
        if new != text and "--dry" not in sys.argv:
            changed += 1
            with open(f, "w", encoding="utf-8") as h:
                h.write(new)
    print(f"respell: {len(names)} names, {changed} files")


if __name__ == "__main__":
    main()
