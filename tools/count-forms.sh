#!/usr/bin/env bash
# Counts, point by point, the places of docs/DESIGN-PASS.md in crates/*/src (points 1 to 7) and in the proofs (point 8), in the tree that is
# given or in this one. With `-l` before the folder each place is printed, not counted.
list=0
if [ "$1" = -l ]; then list=1; shift; fi
cd "${1:-$(dirname "$0")/..}/crates" || exit 1
code() { grep -nE "$1" ./*/src/*.rt | grep -vE '^[^:]*:[0-9]+:\s*//'; }
show() { if [ $list = 1 ]; then echo "== $1"; cat; else printf '%-64s %d\n' "$1" "$(wc -l)"; fi; }

code '^\s+(Bad|None|Nothing),' | show '1a enums with a variant for nothing (Bad, None, Nothing)'
code '^\s*pub (ok|exists|yes|present|allocated|located|isfrozen|waiting): bool' | show '1b a flag beside what it speaks of'
code '^\s*pub answer: u64' | show '1c an answer number beside what is answered'
code 'const [A-Z0-9_]*KIND: u64|fn [a-z_]*(number|kind_of|key_of[a-z_]*)\([a-z]+: (Kind|Phase|&\[u8\])\) -> (u64|usize)' |
	show '1d numbers for kinds and keys'
code '\b(return|else \{) (16|64|128)\b|^\s+(16|64|128)$' | show '1e a number for "none"'
if [ $list = 0 ]; then
	dups=$(mktemp -d)
	for f in ./*/src/*.rt; do mkdir -p "$dups/$(dirname "$f")"; cp "$f" "$dups/${f%.rt}.rs"; done
	(cd "$dups" && duplicates --min-lines 8 --most 200 --seconds 100) | grep -E '^D[0-9]' |
		show '2  pairs of places of one shape, eight lines or more (duplicates)'
	rm -rf "$dups"
fi
code '\b(while|loop)\b' | show '3  while and loop'
code '\bfn (same_[a-z_]*|phase_number|is_kind|is_(un)?ready|is_loading)\(' | show '4a equality and tests of a variant by hand'
code '\bfn (wide|index|one_if)\(' | show '4b conversions by hand: functions'
code '\bas (u8|u16|u32|u64|usize)\b' | show '4c conversions by `as`'
code '^\s*requires' | sed 's/.*requires[a-z_ ]*{/{/' | sort | uniq -c | awk '$1 >= 3 {s += $1} END {for (i = 0; i < s; i++) print i}' |
	show '5  clauses of a `requires` that stands three times or more'
code '^\s*pub count: (u8|usize)|\[Operation; (40|MOST)\], n: usize' | show '6  a count beside an array'
code 'match (number|step) \{' | show '7  a switch on which step to run'
find . -path '*/proofs/*' -name Answers.antt -not -path '*/out/*' | show '8a functions with answers'
find . -path '*/proofs/*' -name Invariants.antt -not -path '*/out/*' | show '8b functions with invariants'
find . -path '*/proofs/*' -name '*.antt' -not -path '*/out/*' -exec cat {} + | show '8c lines of proofs'
