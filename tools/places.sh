#!/usr/bin/env bash
# Prints, for a commit, the lines in which the places of docs/DESIGN-PASS.md are looked for, point by point, with their number.
# usage: tools/places.sh [-l] COMMIT     (-l: the lines too)
set -euo pipefail
long=""
if [ "${1:-}" = "-l" ]; then long=1; shift; fi
commit=${1:-HEAD}

show() { # title, then lines on standard input
    local lines; lines=$(cat)
    local n; n=$(printf '%s' "$lines" | grep -c . || true)
    printf '%-58s %4s\n' "$1" "$n"
    if [ -n "$long" ] && [ -n "$lines" ]; then printf '%s\n' "$lines" | sed 's/^/    /'; fi
}
src() { git grep -nE "$1" "$commit" -- 'crates/*/src/*.rt' 'crates/*/src/**/*.rt' | sort -u || true; }
words() { git grep -hoE "$1" "$commit" -- 'crates/*/src/*.rt' 'crates/*/src/**/*.rt' || true; }

src '^ +([A-Z][A-Z_0-9]+|[0-9]+) =>|[!=]= [A-Z][A-Z_0-9]+\b' | show "1a numbers that say a kind, matched or compared"
src '^\s+(pub )?[a-z_]+: bool,|[(,] *[a-z_]+: bool' | show "1b flags, as fields and as parameters"
src '^(pub )?enum ' | show "1c own enums"
words '\bfn [a-z_0-9]+' | sort | uniq -d | show "2a names that more than one function has"
src '^(pub )?struct |^pub enum ' | show "2b types (read in pairs)"
src '^\s*(for|while|loop)\b' | show "3  loops"
src '(Some|Ok|Err)\([a-z_]*\) => (Some|Ok|Err)\(|None => (None|Ok|Err)|return None;|else \{ *return' | show "4a matches that a method of Option or Result is"
src '^impl.* for |fn (is|zeroed|number|kind_of|pair_of|widened|narrowed|given_by|yes_no|reason|text_of)\b' | show "4b equality, conversion, printing by hand"
src 'next: [a-z_]+\.next,$' | show "4c a read value made into another by hand"
words '(requires|ensures)( [a-z_]+)? \{.*\}' | sed -E 's/^(requires|ensures)( [a-z_]+)? //' | sort | uniq -c | awk '$1 >= 3' | show "5a clauses that three or more functions have"
src 'file: &(.a )?\[u8\],? at: usize|^ +at: usize,$' | show "5b parameters that travel together: a file and a place"
src 'first: usize' | show "5c the first byte of the record beside them"
src 'out: &mut \[u8\], at: usize' | show "6a a buffer and a place in it"
src '^\s+(pub )?(used|count|left|len): (usize|u64),' | show "6b a length beside a buffer"
src '^ +[A-Z][A-Za-z]+::[A-Z][A-Za-z]+(\([a-z]+\))? => [a-z_:]+\(' | show "7a arms that only choose a function"
src '(given|present|here|gridded|closed|late): bool' | show "7b flags that choose a step"
git grep -hoE '^(pub )?[a-z][a-z_0-9-]+ :' "$commit" -- 'crates/*/proofs/[A-Z]*.antt' | sed 's/^pub //' | sort | uniq -d | show "8a lemma names in more than one file"
git ls-tree -r --name-only "$commit" | grep -cE 'proofs/.*Answers.antt' | sed 's/^/files of answers: /'
git grep -hcE '.' "$commit" -- 'crates/*/proofs/*.antt' 'crates/*/proofs/**/*.antt' | awk '{s += $1} END {print "lines of proofs: " s}'
