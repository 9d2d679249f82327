#!/usr/bin/env bash
# Counts the places that docs/DESIGN-PASS.md speaks of, in crates/*/src below the folder it is run in.
# A line of a comment is no place. Each command lists candidates; the page says which of them are places.
set -u
src() { grep -rnE "$1" crates/*/src --include=*.rt | grep -vE '^[^:]+:[0-9]+: *//' ; }
show() { echo "== $1: $(wc -l <"$2")"; [ -n "${LIST:-}" ] && cat "$2"; return 0; }
t=$(mktemp)
trap 'rm -f "$t"' EXIT
src '(Err\((why|_|e)\)|_) => (Err\(|return Err|unreachable)' >"$t"; show "1a an error handed on by a match" "$t"
src '^ *(pub(\([a-z]+\))? )?enum ' >"$t"; show "1b enums" "$t"
src 'fn .*-> u8\b' >"$t"; show "1c functions whose answer is a number without a meaning" "$t"
src '(^|[ (])(0|_) => |=> [0-9]+,|== 0 \{' >"$t"; show "1d numbers that stand for a case" "$t"
src '\(u(32|64), bool\)' >"$t"; show "1e a value and a flag" "$t"
grep -rhE '\bfn [a-z_]+' crates/*/src --include=*.rt | grep -vE '^ *//' | grep -oE '\bfn [a-z_]+' | sort | uniq -d >"$t"; show "2 names of functions that stand more than once" "$t"
src '\bfor [a-z_]+ in [^ ]*\.\.|\bwhile ' >"$t"; show "3 loops over a range or with while" "$t"
src '\bimpl(<[^>]*>)? (PartialEq|Eq|PartialOrd|Ord|Clone|Copy|Debug|Display|Default|Drop|From<|TryFrom<)|fn (from_[a-z]+|to_[a-z]+|into_[a-z]+|number|row|word|done|known)\b' >"$t"; show "4 comparisons, copies, conversions and printing by hand" "$t"
grep -rhoE '(requires|ensures) ?[a-z_]* ?\{.*\}' crates/*/src --include=*.rt | sed -E 's/\.(old|now|new)\b//g; s/(requires|ensures) [a-z_]+ /\1 /' | sort | uniq -c | awk '$1>=3' >"$t"; show "5a clauses that stand three times or more" "$t"
src 'H.Heap.meaning P.Pacing.rate P.Pacing.asks' >"$t"; show "5b clauses with three ghost arguments that travel together" "$t"
src '\[[A-Za-z0-9_]+; [A-Z_]+\]|_[0-9]: u32|count: u32|runs: u32' >"$t"; show "6 arrays in structs, single numbered fields and counts" "$t"
src 'match [a-z_.]*(order\b|fitting\(\)|collector\b)|\bdyn |Fn(Once|Mut)?\(' >"$t"; show "7 switches on a step or a call, closures and dyn" "$t"
for c in crates/*; do
    printf '== 8 %s: %s answers in %s files, %s lines of lemmas\n' "$(basename "$c")" \
        "$(find "$c/proofs" -mindepth 2 -name '*.antt' 2>/dev/null | xargs -r cat | grep -cE '^(abbrev )?pub ')" \
        "$(find "$c/proofs" -mindepth 2 -name '*.antt' 2>/dev/null | wc -l)" \
        "$(cat "$c"/proofs/*.antt 2>/dev/null | wc -l)"
done
