#!/usr/bin/env bash
# The documents against the repository: rule numbers, the claims' text in THEOREM.md, paths, crates, and the header's calls.
set -euo pipefail
cd "$(dirname "$0")/.."
work=$(mktemp -d)
trap 'rm -rf "$work"' EXIT
faults=0
fault() { echo "documents: $1"; faults=$((faults + 1)); }
documents=(README.md docs/*.md tests/README.md)

# each rule has one number, and each number that a definition, the header or a document names is a rule
grep -oE '\*\*[A-OQRSTUV][0-9]+\*\*' docs/RULES.md | tr -d '*' | sort > "$work/rules"
for rule in $(uniq -d "$work/rules"); do fault "RULES.md has $rule twice"; done
{
  grep -hE -- '--' crates/*/specs/*.antt | sed 's/^.*--//'
  cat include/vulcedar.h "${documents[@]}"
} | grep -oE '\b[A-OQRSTUV][0-9]+\b' | sort -u > "$work/named"
for rule in $(comm -23 "$work/named" <(sort -u "$work/rules")); do fault "$rule is named, and no rule has this number"; done

# each definition names its rule in its comment, or stands under one that does; lists has none of the rules, cases none to promise
cat > "$work/ruleless.awk" <<'AWK'
FNR == 1 { comment = ""; above = 1 }
/^ *--/ { comment = above ? comment $0 : $0; above = 1; next }
/^use / || /^ *$/ { next }
{ above = 0 }
/^(unfoldable |abbrev )?pub .* : / && comment !~ /[A-OQRSTUV][0-9]/ { print FILENAME ": " $0 }
AWK
while IFS= read -r line; do fault "a definition without a rule: $line"; done < <(
  find crates -path '*/specs/*.antt' ! -path '*/out/*' ! -name Lib.antt ! -path 'crates/lists/*' ! -path 'crates/cases/*' -exec awk -f "$work/ruleless.awk" {} \; | cut -c 1-120
)

# every line of a claim that THEOREM.md quotes stands in a specs file
cat crates/*/specs/*.antt | sed 's/^ *//; s/ *$//' | sort -u > "$work/specs"
awk '/^ *```text/ { on = 1; next } /^ *```/ { on = 0 } on' docs/THEOREM.md | sed 's/^ *//; s/ *$//' | grep -v '^$' | sort -u > "$work/quoted"
[ -s "$work/quoted" ] || fault "THEOREM.md quotes no claim"
while IFS= read -r line; do fault "THEOREM.md quotes a line that no specs file has: $line"; done < <(comm -23 "$work/quoted" "$work/specs")

# every path that a document names is there
grep -ohE '\b(crates|tests|examples|include|tools|docs|packaging)/[A-Za-z0-9_./*-]+' "${documents[@]}" | grep -v '[*]' | sed 's/[./]*$//' | sort -u > "$work/paths"
while IFS= read -r path; do [ -e "$path" ] || fault "$path is named, and is not there"; done < "$work/paths"

# the crates of crates.txt are those of ARCHITECTURE.md
sed 's/#.*//' crates.txt | sed -n 's/^\([a-z_0-9]*\)\( staticlib\)\?:.*/\1/p' | sort > "$work/crates"
sed -n 's/^ \([a-z_0-9]*\) .*\(no code\|library\|program\).*/\1/p' docs/ARCHITECTURE.md | sort > "$work/drawn"
for crate in $(comm -3 "$work/crates" "$work/drawn"); do fault "the crate $crate is in one of crates.txt and ARCHITECTURE.md alone"; done

# the archive exports what the header declares, each function by the one of its name in a crate *_exports
grep -ohE 'fn vulcedar_[a-z_]+' crates/*_exports/src/*.rt | sed 's/fn //' | sort > "$work/exported"
grep -ohE 'fn vulcedar_[a-z_]+' crates/vulcedar/src/*.rt | sed 's/fn //' | sort > "$work/archived"
grep -oE '^uint32_t vulcedar_[a-z_]+\(' include/vulcedar.h | sed 's/uint32_t //; s/($//' | sort > "$work/declared"
for call in $(comm -3 "$work/exported" "$work/declared"); do fault "$call is either exported or declared, not both"; done
for call in $(comm -3 "$work/archived" "$work/declared"); do fault "$call is either in the archive or declared, not both"; done

[ "$faults" = 0 ] || { echo "documents: $faults faults"; exit 1; }
echo "documents: $(wc -l < "$work/rules") rules, $(wc -l < "$work/quoted") quoted lines, $(wc -l < "$work/paths") paths, $(wc -l < "$work/crates") crates and $(wc -l < "$work/declared") calls are as the documents say"
