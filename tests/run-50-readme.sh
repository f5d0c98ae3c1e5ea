#!/usr/bin/env bash
# The commands of README.md, each block marked sh, pasted one block after another into a copy that has the repository's files and nothing else, but for what is proved already. The gate itself (make check) is left out. Each line of a block marked text stands in what was printed before it.
set -euo pipefail
cd "$(dirname "$0")/.."
sh packaging/need.sh rt gcc make awk
work=$(mktemp -d)
trap 'rm -rf "$work"' EXIT
clone=$work/clone
mkdir "$clone"
if [ -e .git ] && command -v git > /dev/null; then git ls-files; else find . -type f ! -path './target/*' ! -path './.git/*'; fi > "$work/files"
tar -cf - -T "$work/files" | tar -xf - -C "$clone"
for proved in crates/*/out; do [ ! -d "$proved" ] || cp -a "$proved" "$clone/$proved"; done

# the blocks, one a file, in order: 01.sh 02.text ..
awk -v to="$work" '
  /^```[a-z]+$/ { file = sprintf("%s/%02d.%s", to, ++n, substr($0, 4)); printf "" > file; next }
  /^```$/ { close(file); file = ""; next }
  file { print > file }' README.md
: > "$work/printed"
commands=0
for block in "$work"/[0-9][0-9].*; do
  case "$block" in
    *.text)
      while IFS= read -r line; do
        grep -qxF -- "$line" "$work/printed" || { echo "README: no command printed the line: $line"; exit 1; }
      done < "$block"
      ;;
    *.sh)
      grep -vx 'make check' "$block" > "$work/now" || continue
      if grep -q pkg-config "$work/now" && ! sh packaging/need.sh pkg-config; then echo "README: a block was left out"; continue; fi
      (cd "$clone" && bash -euo pipefail "$work/now") > "$work/out" 2>&1 < /dev/null || { cat "$work/now" "$work/out"; echo "README: a command failed"; exit 1; }
      cat "$work/out" >> "$work/printed"
      commands=$((commands + $(wc -l < "$work/now")))
      ;;
    *) echo "README: a block is neither sh nor text"; exit 1 ;;
  esac
done
[ "$commands" -gt 0 ]

# the table beside first.txt is what goes in and what comes out
sed -n '/^    examples\/first\.txt /,/^$/p' README.md | sed 1d > "$work/table"
cut -c 5-24 "$work/table" | sed 's/ *$//' | grep . | diff examples/first.txt - || { echo "README: another text than examples/first.txt"; exit 1; }
cut -c 26-33 "$work/table" | sed 's/ *$//' | grep . | diff examples/first.out - || { echo "README: another output than examples/first.out"; exit 1; }
tail -n "$(wc -l < examples/first.out)" "$work/printed" | diff examples/first.out - || { echo "README: rehearse prints something else"; exit 1; }
echo "README: $commands commands can be pasted, and print what it says"
