#!/usr/bin/env bash
# Every must-fail edit still fits, in seconds: its file is one of its crate, and each text that it replaces stands there exactly once. What rt ci
# finds of this it finds after an hour. No edit is tried here.
set -euo pipefail
cd "$(dirname "$0")/.."
edits=$(find crates -path '*/must-fail/*.edit' ! -path '*/out/*' | sort)
[ -n "$edits" ] || { echo "edits: there is none"; exit 1; }
for edit in $edits; do
  awk -v crate="${edit%%/must-fail/*}" -v edit="$edit" -f tests/edit.awk "$edit"
done
echo "edits: $(wc -l <<< "$edits") edits fit"
