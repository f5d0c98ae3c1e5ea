#!/usr/bin/env bash
# The program rehearse from outside, the proved one (crates/rehearse/out/rehearse) and the command in C over the archive (target/rehearse/rehearse): the
# examples (a captioning day, an and-block that ends early, a table of classes of the house), the text limit and input that is no text, by both;
# the command's exit status, its options and failing output; and the same bytes from both for some hundred changed texts.
set -euo pipefail
cd "$(dirname "$0")/.."
proved=crates/rehearse/out/rehearse
(cd crates/rehearse && rt run < /dev/null > /dev/null 2>&1)
[ -x "$proved" ]
command=target/rehearse/rehearse
checked=target/rehearse/rehearse-san
mkdir -p target/rehearse
flags=(-std=c99 -Wall -Wextra -Werror -Iinclude)
gcc "${flags[@]}" -O2 tools/rehearse.c target/staticlib/libvulcedar.a -o "$command"
gcc "${flags[@]}" -O1 -g -fsanitize=address,undefined -fno-sanitize-recover=all tools/rehearse.c target/staticlib/libvulcedar.a -o "$checked"
work=$(mktemp -d)
trap 'rm -rf "$work"' EXIT
fail() { echo "rehearse: $*"; exit 1; }

# 32,768 bytes are read: a task, and its start 4,680 times; one byte more is 15, found before anything else
{ printf '01ff\n--\n'; printf '0100ff\n%.0s' $(seq 4680); } > "$work/full"
{ echo 00; printf '0a\n%.0s' $(seq 4679); echo 00010103; } > "$work/full.out"
[ "$(wc -c < "$work/full")" = 32768 ]
{ cat "$work/full"; echo; } > "$work/long"
{ cat "$work/full"; printf '0100ff\n'; } > "$work/longer"
head -c 100000 /dev/urandom > "$work/noise"

for rehearse in "$proved" "$command" "$checked"; do
  for example in captioning-day early-end house-table; do
    "$rehearse" < "examples/$example.txt" | diff "examples/$example.out" -
  done
  "$rehearse" < "$work/full" | diff "$work/full.out" -
  [ "$("$rehearse" < "$work/long" 2> /dev/null)" = 0f ]
  [ "$("$rehearse" < "$work/longer" 2> /dev/null)" = 0f ]

  # no text, a text without its bar, a refused plan
  [ "$("$rehearse" < /dev/null 2> /dev/null)" = 0f ]
  [ "$(printf '01ff\n' | "$rehearse" 2> /dev/null)" = 0f ]
  [ "$(printf -- '--\n' | "$rehearse" 2> /dev/null)" = 01 ]
  [ "$(printf '09ff\n--\n0100ff\n' | "$rehearse" 2> /dev/null)" = 02 ]

  # a table before the plan: refused (21), in the wrong place, twice
  [ "$(printf '==\n01ff\n--\n' | "$rehearse" 2> /dev/null)" = 15 ]
  [ "$(printf '0000\n==\n09ff\n--\n' | "$rehearse" 2> /dev/null)" = 15 ]
  [ "$(printf '01ff\n--\n==\n' | "$rehearse" 2> /dev/null)" = 0f ]
  [ "$(printf '==\n==\n01ff\n--\n' | "$rehearse" 2> /dev/null)" = 0f ]
  [ "$("$rehearse" < "$work/noise" 2> /dev/null)" = 0f ]
done

# exits STATUS COMMAND..: its output in $work/out and $work/err
exits() {
  local wanted=$1 status=0
  shift
  "$@" > "$work/out" 2> "$work/err" || status=$?
  [ "$status" = "$wanted" ] || fail "exit status $status and not $wanted: $*"
}
closed_input() { "$1" <&-; }
directory() { "$1" < tests; }
onto() { "$1" < "$2" > "$3"; }
closed_output() { "$1" < "$2" >&-; }
text() { printf -- "$2" | "$1"; }

# one sentence on standard error for each refusal, number and meaning, and its number as digits on standard output
refused() {
  exits 1 text "$1" "$3"
  [ "$(cat "$work/out")" = "$(printf %02x "$2")" ] || fail "another number than $2 is printed: $(cat "$work/out")"
  [ "$(cat "$work/err")" = "rehearse: refused with $2: $4" ] || fail "another sentence for $2: $(cat "$work/err")"
}

for rehearse in "$command" "$checked"; do
  refused "$rehearse" 1 '--\n' 'the plan has no node, or more than 160'
  refused "$rehearse" 2 '09ff\n--\n' 'a kind is not 01 to 08'
  refused "$rehearse" 3 '0100\n--\n' "the root's parent is not ff, or another node's parent is not below its own number"
  refused "$rehearse" 4 '01ff\n0100\n--\n' 'a parent is a task'
  refused "$rehearse" 5 '02ff\n--\n' 'a block has a wrong number of children'
  refused "$rehearse" 6 "02ff\n$(printf '02%02x\\n' $(seq 0 30))011f\n--\n" 'a node is deeper than 32'
  refused "$rehearse" 15 '' 'the text is malformed or longer than 32,768 bytes'
  refused "$rehearse" 21 '==\n--\n' 'the table of classes is not one'

  # a text that is run, though a step is refused
  exits 0 text "$rehearse" '01ff\n--\n0300ff\n'
  [ ! -s "$work/err" ]
  [ "$(cat "$work/out")" = "$(printf '0b\n00010000')" ]

  for help in --help -h; do
    exits 0 "$rehearse" "$help"
    [ ! -s "$work/err" ]
    grep -q '^usage: rehearse' "$work/out"
  done
  # the example in it
  example=$(sed -n 's/^ *\(printf .*\) | rehearse$/\1/p' "$work/out")
  [ "$(eval "$example" | "$rehearse")" = "$(printf '00\n00\n00010301')" ]
  exits 0 "$rehearse" --version
  grep -q '^rehearse (Vulcedar) [0-9]*\.[0-9]*\.[0-9]*$' "$work/out"
  for wrong in '' -x --helpp examples/captioning-day.txt '--help --help'; do
    IFS=' ' read -ra words <<< "$wrong"
    exits 2 "$rehearse" "${words[@]:-}"
    [ ! -s "$work/out" ]
    grep -q '^usage: rehearse' "$work/err"
  done

  # output or input that fails: one line, two, many, and the help
  for input in /dev/null examples/early-end.txt "$work/full"; do
    exits 2 onto "$rehearse" "$input" /dev/full
    grep -q '^rehearse: standard output: ' "$work/err"
    exits 2 closed_output "$rehearse" "$input"
  done
  help() { "$1" --help > /dev/full; }
  exits 2 help "$rehearse"
  exits 2 closed_input "$rehearse"
  exits 2 directory "$rehearse"
  grep -q '^rehearse: standard input: ' "$work/err"
done

# the proved programs pass over input and output that fails: a read that fails is the end of the input, a write that fails is left, and the exit status
# is 0; of C's functions that read, write, seek or tell an error they reach `read` and `write` alone (docs/THEOREM.md, what is assumed)
cases=crates/cases/out/cases
(cd crates/cases && rt run < /dev/null > /dev/null 2>&1)
[ -x "$cases" ]
for program in "$proved" "$cases"; do
  [ "$program" = "$proved" ] && nothing=0f || nothing=
  for input in closed_input directory; do
    exits 0 "$input" "$program"
    [ ! -s "$work/err" ] && [ "$(cat "$work/out")" = "$nothing" ] || fail "$program, $input: $(cat "$work/out" "$work/err")"
  done
  for input in examples/early-end.txt crates/cases/stdin; do
    exits 0 onto "$program" "$input" /dev/full
    [ ! -s "$work/err" ] || fail "$program at a full device: $(cat "$work/err")"
    exits 0 closed_output "$program" "$input"
    [ ! -s "$work/err" ] || fail "$program without an output: $(cat "$work/err")"
  done
  reached=$(nm -D -u "$program" | awk '{ sub(/@.*/, "", $2); print $2 }' | grep -xE '_*(read|write|lseek|errno_location|xpg_strerror_r|strerror|perror|pread|pwrite|readv|writev|open|close|fstat|ioctl|poll)' | sed 's/^_*//' | sort -u | tr '\n' ' ')
  [ "$reached" = 'read write ' ] || fail "$program reaches others of C's functions: $reached"
done

# at a terminal it says what it waits for
if command -v script > /dev/null; then
  exits 1 timeout 60 script -qec "$command 2> $work/said" /dev/null < /dev/null
  head -n 1 "$work/said" | grep -q '^rehearse: reads a text from standard input'
fi

# the same bytes from both, and the exit status that goes with them: a number's line alone is three bytes, a node's line nine
same() {
  local status=0
  "$proved" < "$1" > "$work/proved"
  "$2" < "$1" > "$work/command" 2> "$work/err" || status=$?
  cmp "$work/proved" "$work/command" || fail "the two programs differ: $(cat "$1")"
  if [ "$(wc -c < "$work/proved")" = 3 ]; then
    [ "$status" = 1 ] || fail "exit status $status for a refused text: $(cat "$1")"
    refusals=$((refusals + 1))
  else
    [ "$status" = 0 ] || fail "exit status $status for a text that was run: $(cat "$1")"
    [ ! -s "$work/err" ] || fail "something on standard error: $(cat "$work/err")"
    runs=$((runs + 1))
  fi
}
RANDOM=15
refusals=0
runs=0
signs=(0 1 2 3 4 5 6 7 8 9 a b c d e f 0 1 2 3 f A ' ' - = $'\n' $'\r' $'\xff')
for round in $(seq 120); do
  for example in captioning-day early-end house-table; do
    whole=$(cat "examples/$example.txt"; echo .)
    whole=${whole%.}
    changes=$((RANDOM % 3 + 1))
    for _ in $(seq "$changes"); do
      at=$((RANDOM % ${#whole}))
      case $((RANDOM % 6)) in
        0) whole=${whole:0:at}${whole:at + 1} ;;
        1) whole=${whole:0:at}${signs[RANDOM % ${#signs[@]}]}${whole:at} ;;
        2) whole=${whole:0:at} ;;
        # a digit for a digit: mostly still a text
        *) [[ ${whole:at:1} != [0-9a-f] ]] || whole=${whole:0:at}${signs[RANDOM % 16]}${whole:at + 1} ;;
      esac
      [ -n "$whole" ] || break
    done
    printf %s "$whole" > "$work/changed"
    if [ $((round % 3)) = 0 ]; then same "$work/changed" "$checked"; else same "$work/changed" "$command"; fi
  done
done
[ "$refusals" -ge 30 ] && [ "$runs" -ge 30 ] || fail "the changed texts are of one kind: $refusals refused, $runs run"
echo "rehearse: the examples and the limits are as stated by both programs, and $((refusals + runs)) changed texts give the same ($runs run, $refusals refused)"
