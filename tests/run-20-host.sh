#!/usr/bin/env bash
# The C interface from outside, compiled with every warning an error. The header: what it says about calling, as C under the sanitizers and as C++; how much stack a call takes. The guide's table of whom to tell. The example hosts, under the sanitizers and once under valgrind where it is there: the captioning day for many seeds, each with the plan as it is and as an old one; the training room, the two homes, the editor that asks what if, the one that shows a way, the one that shares its plans with another, the one that repeats a channel, the test of a screen and the two makers, whose output is examples/training.out, examples/homes.out, examples/what_if.out, examples/show_way.out, examples/other_editor.out, examples/channels.out, examples/small_plans.out and examples/shared_load.out, and whose lines are those that the guide shows.
set -euo pipefail
cd "$(dirname "$0")/.."
sh packaging/need.sh gcc g++
out=target/host
mkdir -p "$out"
archive=target/staticlib/libvulcedar.a
flags=(-Wall -Wextra -Wpedantic -Wconversion -Werror -Iinclude)
san=(-O1 -g -fsanitize=address,undefined -fno-sanitize-recover=all)

gcc -std=c99 "${flags[@]}" "${san[@]}" tests/header.c "$archive" -o "$out/header"
g++ -std=c++11 "${flags[@]}" -Wold-style-cast -Wuseless-cast -x c++ tests/header.c -x none "$archive" -o "$out/header-cpp"
"$out/header"
"$out/header-cpp" > /dev/null
gcc -std=c11 "${flags[@]}" -O2 -Wl,-z,now tests/stack.c "$archive" -o "$out/stack"
"$out/stack"
gcc -std=c99 "${flags[@]}" -O2 tests/tell.c "$archive" -o "$out/tell"
"$out/tell"

gcc -std=c99 "${flags[@]}" "${san[@]}" examples/host.c "$archive" -o "$out/host-san"
gcc -std=c99 "${flags[@]}" -O2 examples/host.c "$archive" -o "$out/host"
for seed in $(seq 1 50); do
  timeout 60 "$out/host-san" "$seed" > "$out/$seed.txt" || { tail -n 5 "$out/$seed.txt"; exit 1; }
  timeout 60 "$out/host-san" "$seed" old > "$out/$seed-old.txt" || { tail -n 5 "$out/$seed-old.txt"; exit 1; }
done
for example in training homes what_if show_way other_editor channels small_plans shared_load; do
  gcc -std=c99 "${flags[@]}" "${san[@]}" "examples/$example.c" "$archive" -o "$out/$example-san"
  gcc -std=c99 "${flags[@]}" -O2 "examples/$example.c" "$archive" -o "$out/$example"
  "$out/$example-san" | diff "examples/$example.out" -
  "$out/$example" | diff "examples/$example.out" -
done
if command -v valgrind > /dev/null; then
  valgrind -q --error-exitcode=1 --leak-check=full "$out/host" 7 > "$out/valgrind.txt"
  for example in training homes what_if show_way other_editor channels small_plans shared_load; do
    valgrind -q --error-exitcode=1 --leak-check=full "$out/$example" | diff "examples/$example.out" -
  done
else
  echo "host: not run under valgrind, which is not there"
fi
awk '/^```c$/ { on = 1; next } /^```$/ { on = 0 } on && NF' docs/GUIDE.md > "$out/shown"
[ -s "$out/shown" ] || { echo "host: the guide shows no line of C"; exit 1; }
while IFS= read -r line; do
  grep -qxF -- "$line" examples/training.c examples/homes.c examples/what_if.c examples/show_way.c examples/other_editor.c examples/channels.c examples/small_plans.c examples/shared_load.c || { echo "host: the guide shows a line that no example has: $line"; exit 1; }
done < "$out/shown"
tail -n 22 "$out/1.txt"
echo "host: 100 jobs over a bad line, every end record is the pass's; the training room takes back what it should, and goes back where it should; at two homes three desks come to the pass's record; one result changed leaves the marks of the pass; each way leads to its target; a plan from another editor goes back as it is read; each channel of a repeated plan has its own marks; a screen is shown every small plan; two makers read out the same"
