#!/usr/bin/env bash
# What `make install` puts down: the shared library's name and symbols; the example host and a program in C++ compiled against the installed tree alone, by pkg-config and by CMake, with the shared library and with the archive; and that nothing is left by `make uninstall`.
set -euo pipefail
cd "$(dirname "$0")/.."
sh packaging/need.sh make gcc g++ nm readelf
work=$(mktemp -d)
trap 'rm -rf "$work"' EXIT
root=$work/root
into=(DESTDIR="$root" prefix=/opt/vulcedar)
make --no-print-directory install "${into[@]}" > "$work/install.log" || { cat "$work/install.log"; exit 1; }
at=$root/opt/vulcedar
version=$(sed -n 's/^Version: //p' "$at/lib/pkgconfig/vulcedar.pc")
shared=$at/lib/libvulcedar.so.$version

# the name that programs ask the loader for, and no symbol that the header does not declare
readelf -d "$shared" | grep -q "SONAME.*\[libvulcedar\.so\.${version%%.*}\]"
[ "$(readlink -f "$at/lib/libvulcedar.so")" = "$(readlink -f "$shared")" ]
[ "$(readlink -f "$at/lib/libvulcedar.so.${version%%.*}")" = "$(readlink -f "$shared")" ]
nm -D --defined-only "$shared" | awk '{ print $3 }' | sort > "$work/symbols"
grep -oE '^uint32_t vulcedar_[a-z_]+' "$at/include/vulcedar.h" | sed 's/.* //' | sort > "$work/declared"
diff "$work/declared" "$work/symbols" || { echo "install: the shared library shows other symbols than the header declares"; exit 1; }
nm --defined-only --extern-only "$at/lib/libvulcedar.a" | awk 'NF == 3 { print $3 }' | sort | diff "$work/declared" -
# of the C library, two functions
nm -D --undefined-only "$shared" | awk '$1 == "U" { print $2 }' | sed 's/@.*//' | sort | diff <(printf 'memcpy\nmemset\n') -
# code that a shared library may have, and no executable stack
if readelf -dW "$shared" | grep -q TEXTREL; then echo "install: the code is not position independent"; exit 1; fi
readelf -lW "$shared" | grep -q 'GNU_STACK.* RW '

try() { # a program, linked with the shared library or not
  LD_LIBRARY_PATH=$at/lib "$1" > "$work/out"
  tail -n 1 "$work/out" | grep -qE "^(the end record is the pass's|aired)$"
  if readelf -d "$1" | grep -q 'NEEDED.*libvulcedar\.so\.1'; then linked=vulcedar; else linked=static; fi
  [ "$linked" = "$2" ] || { echo "install: $1 is linked otherwise"; exit 1; }
}

if sh packaging/need.sh pkg-config 2> "$work/note"; then
  export PKG_CONFIG_PATH=$at/lib/pkgconfig PKG_CONFIG_SYSROOT_DIR=$root
  [ "$(pkg-config --modversion vulcedar)" = "$version" ]
  read -ra compile <<< "$(pkg-config --cflags vulcedar)"
  read -ra link <<< "$(pkg-config --libs vulcedar)"
  for linked in vulcedar static; do
    [ "$linked" = vulcedar ] || link=(-Wl,-Bstatic "${link[@]}" -Wl,-Bdynamic)
    gcc -std=c99 -Wall -Wextra -Werror "${compile[@]}" examples/host.c "${link[@]}" -o "$work/host-$linked"
    g++ -std=c++11 -Wall -Wextra -Werror "${compile[@]}" tests/install/first.cpp "${link[@]}" -o "$work/first-$linked"
    try "$work/host-$linked" "$linked"
    try "$work/first-$linked" "$linked"
  done
else
  echo "install: not tried by pkg-config: $(cat "$work/note")"
fi

if sh packaging/need.sh cmake 2> "$work/note"; then
  mkdir "$work/cmake"
  (cd "$work/cmake" && cmake -DCMAKE_PREFIX_PATH="$at" "$OLDPWD/tests/install" && cmake --build .) > "$work/cmake.log" 2>&1 || { cat "$work/cmake.log"; exit 1; }
  for linked in vulcedar static; do
    try "$work/cmake/host-$linked" "$linked"
    try "$work/cmake/first-$linked" "$linked"
  done
else
  echo "install: not tried by CMake: $(cat "$work/note")"
fi

# the command prints what the example says, and has the version
"$at/bin/rehearse" < examples/first.txt | diff examples/first.out -
"$at/bin/rehearse" --version | grep -qF " $version"

make --no-print-directory uninstall "${into[@]}" > "$work/uninstall.log"
left=$(find "$root" ! -type d)
[ -z "$left" ] || { echo "install: left behind by uninstall: $left"; exit 1; }
echo "install: header, archive, shared library, the command, pkg-config and CMake files are put down, used and taken away"
