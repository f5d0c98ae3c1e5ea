#!/bin/sh
# Proves the exported functions and all that they rest on, compiles them, and writes target/staticlib/libvulcedar.a: the static library of crate
# vulcedar, which has one function for each of include/vulcedar.h.
set -eu
cd "$(dirname "$0")/.."
sh packaging/need.sh rt ar
whole=target/staticlib/libvulcedar.a
# the code is for any x86-64 processor
(cd crates/vulcedar && rt lib --cpu x86-64)
mkdir -p target/staticlib
cp crates/vulcedar/out/libvulcedar.a "$whole"
echo "archive: $whole has every function of include/vulcedar.h"
