#!/bin/sh
# Tells which of the named tools are missing or too old and where each comes from, before any work begins. Installs nothing.
# usage: sh packaging/need.sh TOOL..      exit status 0 if all are there
cd "$(dirname "$0")/.." || exit 1
rust=$(sed -n 's/^rust-version = "\(.*\)"/\1/p' tests/Cargo.toml)
missing=0
for tool in "$@"; do
  fault='is missing'
  case "$tool" in
    rt) from='the Rattle kit' ;;
    cargo) from="Rust $rust or later, by rustup (https://rustup.rs), or by the Debian package cargo where it is as new" ;;
    ar | nm | readelf) from='the Debian package binutils' ;;
    pkg-config) from='the Debian package pkgconf' ;;
    awk) from='the Debian package mawk or gawk' ;;
    *) from="the Debian package $tool" ;;
  esac
  if command -v "$tool" > /dev/null 2>&1; then
    [ "$tool" = cargo ] || continue
    has=$(cargo --version | cut -d ' ' -f 2)
    [ "$(printf '%s\n' "$rust" "$has" | sort -V | head -n 1)" != "$rust" ] || continue
    fault="$has is too old"
  fi
  echo "$tool $fault: it comes from $from" >&2
  missing=1
done
exit "$missing"
