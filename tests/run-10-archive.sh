#!/usr/bin/env bash
# Builds target/staticlib/libvulcedar.a, which the other checks here link.
set -euo pipefail
cd "$(dirname "$0")/.."
sh packaging/archive.sh
test -s target/staticlib/libvulcedar.a
