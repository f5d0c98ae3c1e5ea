#!/usr/bin/env bash
# The independent reference: its own tests, then the archive (and the program rehearse, once it is built) against it.
set -euo pipefail
cd "$(dirname "$0")/.."
sh packaging/need.sh cargo
export CARGO_TARGET_DIR="$PWD/target/cargo" CARGO_NET_OFFLINE=true
cd tests
cargo test --release --offline --quiet
if [ -x ../crates/rehearse/out/rehearse ]; then
  VULCEDAR_REHEARSE="$PWD/../crates/rehearse/out/rehearse" cargo run --release --offline --quiet -p differential --features archive
else
  cargo run --release --offline --quiet -p differential --features archive -- --texts 0
fi
