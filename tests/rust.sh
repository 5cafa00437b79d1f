#!/usr/bin/env bash
# Tests the Rust crate with all its features, on the library of the folder HIKEBOX_LIB_DIR and the program HIKEBOX_ZSCHED,
# those of dist/ where these name none, and that it declares the library as the header does. What the features and the tests
# want comes from Debian's packages. What cargo builds, and the lock file for these packages, are kept in out/rust, where that
# can be written.
set -euo pipefail
top=$(cd "$(dirname "${BASH_SOURCE[0]}")/.." && pwd)
export HIKEBOX_LIB_DIR=${HIKEBOX_LIB_DIR:-$top/dist}
export HIKEBOX_ZSCHED=${HIKEBOX_ZSCHED:-$top/dist/zsched}
work=$(mktemp -d)
trap 'rm -rf "$work"' EXIT

"$top/bin/bindings" --check
"$top/tests/bindings.py"

# The crate as it is seen from out/rust, with the documents that its own name.
room=$top/out/rust
{ mkdir -p "$room" && [ -w "$room" ]; } 2>/dev/null || room=$work/rust
mkdir -p "$room"
for name in Cargo.toml README.md build.rs src tests; do ln -sfn "$top/rust/$name" "$room/$name"; done
cd "$room"

# (without debug information there is a quarter less to compile)
export CARGO_PROFILE_DEV_DEBUG=0 CARGO_INCREMENTAL=0 CARGO_TERM_COLOR=never
export CARGO_TARGET_DIR=$room/target
registry=(--offline --quiet --config 'source.crates-io.replace-with="debian"'
  --config 'source.debian.directory="/usr/share/cargo/registry"')
cargo test "${registry[@]}" --all-features | tee "$work/said"
grep -q '^cargo:rustc-cfg=hikebox_pages$' "$CARGO_TARGET_DIR"/debug/build/hikebox-*/output || {
  echo 'tests/rust.sh: the programs of the pages were not tested' >&2
  exit 1
}
cargo check "${registry[@]}" --no-default-features
RUSTDOCFLAGS='-D warnings' cargo doc "${registry[@]}" --no-deps --all-features
passed=$(awk '/^test result: ok/ { sum += $4 } END { print sum }' "$work/said")
echo "tests/rust.sh: $passed tests and examples, and the documentation"
