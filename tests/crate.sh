#!/usr/bin/env bash
# Packages the crate, and builds a program over it as those do who have no clone: from the package, unpacked into a
# folder of vendored crates, and from what `cargo vendor` makes of a git dependency. Nothing is asked of a network. It
# does so with each Rust that is found, Debian's and the one on the PATH. The libraries in the crate are those of
# dist/, and another target is refused in one sentence. HIKEBOX_LIB_DIR names other libraries than those of dist/ to
# package.
set -euo pipefail
top=$(cd "$(dirname "${BASH_SOURCE[0]}")/.." && pwd)
dist=${HIKEBOX_LIB_DIR:-$top/dist}
unset HIKEBOX_LIB_DIR HIKEBOX_LIBRARY
work=$(mktemp -d)
trap 'rm -rf "$work"' EXIT
version=$(<"$top/VERSION")
export CARGO_TERM_COLOR=never CARGO_INCREMENTAL=0 CARGO_PROFILE_DEV_DEBUG=0 CARGO_NET_OFFLINE=true

fails() {
  echo "tests/crate.sh: $*" >&2
  exit 1
}

# registry FOLDER: the crates in the place of crates.io for what is built in the folder beside
registry() {
  mkdir -p "$2/.cargo"
  printf '[source.crates-io]\nreplace-with = "vendored"\n[source.vendored]\ndirectory = "%s"\n' "$1" \
    >"$2/.cargo/config.toml"
}

# program FOLDER DEPENDENCY: a program over the crate
program() {
  mkdir -p "$1/src"
  printf '[package]\nname = "program"\nversion = "0.1.0"\nedition = "2021"\n[dependencies]\n%s\n' "$2" >"$1/Cargo.toml"
  cat >"$1/src/main.rs" <<'END'
use hikebox::{retry, Budget, Policy, Schedule};
use std::time::Duration;

fn main() {
    let policy = Policy::new(&(Schedule::recurs(5) & Schedule::spaced(Duration::from_millis(1)))).unwrap();
    let budget = Budget::new(3).unwrap();
    let mut runs = 0;
    let lost = retry(&policy, &budget, || -> Result<(), u32> {
        runs += 1;
        Err(runs)
    });
    assert_eq!((runs, lost.is_err()), (4, true));
    println!("{} tickets drawn", budget.close().unwrap());
}
END
}

# is_run CARGO FOLDER: the program there is built and run
is_run() {
  local said
  said=$(cd "$2" && "$1" run --quiet) || fails "$2 is not built by $("$1" --version)"
  [ "$said" = '3 tickets drawn' ] || fails "$2 by $("$1" --version): $said"
}

# tries CARGO RUSTC
tries() {
  local room
  room=$work/$("$2" --version | cut -d ' ' -f 2)
  export RUSTC=$2
  mkdir -p "$room/vendor" "$room/elsewhere"
  cp -a "$work/crate" "$room/crate"
  (cd "$room/crate" && "$1" package --quiet --no-verify --allow-dirty)
  local package=$room/crate/target/package/hikebox-$version.crate
  [ "$(stat -c %s "$package")" -lt 5000000 ] || fails "the package is larger than 5 MB"
  ln -s /usr/share/cargo/registry/* "$room/vendor"
  tar -xzf "$package" -C "$room/vendor"
  printf '{"files":{},"package":"%s"}' "$(sha256sum "$package" | cut -d ' ' -f 1)" \
    >"$room/vendor/hikebox-$version/.cargo-checksum.json"
  program "$room/elsewhere/vendored" 'hikebox = { version = "1", features = ["tokio"] }'
  registry "$room/vendor" "$room/elsewhere/vendored"
  is_run "$1" "$room/elsewhere/vendored"

  # (with no feature it stands on no other crate: `cargo vendor` deletes what it has copied from a folder in the place
  # of crates.io)
  program "$room/elsewhere/git" "hikebox = { git = \"file://$work/repository\" }"
  registry "$work/empty" "$room/elsewhere/git"
  (cd "$room/elsewhere/git" && CARGO_NET_OFFLINE=false "$1" vendor --respect-source-config --quiet) \
    >"$room/config" 2>"$room/said" || fails "cargo vendor: $(cat "$room/said")"
  cp "$room/config" "$room/elsewhere/git/.cargo/config.toml"
  mv "$work/repository" "$room/away"
  is_run "$1" "$room/elsewhere/git"
  mv "$room/away" "$work/repository"
}

for machine in x86_64 aarch64; do
  beside=dist$([ "$machine" = x86_64 ] || echo "/$machine")
  cmp "$top/rust/lib/$machine/libhikebox.a" "$top/$beside/libhikebox.a" ||
    fails "rust/lib/ is not what is in dist/: run bin/dist"
done
mkdir "$work/crate"
(cd "$top/rust" && cp -a Cargo.toml README.md LICENSE build.rs src lib "$work/crate")
cp "$dist/libhikebox.a" "$work/crate/lib/x86_64"
cp "$dist/aarch64/libhikebox.a" "$work/crate/lib/aarch64"
registry /usr/share/cargo/registry "$work/crate"
mkdir "$work/repository" "$work/empty"
cp -a "$work/crate" "$work/repository/rust"
rm -r "$work/repository/rust/.cargo"
git -C "$work/repository" init -q
git -C "$work/repository" add -A
git -C "$work/repository" -c user.name=x -c user.email=x@x commit -qm 'The crate'

found=()
for pair in /usr/bin/cargo:/usr/bin/rustc "$(command -v cargo):$(command -v rustc)"; do
  cargo=${pair%:*} rustc=${pair#*:}
  [ -x "$cargo" ] && [ -x "$rustc" ] || continue
  named=$("$rustc" --version | cut -d ' ' -f 2)
  [[ " ${found[*]} " != *" $named "* ]] || continue
  tries "$cargo" "$rustc"
  found+=("$named")
done
[ ${#found[@]} -gt 0 ] || fails "there is no Rust"

# (the standard library of another target is not needed: the build script runs before it is looked for)
status=0
mkdir "$work/other"
program "$work/other" "hikebox = { path = \"$work/crate\" }"
for target in riscv64gc-unknown-linux-gnu i686-unknown-linux-gnu x86_64-pc-windows-msvc; do
  status=0
  (cd "$work/other" && cargo build --quiet --target "$target") >"$work/said" 2>&1 || status=$?
  [ "$status" != 0 ] && grep -q '^  hikebox: expected 64-bit Linux or macOS on x86_64 or aarch64, or x86_64-pc-windows-gnu, got .*; for another target set ' \
    "$work/said" || fails "$target: status $status, $(cat "$work/said")"
done
# (a relative HIKEBOX_LIB_DIR is a folder in the crate's)
status=0
(cd "$work/other" && HIKEBOX_LIB_DIR=none cargo build --quiet) >"$work/said" 2>&1 || status=$?
[ "$status" != 0 ] && grep -q "^  hikebox: the engine is missing: no $work/crate/none/libhikebox.a$" "$work/said" ||
  fails "HIKEBOX_LIB_DIR=none: status $status, $(cat "$work/said")"

# The programs of the package are tested where the pages of the repository are not.
tar -xzf "$work/${found[-1]}/crate/target/package/hikebox-$version.crate" -C "$work"
registry /usr/share/cargo/registry "$work/hikebox-$version"
(cd "$work/hikebox-$version" && cargo test --quiet --doc -- README.md) >"$work/said" 2>&1 ||
  fails "cargo test in the package: $(cat "$work/said")"

echo "tests/crate.sh: packaged, vendored and built by Rust ${found[*]}"
