#!/usr/bin/env bash
# Makes a release by bin/release from a copy of this repository, and uses what is in it: the checksums are right, two
# releases have the same bytes, the tarball for this machine is unpacked elsewhere and compiled against by pkg-config,
# pip installs the source archive without an index, and the bill of materials has each file. A checkout with a change
# is refused. HIKEBOX_LIB_DIR names other built files than those of dist/.
set -euo pipefail
top=$(cd "$(dirname "${BASH_SOURCE[0]}")/.." && pwd)
dist=${HIKEBOX_LIB_DIR:-$top/dist}
unset HIKEBOX_LIB_DIR HIKEBOX_LIBRARY HIKEBOX_PLATFORM
work=$(mktemp -d)
trap 'rm -rf "$work"' EXIT
version=$(<"$top/VERSION")
clone=$work/clone

fails() {
  echo "tests/release.sh: $*" >&2
  exit 1
}

# A checkout whose dist/ is of its sources, and crates in the place of crates.io.
mkdir -p "$clone" "$work/cargo"
tar -C "$top" --exclude=./.git --exclude=./out --exclude=out --exclude=./dist --exclude=__pycache__ -cf - . | tar -C "$clone" -xf -
files=({,aarch64/}{zsched,libhikebox.a,libhikebox.so})
wheels=(hikebox.whl aarch64/hikebox.whl)
for triple in x86_64-pc-windows-gnu x86_64-apple-darwin aarch64-apple-darwin; do
  mapfile -t -O "${#files[@]}" files < <(cd "$dist" && printf '%s\n' "$triple"/*)
  wheels+=("$triple/hikebox.whl")
done
for file in "${files[@]}"; do
  install -D "$dist/$file" "$clone/dist/$file"
  [ "${file##*/}" != libhikebox.a ] || install -D -m 644 "$dist/$file" "$clone/rust/lib/$([[ $file == */* ]] || echo x86_64/)$file"
done
{ "$clone/bin/digest" "${files[@]}" hikebox.h "${wheels[@]}"; grep '^kit ' "$top/dist/SOURCES"; } >"$work/SOURCES"
cp "$work/SOURCES" "$clone/dist/SOURCES"
"$clone/bin/dist" --wheels 2>/dev/null
git -C "$clone" init -q
git -C "$clone" add -A
git -C "$clone" -c user.name=x -c user.email=x@x commit -qm 'What is released'
printf '[source.crates-io]\nreplace-with = "debian"\n[source.debian]\ndirectory = "/usr/share/cargo/registry"\n' \
  >"$work/cargo/config.toml"
export CARGO_HOME=$work/cargo CARGO_NET_OFFLINE=true

"$clone/bin/release" "$work/release" >"$work/said"
grep -q '^  cargo publish ' "$work/said" || fails "it does not say what is left to do"
printf '%s\n' SHA256SUMS "hikebox-$version-linux-aarch64.tar.gz" "hikebox-$version-linux-x86_64.tar.gz" \
  "hikebox-$version-py3-none-manylinux_2_14_x86_64.musllinux_1_2_x86_64.whl" \
  "hikebox-$version-py3-none-manylinux_2_17_aarch64.musllinux_1_2_aarch64.whl" \
  "hikebox-$version.cdx.json" "hikebox-$version.crate" "hikebox-$version.tar.gz" >"$work/want"
printf "hikebox-$version-%s\n" py3-none-{win_amd64,macosx_10_13_x86_64,macosx_11_0_arm64}.whl \
  {x86_64-pc-windows-gnu,x86_64-apple-darwin,aarch64-apple-darwin}.tar.gz >>"$work/want"
(cd "$work/release" && printf '%s\n' *) | LC_ALL=C sort | cmp - <(LC_ALL=C sort "$work/want") ||
  fails "it has other files: $(ls "$work/release")"
(cd "$work/release" && sha256sum --quiet -c SHA256SUMS) || fails "a checksum is wrong"
"$clone/bin/release" "$work/again here" >"$work/said"
grep -qF "twine upload $work/again\\ here/*.whl $work/again\\ here/hikebox-" "$work/said" ||
  fails "what is left to do in a folder with a space: $(cat "$work/said")"
diff -r "$work/release" "$work/again here" || fails "two releases differ"

# The tarball, in another place; and the one for aarch64 has a library for it.
mkdir "$work/tarball"
tar -xzf "$work/release/hikebox-$version-linux-$(uname -m).tar.gz" -C "$work/tarball"
home=$work/tarball/hikebox-$version-linux-$(uname -m)
# shellcheck disable=SC2046
cc "$top/examples/c/retry.c" $(PKG_CONFIG_PATH=$home/lib/pkgconfig pkg-config --cflags --libs hikebox) \
  "-Wl,-rpath,$home/lib" -o "$work/retry"
[ "$("$work/retry" | grep '^won')" = 'won after 3 runs, 2 retries granted' ] ||
  fails "examples/c/retry.c over the tarball"
tar -xzf "$work/release/hikebox-$version-linux-aarch64.tar.gz" -C "$work/tarball"
readelf -h "$work/tarball/hikebox-$version-linux-aarch64/lib/libhikebox.so" | grep -q AArch64 ||
  fails "the tarball for aarch64 has another library"

# The source archive.
python3 -m venv "$work/venv"
PIP_NO_INDEX=1 "$work/venv/bin/pip" install -q --disable-pip-version-check "$work/release/hikebox-$version.tar.gz"
[ "$("$work/venv/bin/hikebox" plan --steps 1 'spaced(1)')" = '0: 0 next 1000' ] || fails "the source archive"

python3 - "$work/release" <<'END' || fails "the bill of materials is wrong"
import hashlib, json, pathlib, sys
folder = pathlib.Path(sys.argv[1])
(bom,) = folder.glob("*.cdx.json")
told = json.loads(bom.read_text())
assert (told["bomFormat"], told["specVersion"]) == ("CycloneDX", "1.5")
files = {one["name"]: one["hashes"][0]["content"] for one in told["components"] if one["type"] == "file"}
kept = [path for path in folder.iterdir() if path != bom and path.name != "SHA256SUMS"]
assert files == {path.name: hashlib.sha256(path.read_bytes()).hexdigest() for path in kept}
assert {"libgcc", "serde_json", "tokio"} <= {one["name"] for one in told["components"]}
END

# What is refused.
for words in '' -x 'one two'; do
  status=0
  # shellcheck disable=SC2086
  (cd "$work" && "$clone/bin/release" $words) 2>"$work/said" || status=$?
  [ "$status" = 2 ] && [ "$(cat "$work/said")" = 'bin/release: bin/release FOLDER' ] ||
    fails "the words '$words': $status, $(cat "$work/said")"
done
mkdir "$work/tools"
for tool in bash env readlink mkdir realpath ls git python3; do ln -s "$(command -v "$tool")" "$work/tools"; done
status=0
PATH=$work/tools "$clone/bin/release" "$work/third" 2>"$work/said" || status=$?
[ "$status" = 1 ] && [ "$(cat "$work/said")" = 'bin/release: expected cargo, got none on the PATH' ] && [ -z "$(ls "$work/third")" ] ||
  fails "without cargo: $status, $(cat "$work/said")"
status=0
"$clone/bin/release" "$work/release" 2>"$work/said" || status=$?
[ "$status" = 1 ] && grep -q 'expected an empty folder' "$work/said" ||
  fails "a folder with files: $status, $(cat "$work/said")"
echo >>"$clone/README.md"
"$clone/bin/release" "$work/third" 2>"$work/said" && fails "a checkout with a change is taken"
grep -q 'expected a clean checkout, got changes: .*README.md' "$work/said" || fails "a change: $(cat "$work/said")"
git -C "$clone" checkout -q README.md
echo >>"$clone/python/README.md"
git -C "$clone" -c user.name=x -c user.email=x@x commit -qam 'A change of the package'
"$clone/bin/release" "$work/third" 2>"$work/said" && fails "an old dist/ is taken"
grep -q 'older than their sources: hikebox-.*whl' "$work/said" || fails "an old dist/: $(cat "$work/said")"

# After a change of the package bin/dist --wheels makes the wheels anew, and nothing else; over old libraries it does not.
cp -r "$clone/dist" "$work/kept"
"$clone/bin/dist" --wheels 2>"$work/said" || fails "bin/dist --wheels: $(cat "$work/said")"
[ -z "$("$clone/bin/digest" --changed)" ] || fails "bin/dist --wheels leaves old: $("$clone/bin/digest" --changed)"
for file in "${files[@]}"; do cmp "$work/kept/$file" "$clone/dist/$file" || fails "bin/dist --wheels changes $file"; done
[ "$(diff "$work/kept/SOURCES" "$clone/dist/SOURCES" | grep -c '^> .*hikebox-.*whl ')" = ${#wheels[@]} ] || fails "SOURCES after bin/dist --wheels"
echo >>"$clone/c/texts.c"
status=0
"$clone/bin/dist" --wheels 2>"$work/said" || status=$?
[ "$status" = 1 ] && grep -q '^bin/dist: older than their sources: libhikebox.so aarch64/libhikebox.so.*; bin/dist without --wheels builds them$' \
  "$work/said" || fails "bin/dist --wheels over old libraries: $status, $(cat "$work/said")"
echo "tests/release.sh: wheels, source archive, crate, tarballs and a bill of materials, twice the same"
