#!/usr/bin/env bash
# The version of VERSION is that of the crate, the package, the header, the program and CHANGELOG.md, and of the wheel that
# is built; and the wheel and the crate's archive have the licence, in what they say of themselves and as a file. What
# ABOUT says of author, contact and URL goes into crate, package, wheel and bill of materials, and an empty field into
# none. dist/ has the files that dist/SOURCES names, byte by byte, and no other.
set -euo pipefail
top=$(cd "$(dirname "${BASH_SOURCE[0]}")/.." && pwd)
work=$(mktemp -d)
trap 'rm -rf "$work"' EXIT
version=$(<"$top/VERSION")

fails() {
  echo "tests/versions.sh: $*" >&2
  exit 1
}

"$top/tests/versions.py"

cd "$top/dist"
sed '/^kit /d' SOURCES | awk '{ print $3 "  " $1 }' >"$work/sums"
sha256sum --quiet -c "$work/sums" || fails "dist/ has other files than dist/SOURCES says"
cut -d ' ' -f 3 "$work/sums" | LC_ALL=C sort | cmp - <(find . -type f ! -name SOURCES -printf '%P\n' | LC_ALL=C sort) ||
  fails "dist/ has files that dist/SOURCES does not name"
cd "$top"

wheel=$(HIKEBOX_LIBRARY=${HIKEBOX_LIBRARY:-$top/dist/libhikebox.so} python3 "$top/python/build_backend.py" wheel "$work")
[[ ${wheel##*/} == "hikebox-$version-"* ]] || fails "the wheel is called ${wheel##*/}"
python3 -m zipfile -e "$wheel" "$work/wheel"
told=$work/wheel/hikebox-$version.dist-info
for line in "Version: $version" 'License: Apache-2.0'; do
  grep -qxF "$line" "$told/METADATA" || fails "the wheel does not say $line"
done
cmp "$told/LICENSE" "$top/LICENSE" || fails "the wheel has another licence"

grep -qxF 'license = "Apache-2.0"' "$top/rust/Cargo.toml" || fails "the crate does not name its licence"
cmp "$top/rust/LICENSE" "$top/LICENSE" || fails "the crate has another licence"
cmp "$top/python/LICENSE" "$top/LICENSE" || fails "the package has another licence"
copy=$work/copy
mkdir -p "$copy"
(cd "$top" && tar -cf - --exclude=__pycache__ tests/versions.py VERSION ABOUT CHANGELOG.md LICENSE include python rust/Cargo.toml \
  crates/sched_cli_words/src/commands.rt crates.txt bin share dist) | tar -C "$copy" -xf -

# fields AUTHOR CONTACT URL: gives these to a copy, and prints what its packages have of them
fields() {
  printf 'Author: %s\nContact: %s\nURL: %s\n' "$@" >"$copy/ABOUT"
  "$copy/tests/versions.py" --write >/dev/null
  "$copy/tests/versions.py" >/dev/null || fails "the fields $* are not written"
  HIKEBOX_LIBRARY=$top/dist/libhikebox.so HIKEBOX_PLATFORM=x86_64 python3 "$copy/python/build_backend.py" wheel "$work/about" >/dev/null
  python3 -m zipfile -e "$work"/about/hikebox-*.whl "$work/about"
  grep -hE '^(authors|repository) = |^Author|^Project-URL' "$copy/rust/Cargo.toml" "$work/about/hikebox-$version.dist-info/METADATA" || true
  mkdir -p "$work/empty"
  python3 "$copy/share/bom.py" "$work/empty" | grep -oE '"(author|url)": ".*"' || true
}
fields 'Ann Example' ann@example.org 'https://example.org/hikebox?a=1&b=2' >"$work/said"
diff "$work/said" - <<'END' || fails 'what ABOUT says is not in the packages'
authors = ["Ann Example <ann@example.org>"]
repository = "https://example.org/hikebox?a=1&b=2"
Author: Ann Example
Author-email: ann@example.org
Project-URL: Source, https://example.org/hikebox?a=1&b=2
"author": "Ann Example"
"url": "https://example.org/hikebox?a=1&b=2"
"url": "mailto:ann@example.org"
END
fields '' https://example.org/ask '' >"$work/said"
diff "$work/said" - <<'END' || fails 'a contact that is a page is not in the packages'
Project-URL: Contact, https://example.org/ask
"url": "https://example.org/ask"
END
fields '' '' '' >"$work/said"
[ ! -s "$work/said" ] || fails "empty fields are in the packages: $(cat "$work/said")"
echo "tests/versions.sh: the version is $version everywhere, and the licence is in the wheel and in the crate"
