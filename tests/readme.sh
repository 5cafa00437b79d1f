#!/usr/bin/env bash
# Pastes the blocks of README.md at once into bash and into zsh on a terminal, by two users one after another, that is with
# two homes, in a copy of this repository: each block ends with 0 and shows what the page promises. The files of examples/
# have the blocks' programs, line by line. The last block, which runs tests, is left to tests/bare_debian.sh, which does
# this in a bare Debian. HIKEBOX_LIB_DIR names other built files than those of dist/.
set -euo pipefail
top=$(cd "$(dirname "${BASH_SOURCE[0]}")/.." && pwd)
dist=${HIKEBOX_LIB_DIR:-$top/dist}
work=$(mktemp -d)
trap 'rm -rf "$work"' EXIT

# block KIND: the text of the block of this kind
block() { awk -v head="\`\`\`$1" '/^```/ { inside = $0 == head; next } inside' "$top/README.md"; }
block python | cmp - "$top/examples/first.py"
block rust | cmp - "$top/examples/rust/src/main.rs"

for shell in bash zsh; do
  home=$work/$shell
  mkdir -p "$home/hikebox" "$work/tmp"
  tar -C "$top" --exclude=./.git --exclude=out --exclude=target --exclude=__pycache__ -cf - . | tar -C "$home/hikebox" -xf -
  cp -rL "$dist"/. "$home/hikebox/dist"
  : >"$home/.zshrc"
  env -i HOME="$home" TMPDIR="$work/tmp" PATH=/usr/local/bin:/usr/bin:/bin TERM=xterm CARGO_NET_OFFLINE=true \
    "$top/tests/pasted.py" --but bin/zsched env -C "$home" "$shell" -i | tee "$work/said"
  blocks=$(wc -l <"$work/said")
done
echo "tests/readme.sh: $blocks blocks pasted into bash and into zsh"
