#!/usr/bin/env bash
# Builds the wheel twice, to the same bytes, and tries it in a fresh environment of each Python that is found, or of
# those that HIKEBOX_PYTHONS names; and in one of Debian's the wheel of dist/, or of the folder HIKEBOX_LIB_DIR, what
# pip makes of the package's folder and of a source archive without an index. Each engine runs where the tags of its
# wheel say, and pip takes the wheel of each system there.
set -euo pipefail
top=$(cd "$(dirname "${BASH_SOURCE[0]}")/.." && pwd)
folder=${HIKEBOX_LIB_DIR:-$top/dist}
work=$(mktemp -d)
trap 'rm -rf "$work"' EXIT
export PYTHONDONTWRITEBYTECODE=1 PIP_NO_INDEX=1 PIP_DISABLE_PIP_VERSION_CHECK=1
unset PIP_FIND_LINKS HIKEBOX_PLATFORM
export HIKEBOX_LIBRARY=$folder/libhikebox.so

fails() {
  echo "tests/wheel.sh: $*" >&2
  exit 1
}

# tries PYTHON WHAT: installs a wheel, a folder or an archive into a fresh environment of this Python, and tries it
# there
tries() {
  local python=$1 fresh
  fresh=$(mktemp -d "$work/fresh.XXXXXX")
  "$python" -m venv --without-pip "$fresh/venv"
  "$python" -m pip --python "$fresh/venv/bin/python" install -q "$2"
  (
    cd "$fresh"
    unset HIKEBOX_LIBRARY PYTHONPATH
    venv/bin/python -W error "$top/python/tests/smoke.py" "$fresh/venv"
    for file in man/man1/hikebox.1 bash-completion/completions/hikebox zsh/site-functions/_hikebox hikebox/grafana.json; do
      [ -s "venv/share/$file" ] || fails "$python has no share/$file"
    done
    [ "$(venv/bin/hikebox plan --steps 1 'spaced(1)')" = '0: 0 next 1000' ] || fails "hikebox plan of $python"
    [ "$(venv/bin/hikebox storm --seconds 1 --csv 'recurs(0)' | tail -n 1)" = 0,800,800,0,800,0,0,0,0 ] || fails "hikebox storm of $python"
    status=0
    venv/bin/python -m hikebox run --policy 'recurs(1)' -- sh -c 'exit 7' || status=$?
    [ "$status" = 7 ] || fails "hikebox run of $python ended with $status"
  )
}

# has_its_tag WHEEL: the library in it asks for no glibc past the one that the tag names, and for no other library than
# that
has_its_tag() {
  local least latest beside
  python3 -m zipfile -e "$1" "$work/unpacked"
  mv "$work/unpacked/hikebox/libhikebox.so" "$work/engine.so"
  least=$(grep -oE 'manylinux_2_[0-9]+' <<<"$1" | cut -d _ -f 3)
  latest=$(readelf -V "$work/engine.so" | grep -oE 'GLIBC_2\.[0-9]+' | cut -d . -f 2 | sort -n | tail -n 1)
  [ -n "$least" ] && [ "$latest" -le "$least" ] || fails "${1##*/} asks for glibc 2.$latest"
  beside=$(readelf -d "$work/engine.so" | sed -n 's/.*(NEEDED).*\[\(.*\)\]/\1/p' | tr '\n' ' ')
  [ "$beside" = 'libc.so.6 ' ] || fails "${1##*/} needs $beside"
}

# picks PLATFORM PART: pip takes the wheel with this part in its name for the platform, or none where the part is empty
picks() {
  rm -rf "$work/picked"
  /usr/bin/python3 -m pip download -q --find-links "$folder" --find-links "$folder/aarch64" --only-binary :all: --no-deps --python-version 3.11 \
    --platform "$1" --dest "$work/picked" hikebox >"$work/said" 2>&1 || true
  [ "$(ls "$work/picked" 2>/dev/null)" = "${2:+$(basename "$(find "$folder" "$folder/aarch64" -maxdepth 1 -name "hikebox-*$2*.whl")")}" ] ||
    fails "pip takes $(ls "$work/picked") for $1: $(cat "$work/said")"
}

backend=$top/python/build_backend.py
wheel=$(/usr/bin/python3 "$backend" wheel "$work/wheels")
again=$(/usr/bin/python3 "$backend" wheel "$work/again")
cmp "$wheel" "$again" || fails "two builds of the wheel differ"
for built in "$folder"/hikebox-*linux*.whl "$folder"/aarch64/hikebox-*.whl; do has_its_tag "$built"; done
for machine in x86_64 aarch64; do
  for system in "manylinux_2_$([ "$machine" = x86_64 ] && echo 14 || echo 17)" musllinux_1_2; do picks "${system}_$machine" "linux_1_2_$machine"; done
done
picks manylinux_2_13_x86_64 ''
for built in "$folder"/hikebox-*-macosx_*.whl; do "$top/tests/macho.py" "$built" "$folder/hikebox.h"; done
picks win_amd64 win_amd64
for system in macosx_11_0_arm64 macosx_15_0_arm64; do picks "$system" macosx_11_0_arm64; done
for system in macosx_10_13_x86_64 macosx_15_0_x86_64; do picks "$system" macosx_10_13_x86_64; done
for system in win32 win_arm64 macosx_10_12_x86_64; do picks "$system" ''; done

tried=' '
found="/usr/bin/python3.? /usr/bin/python3.?? ${HOME:-}/.pyenv/versions/*/bin/python3"
for python in /usr/bin/python3 ${HIKEBOX_PYTHONS:-$found}; do
  [ -x "$python" ] || continue
  version=$("$python" -c 'import sys; print("%d.%d" % sys.version_info[:2] if sys.version_info >= (3, 9) else "")')
  case $tried in *" $version "*) continue ;; esac
  [ -n "$version" ] || continue
  tried="$tried$version "
  tries "$python" "$wheel"
done
tries /usr/bin/python3 "$folder"/hikebox-*linux*.whl
unset HIKEBOX_LIBRARY
tries /usr/bin/python3 "$top/python"
tries /usr/bin/python3 "$(/usr/bin/python3 "$backend" sdist "$work/sdist")"
echo "tests/wheel.sh: $(basename "$wheel") runs by Python$tried"
