#!/usr/bin/env bash
# tests/packages.sh [--ask] PACKAGE..: says which of these packages of Debian are missing and how large they are, and
# installs them; who is not root gets the command that does it. With --ask it asks before it installs, if it runs on a
# terminal and not in CI. tests/packages.sh --missing PACKAGE..: prints the missing ones. Where there is no dpkg none is
# looked for.
set -euo pipefail

# missing PACKAGE..: prints those that are not installed
missing() {
  { dpkg-query -W -f '${Package} ${db:Status-Status}\n' "$@" 2>/dev/null || true; } |
    awk -v wanted="$*" '
      $2 == "installed" { has[$1] }
      END { count = split(wanted, names, " "); for (at = 1; at <= count; at++) if (!(names[at] in has)) print names[at] }'
}

# Says what is missing, and what apt says that it takes; before the first `apt-get update` that is not known.
tell_missing() {
  local size
  size=$(LC_ALL=C apt-get install --assume-no --no-install-recommends -o Debug::NoLocking=1 "${names[@]}" 2>/dev/null </dev/null |
    sed -n 's/^Need to get \(.*\) of archives\.$/\1 to fetch/p; s/^After this operation, \(.*\) of additional .*/\1 on the disk/p' |
    paste -s -d ',' | sed 's/,/, /') || true
  echo "tests/packages.sh: ${#names[@]} packages are missing${size:+ ($size)}: ${names[*]}" >&2
}

# Asks, and ends with the command where the answer is another than yes.
ask_first() {
  local answer=
  [ -z "${CI:-}" ] && [ -t 0 ] && [ -t 2 ] || return 0
  read -r -p 'tests/packages.sh: install them now? [y/N] ' answer || echo >&2
  case $answer in [yY] | [yY]es) ;; *) echo "apt-get update && ${install[*]}" >&2; exit 1 ;; esac
}

only_tells=false
asks=false
case ${1:-} in
  --missing) only_tells=true; shift ;;
  --ask) asks=true; shift ;;
esac
[ $# -gt 0 ] && command -v dpkg-query >/dev/null || exit 0
if $only_tells; then
  missing "$@"
  exit
fi
# (one run at a time installs)
exec 9<"${BASH_SOURCE[0]}"
flock 9
mapfile -t names < <(missing "$@")
[ ${#names[@]} -gt 0 ] || exit 0
install=(apt-get install -y --no-install-recommends "${names[@]}")
if [ "$(id -u)" != 0 ]; then
  tell_missing
  as_root=
  if command -v sudo >/dev/null; then as_root='sudo '; else echo 'tests/packages.sh: as root:' >&2; fi
  echo "${as_root}apt-get update && $as_root${install[*]}" >&2
  exit 1
fi
log=$(mktemp)
trap 'rm -f "$log"' EXIT
# (RUNLEVEL keeps a server that is installed from being started; a new machine may be installing updates by itself)
wait=(-o DPkg::Lock::Timeout=600)
export RUNLEVEL=1 DEBIAN_FRONTEND=noninteractive

# try COMMAND..: runs it; what it wrote is shown where it fails
try() {
  "$@" >"$log" 2>&1 </dev/null 9<&- || {
    tail -n 20 "$log" >&2
    echo "tests/packages.sh: can't be installed: ${names[*]}" >&2
    exit 1
  }
}

try apt-get update "${wait[@]}"
tell_missing
! $asks || ask_first
try "${install[@]}" "${wait[@]}"
