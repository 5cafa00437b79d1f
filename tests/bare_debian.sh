#!/usr/bin/env bash
# tests/bare_debian.sh [--paste] FOLDER [SUITE [ARCH]]: what README.md says is done in a bare Debian, which debootstrap
# makes in the folder (or made there before), bookworm where no other suite is named (bullseye, trixie), for amd64 or
# arm64. What README names is installed, this repository is cloned, and all blocks of README are pasted at once into a
# shell on a terminal (tests/pasted.py): into bash and into zsh, by root and by two users. For bookworm on amd64 the steps
# of the Dockerfile are made in two more bare systems beside, and what comes of them is run. Then, but with --paste,
# bin/test runs: as a user, who is told at once what is missing, as root, who is asked first, and as the user again. It
# wants root, debootstrap and the network, and for arm64 qemu-user-static and binfmt_misc; it is no part of bin/test.
# HIKEBOX_LIB_DIR names another folder that bin/dist made than dist/. Each step is told with its seconds; the folders are
# left.
set -euo pipefail
top=$(cd "$(dirname "${BASH_SOURCE[0]}")/.." && pwd)
wrong_words() { sed -n '2,/^set /{s/^# \{0,1\}//p}' "${BASH_SOURCE[0]}" >&2; exit 2; }
[ "$(id -u)" = 0 ] || wrong_words
# (what is mounted is gone with this process)
[ -n "${HIKEBOX_UNSHARED:-}" ] || HIKEBOX_UNSHARED=1 exec unshare --mount --propagation private "$0" "$@"
tests_too=true
[ "${1:-}" != --paste ] || { tests_too=false; shift; }
[ $# -ge 1 ] && [ $# -le 3 ] || wrong_words
folder=$(realpath -m "$1")
suite=${2:-bookworm}
arch=${3:-amd64}
work=$(mktemp -d)
trap 'rm -rf "$work"' EXIT
failed=0

# step NAME COMMAND..: runs it, and tells how long it took; what it wrote is in a log
step() {
  local name=$1 began=$SECONDS status
  shift
  set +e
  (set -e; "$@") >"$work/log" 2>&1 </dev/null
  status=$?
  set -e
  if [ "$status" = 0 ]; then
    printf 'passed  %4d s  %s\n' $((SECONDS - began)) "$name"
  else
    failed=1
    printf 'FAILED  %4d s  %s\n' $((SECONDS - began)) "$name"
    sed 's/^/    /' "$work/log"
  fi
}

as_root() { chroot "$folder" su - -c "cd /root; export DEBIAN_FRONTEND=noninteractive; $1"; }
as_user() { chroot "$folder" su - "$1" -c "$2"; }

# The commands by which README.md says that the packages are installed.
installs() { grep -oE '`apt-get [^`]+`' "$top/README.md" | tr -d '`'; }

# mounts FOLDER: what programs in it want of the system
mounts() {
  mount -t proc proc "$1/proc"
  mount --bind /dev "$1/dev"
  mount -t devpts devpts "$1/dev/pts"
  mount -t tmpfs tmpfs "$1/dev/shm"
  cp /etc/resolv.conf "$1/etc/resolv.conf"
}

makes_system() {
  [ -e "$folder/etc/debian_version" ] || debootstrap --arch="$arch" --variant=minbase "$suite" "$folder" http://deb.debian.org/debian
  [ -e "$folder.tar" ] || tar -C "$folder" -cf "$folder.tar" .
  mounts "$folder"
  [ ! -e "$folder/opt/rattle" ]
  local user
  for user in ann bob; do [ -d "$folder/home/$user" ] || as_root "useradd -m -s /bin/bash $user"; done
  # (zsh asks a new user what to write there)
  touch "$folder/root/.zshrc" "$folder/home/ann/.zshrc" "$folder/home/bob/.zshrc"
}

# The repository to clone: HEAD, with other built files where these are named.
makes_repository() {
  local dist=${HIKEBOX_LIB_DIR:-}
  git clone -q "file://$top" "$work/hikebox"
  [ -z "$dist" ] || (
    cd "$work/hikebox"
    rm -rf dist
    cp -r "$dist" dist
    for file in dist/libhikebox.a dist/*/libhikebox.a; do
      place=${file%/libhikebox.a}
      place=${place#dist}
      install -D -m 644 "$file" "rust/lib/${place:-x86_64}/libhikebox.a"
    done
    git add -A dist rust
    git -c user.name=x -c user.email=x@x commit -qm 'dist: built files that are tried'
  )
  rm -rf "$folder/srv/hikebox.git"
  git clone -q --bare "$work/hikebox" "$folder/srv/hikebox.git"
}

# What README.md names, and zsh.
installs_packages() {
  local line
  while IFS= read -r line; do as_root "$line"; done < <(installs)
  as_root "apt-get install -y --no-install-recommends zsh && git config --system safe.directory '*'"
}

# pastes SHELL WHO: all blocks of README.md at once, in a new clone; but that of Rust where Debian's is too old
pastes() {
  local words=()
  [ "$suite" != bullseye ] || words=(--but 'cargo run')
  as_user "$2" 'rm -rf hikebox hikebox-venv && git clone -q /srv/hikebox.git hikebox'
  TERM=xterm "$top/tests/pasted.py" "${words[@]}" chroot "$folder" su - "$2" -s "/bin/$1"
}

# stage FOLDER NAME: makes the steps of this stage of the Dockerfile in a bare system in the folder
stage() {
  local word rest from
  rm -rf --one-file-system "$1"
  mkdir "$1"
  tar -C "$1" -xf "$folder.tar"
  mounts "$1"
  awk -v stage="$2" '/^FROM / { inside = $NF == stage || stage == "last" && NF == 2; next } /^(RUN|COPY) / && inside' "$work/hikebox/Dockerfile" |
    while read -r word rest; do
      case $word in
        RUN) chroot "$1" /bin/sh -c "$rest" </dev/null ;;
        COPY)
          from=$work/hikebox
          case $rest in --from=build\ *) from=$folder.build rest=${rest#* } ;; esac
          mkdir -p "$(dirname "$1${rest#* }")"
          cp -aT "$from/${rest%% *}" "$1${rest#* }" ;;
      esac
    done
}

# What the Dockerfile makes, run as its user with its entry point.
makes_image() {
  local image=$folder.image runs address
  stage "$folder.build" build
  stage "$image" last
  runs=(chroot --userspec=nobody "$image" env -i "PATH=/opt/hikebox/bin:/usr/local/bin:/usr/bin:/bin")
  "${runs[@]}" hikebox storm 'recurs(3)' | tee "$work/told"
  grep -q . "$work/told"
  [ "$("${runs[@]}" zsched plan --steps 2 <"$top/plans/three-times.json")" = $'0: (0, 0) next 100\n100: (1, 1) next 200' ]
  coproc lab { exec "${runs[@]}" hikebox lab --no-browser; }
  # shellcheck disable=SC2154
  read -r address <&"${lab[0]}"
  address=$(grep -oE 'http://[^ ]+' <<<"$address")
  python3 -c 'import sys, urllib.request; print(len(urllib.request.urlopen(sys.argv[1], timeout=20).read()))' "$address"
  # shellcheck disable=SC2154
  kill -INT "$lab_PID"
}

# bin/test by who has no packages: in a second or two it says what is missing, how large it is, and the command.
tests_without_packages() {
  local status=0 began=$SECONDS
  as_user ann 'cd hikebox && bin/test' >"$work/told" 2>&1 || status=$?
  cat "$work/told"
  [ "$status" = 1 ] && [ $((SECONDS - began)) -lt 20 ] && grep -q 'packages are missing (.* to fetch, .* on the disk): ' "$work/told" &&
    grep -q '^apt-get update && apt-get install -y ' "$work/told"
}

# bin/test by root on a terminal, who is asked, and says no: nothing is installed.
asks_root() {
  local before
  before=$(chroot "$folder" dpkg-query -W | wc -l)
  ! script -qec "chroot $folder su - -c 'cd hikebox && bin/test'" /dev/null <<<n >"$work/told" || return 1
  cat "$work/told"
  grep -q 'install them now? \[y/N\]' "$work/told" && [ "$(chroot "$folder" dpkg-query -W | wc -l)" = "$before" ]
}

# tests WHO FOLDER: all parts pass, but those that run what only the kit builds, and on arm64 those for aarch64 and Windows
tests() {
  as_user "$1" "cd $2 && bin/test" 2>&1 </dev/null | tee "$work/told"
  grep -q ' passed, 0 failed$' "$work/told" && [ "$(grep -c '^left out' "$work/told")" = "$([ "$arch" = amd64 ] && echo 2 || echo 4)" ]
}

step "a bare Debian: $suite, $arch" makes_system
step 'the repository' makes_repository
step "README's packages" installs_packages
for who in root ann bob; do
  for shell in bash zsh; do step "README in $shell by $who" pastes "$shell" "$who"; done
done
[ "$suite-$arch" != bookworm-amd64 ] || step 'the steps of the Dockerfile' makes_image
$tests_too || exit "$failed"
step 'bin/test as a user, without its packages' tests_without_packages
step 'bin/test as root, who is asked' asks_root
step 'bin/test as root, which installs them' tests root hikebox
grep '^bin/test: ' "$work/told" || true
step 'bin/test as a user' tests ann hikebox
grep '^bin/test: ' "$work/told" || true
exit "$failed"
