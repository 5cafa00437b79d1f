# shellcheck shell=bash disable=SC2154
# To be sourced: runs functions or commands side by side, as many as there are processors. Each has a folder of its own, where
# what it writes is in the file `log`; it prints that if it fails. The script sets `beside` to a folder for these.
started=0

# beside COMMAND..: starts it once a processor is free, with its folder in `work`
beside() {
  while [ "$(jobs -rp | wc -l)" -ge "$(nproc)" ]; do wait -n || true; done
  started=$((started + 1))
  (
    trap - EXIT
    set -e
    work=$beside/$started
    mkdir "$work"
    exec 3>&1 >"$work/log" 2>&1
    trap '[ -e "$work/passed" ] || cat "$work/log" >&3' EXIT
    "$@" 3>&-
    : >"$work/passed"
  ) &
}

# Waits for all that was started, and fails where one did not pass.
all_passed() {
  wait
  [ "$started" -gt 0 ] && [ "$(find "$beside" -mindepth 2 -maxdepth 2 -name passed | wc -l)" = "$started" ]
}
