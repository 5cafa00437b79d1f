# Completion of hikebox for bash: commands, options, and what an option takes.

# _hikebox_options COMMAND: its options that take nothing, or something, and after a colon what that is: a file, a scenario,
# a text, or one of some words
_hikebox_options() {
  case $1 in
    run)
      echo --policy:file --limit:text --open:file --pace:text --on:text --timeout:text \
        --kill-after:text --deadline:text --replay-input --last-output --output-limit:text --verbose -v --quiet -q
      ;;
    plan)
      echo --steps:text --from:text --took:text --input:text --inputs:text --word:text --words:text --svg:file --width:text
      ;;
    storm)
      echo --log:file --fields:text --arrivals:file --scenario:scenario --rate:text --rates:text --together:text --seconds:text --capacity:text --patience:text \
        --queue:text --replicas:text --down:text --window:text --until:text --calls:text --words:text --outage:text \
        --slow:text --beside:text --budget:text --quota:text --limit:text --open:file --without --sweep:text \
        --measure:succeeded,calls,recovery,slowest --find:quota,retries,patience,beside --compare:file --csv --json \
        --svg:file --bars --width:text --detail --title:text --name:text
      ;;
    advise)
      echo --log:file --fields:text --rate:text --rates:text --together:text --seconds:text --capacity:text \
        --patience:text --queue:text \
        --replicas:text --words:text --outage:text --slow:text --surge:text \
        --kind:none,quota,bucket,inflight,breaker,throttle,adaptive --cookbook --all --json --svg:file --width:text --title:text
      ;;
    lab) echo --port:text --no-browser ;;
  esac
  echo --help -h
}

# _hikebox_offer KIND WORD: what an option takes
_hikebox_offer() {
  case $1 in
    text) ;;
    file) mapfile -t COMPREPLY < <(compgen -f -- "$2") ;;
    scenario) mapfile -t COMPREPLY < <(compgen -W 'outage herd brown-out' -f -- "$2") ;;
    *) mapfile -t COMPREPLY < <(compgen -W "${1//,/ }" -- "$2") ;;
  esac
}

# _hikebox_runs OPTIONS: where in the line the command stands that `run` runs, if it is there yet
_hikebox_runs() {
  local at
  for ((at = 2; at < COMP_CWORD; at++)); do
    case ${COMP_WORDS[at]} in
      --) echo $((at + 1)); return ;;
      -*) [[ " $1 " != *" ${COMP_WORDS[at]}:"* ]] || { at=$((at + 1)); [ "${COMP_WORDS[at]}" != = ] || at=$((at + 1)); } ;;
      *) echo "$at"; return ;;
    esac
  done
}

_hikebox() {
  local word=${COMP_WORDS[COMP_CWORD]} before=${COMP_WORDS[COMP_CWORD - 1]} command=${COMP_WORDS[1]} options option begins
  COMPREPLY=()
  if [ "$COMP_CWORD" = 1 ]; then
    mapfile -t COMPREPLY < <(compgen -W 'run plan check storm advise lab --help --version' -- "$word")
    return
  fi
  options=$(_hikebox_options "$command" | tr '\n' ' ')
  if [ "$command" = run ]; then
    begins=$(_hikebox_runs "$options")
    if [ -n "$begins" ]; then
      if ((COMP_CWORD > begins)); then _hikebox_offer file "$word"; else mapfile -t COMPREPLY < <(compgen -c -- "$word"); fi
      return
    fi
  fi
  # (readline makes words of --option=value)
  if [ "$word" = = ]; then word=; elif [ "$before" = = ]; then before=${COMP_WORDS[COMP_CWORD - 2]}; fi
  for option in $options; do
    if [[ $option == "$before":* ]]; then
      _hikebox_offer "${option#*:}" "$word"
      return
    fi
  done
  if [[ $word == -* ]]; then
    # shellcheck disable=SC2001
    mapfile -t COMPREPLY < <(compgen -W "$(sed 's/:[a-z,]*//g' <<<"$options")" -- "$word")
  elif [ "$command" = run ]; then
    mapfile -t COMPREPLY < <(compgen -c -- "$word")
  elif [ "$command" != lab ]; then
    _hikebox_offer file "$word"
  fi
}
complete -o filenames -F _hikebox hikebox
