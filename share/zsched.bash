# Completion of zsched for bash. The commands and options are those that its help lists, and so is what an option takes.
_zsched() {
  local word=${COMP_WORDS[COMP_CWORD]} before=${COMP_WORDS[COMP_CWORD - 1]} command=${COMP_WORDS[1]} program=${COMP_WORDS[0]}
  local beside='--help --version'
  COMPREPLY=()
  if [ "$COMP_CWORD" = 1 ] || [ "$COMP_CWORD $command" = '2 help' ]; then
    [ "$COMP_CWORD" = 1 ] || beside=
    mapfile -t COMPREPLY < <(compgen -W "$("$program" --help 2>/dev/null |
      sed -n '/^Commands:/,/^$/{s/^  \([a-z]*\) .*/\1/p}') $beside" -- "$word")
    return
  fi
  # (readline makes words of --option=value)
  if [ "$word" = = ]; then word=; elif [ "$before" = = ]; then before=${COMP_WORDS[COMP_CWORD - 2]}; fi
  case ${before//[a-z]/} in
    --)
      case $("$program" "$command" --help 2>/dev/null | sed -n "s/^ *$before <\([^>]*\)>.*/\1/p") in
        FILE) mapfile -t COMPREPLY < <(compgen -f -- "$word"); return ;;
        NAME) mapfile -t COMPREPLY < <(compgen -W 'outage herd brown-out' -- "$word"); return ;;
        ?*) return ;;
      esac
      ;;
  esac
  if [[ $word == -* ]]; then
    mapfile -t COMPREPLY < <(compgen -W "$("$program" "$command" --help 2>/dev/null |
      sed -n 's/^ *\(-[a-zA-Z], \)\{0,1\}\(--[a-z-]*\).*/\2/p')" -- "$word")
  else
    mapfile -t COMPREPLY < <(compgen -f -- "$word")
  fi
}
complete -o filenames -F _zsched zsched
