#compdef zsched
# Completion of zsched for zsh. The commands and options are those that its help lists, and so is what an option takes.
local -a words_of_help
local takes= word=$words[CURRENT] before=$words[CURRENT-1]
if [[ $word == --*=* ]]; then
  before=${word%%=*}
  compset -P '*='
fi
if ((CURRENT > 2)) && [[ ${before//[a-z]/} == -- ]]; then
  takes=$($words[1] $words[2] --help 2>/dev/null | sed -n "s/^ *$before <\([^>]*\)>.*/\1/p")
fi
if ((CURRENT == 2)) || [[ "$CURRENT $words[2]" == '3 help' ]]; then
  words_of_help=(${(f)"$($words[1] --help 2>/dev/null | sed -n '/^Commands:/,/^$/{s/^  \([a-z]*\) .*/\1/p}')"})
  ((CURRENT == 3)) || words_of_help+=(--help --version)
  compadd -a words_of_help
elif [[ $takes == NAME ]]; then
  words_of_help=(outage herd brown-out)
  compadd -a words_of_help
elif [[ $takes == *=FILE && ${word#--*=} == *=* ]]; then
  compset -P '*='
  _files
elif [[ -n $takes && $takes != FILE ]]; then
  _message $takes
elif [[ -z $takes && $word == -* ]]; then
  words_of_help=(${(f)"$($words[1] $words[2] --help 2>/dev/null | sed -n 's/^ *\(-[a-zA-Z], \)\{0,1\}\(--[a-z-]*\).*/\2/p')"})
  compadd -a words_of_help
else
  _files
fi
