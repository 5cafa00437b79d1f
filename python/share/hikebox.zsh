#compdef hikebox
# Completion of hikebox for zsh: commands, options, and what an option takes.
local -a commands picture traffic
local context state state_descr line
typeset -A opt_args
commands=(
  'run:run a command until it succeeds'
  'plan:play a policy and print what it does'
  'check:say what a policy is, or where it is wrong'
  'storm:play what a policy does to a peer that fails for a while'
  'advise:say which limit to take'
  'lab:serve a page on which policies and storms are tried'
)
picture=(
  '--svg[write the picture into this file]:file:_files'
  '--width[how wide the picture is]:number:'
)
traffic=(
  '--log[take how requests come from an access log]:file:_files'
  '--fields[where JSON or CSV has what]:time=NAME,latency=NAME:UNIT,status=NAME:'
  '--rate[requests a second]:number:'
  '--rates[spans with a rate of their own]:FROM..TO@N,..:'
  '--together[requests that come at one moment]:number:'
  '--seconds[for how many seconds requests come]:number:'
  '--capacity[calls that each replica of the peer can serve in a second]:number:'
  '--patience[when a client gives a call up]:milliseconds:'
  '--queue[calls of work that may stand at each replica of the peer]:number:'
  '--replicas[how many replicas the peer is]:number:'
)

_hikebox_scenarios() { _alternative 'names:scenario:(outage herd brown-out)' 'files:file:_files' }

_arguments -C '(- *)'{-h,--help}'[print help]' '(- *)--version[print the version]' '1:command:->command' '*::word:->word'
case $state in
  command) _describe -t commands command commands ;;
  word)
    case $words[1] in
      run)
        _arguments -S '(- *)'{-h,--help}'[print help]' \
          '--policy[when to run it again]:policy:_files' \
          '--limit[at most so many retries, or a limit over all runs that name it and the folder]:N or LIMIT@FOLDER:' \
          '--open[how long a breaker is open]:policy:_files' \
          '--pace[at most so many attempts in a period, over all runs that name it]:RUNS/PERIOD[/BURST]@FOLDER:' \
          '--on[retry only these statuses]:statuses, as 1,3-5:' \
          '--timeout[how long an attempt may take]:seconds:' \
          '--kill-after[how long after SIGTERM a SIGKILL follows]:seconds:' \
          '--deadline[begin no attempt later than this]:seconds:' \
          '--replay-input[give each attempt the whole standard input]' \
          '--last-output[print the standard output of the last attempt only]' \
          '--output-limit[fail where an attempt has more output]:size, as 10M:' \
          '(-q --quiet -v --verbose)'{-v,--verbose}'[say on standard error what happens]' \
          '(-q --quiet -v --verbose)'{-q,--quiet}'[show no line while it waits]' \
          '(-)1:command: _command_names -e' '*::argument:_normal'
        ;;
      plan)
        _arguments -S '(- *)'{-h,--help}'[print help]' $picture \
          '--steps[how many failures to play at most]:number:' \
          '--from[the moment of the first failure]:milliseconds:' \
          '--took[how long each further call takes]:milliseconds:' \
          '(--inputs)--input[the code of each failure]:number:' \
          '(--input)--inputs[the codes of the failures, in turn]:numbers, as 503,404:' \
          '(--words)--word[each random word]:number:' \
          '(--word)--words[different random words, from this seed]:seed:' \
          '*:policy:_files'
        ;;
      check) _arguments -S '(- *)'{-h,--help}'[print help]' '1:policy:_files' ;;
      storm)
        _arguments -S '(- *)'{-h,--help}'[print help]' $picture \
          '--scenario[begin with a scenario, by its name or its file]:scenario:_hikebox_scenarios' \
          $traffic \
          '--arrivals[requests come at the moments in this file, one a line]:file:_files' \
          '--down[how many replicas refuse calls in the outage]:number:' \
          '--window[how long a line of the report is]:milliseconds:' \
          '--until[the moment after which nothing is played]:milliseconds:' \
          '--calls[stop before the call after so many]:number:' \
          '--words[the seed of the random words]:seed:' \
          '--outage[when the peer refuses all calls]:FROM..TO:' \
          '--slow[when the peer works at a part of its capacity]:FROM..TO@PERCENT:' \
          '*--beside[clients with a share of the requests and a policy of their own]:PERCENT[@PATIENCE][+limited]=POLICY:' \
          '*--budget[at most so many retries of all requests]:number:' \
          '*--quota[so many retries in each period, and a share of the requests]:RESERVE/SHARE%/PERIOD:' \
          '*--limit[a limit that requests ask before their first call too]:LIMIT:' \
          '--open[how long a breaker is open]:policy:_files' \
          '--without[play each policy without a limit, too]' \
          '--sweep[play the storms for each value of a parameter]:NAME=VALUES, as rate=200..1600/8:' \
          '*--measure[what a sweep tells]:measure:(succeeded calls recovery slowest)' \
          '--find[the limit with which the peer recovers]:limit:(quota retries patience beside)' \
          '*--compare[play this policy too]:policy:_files' \
          '(--json --svg --bars)--csv[print the lines as comma-separated values]' \
          '(--csv --svg --bars)--json[print the lines and totals as JSON]' \
          '(--csv --json --svg)--bars[print each window with a bar of its calls]' \
          '--detail[show in the picture why calls failed]' \
          '--title[the title of the picture]:text:' \
          '*--name[what a picture or a table calls a storm]:text:' \
          '*:policy:_files'
        ;;
      advise)
        _arguments -S '(- *)'{-h,--help}'[print help]' $picture \
          $traffic \
          '--words[the seed of the random words]:seed:' \
          '--outage[when the peer or a replica is down]:FROM..TO:' \
          '--slow[when the peer works at a part of its capacity]:FROM..TO@PERCENT:' \
          '--surge[when more requests come]:FROM..TO@N:' \
          '*--kind[try limits of this kind alone]:kind:(none quota bucket inflight breaker throttle adaptive)' \
          '--cookbook[try the policies of the cookbook]' \
          '(--json --svg)--all[print all limits that were tried]' \
          '(--all --svg)--json[print all that was tried as JSON]' \
          '--title[the title of the picture]:text:' \
          '*:policy:_files'
        ;;
      lab)
        _arguments -S '(- *)'{-h,--help}'[print help]' \
          '--port[the port on 127.0.0.1]:number:' \
          '--no-browser[print the address, and open no browser]' \
          '1:link:'
        ;;
    esac
    ;;
esac
