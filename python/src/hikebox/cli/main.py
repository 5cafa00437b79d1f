"""The program `hikebox`: `run`, `plan`, `check`, `storm`, `advise` and `lab`."""

from __future__ import annotations

import argparse
import errno
import os
import sys
from itertools import repeat
from typing import Any, Callable, Dict, Iterator, List, NoReturn, Optional, Set, Tuple, Union

from .._svg import MAX_WIDTH, MIN_WIDTH
from .._time import MAX_NUMBER, milliseconds
from ..budgets.limit import Limit
from ..errors import Fault, LimitError, PolicyError, StoreError, StormError
from ..policy import Policy, builders
from ..version import VERSION
from . import values
from .arguments import Layout, Once, Parser
from .seeded import seeded
from .streams import settle, tell, writes_utf_8

__all__ = ["main"]

#: What `run` does where no policy is named.
DEFAULT = "recurs(4) & exponential(1, 2).cap(30).jittered()"

BAD_COMMAND_LINE, BAD_INPUT, BAD_STREAM, NO_MEMORY, NOT_FINISHED = 2, 3, 4, 5, 6
MAX_BYTES = 1 << 20

#: What ends the help of `run` and of `storm`, with what is loaded for them alone.
_RUN = """\
Runs the command until it succeeds or no retry is left, and exits with the status of its last attempt. The status is 127
or 126 if the command can't be run, 124 after a timeout, 75 if a limit did not admit the run, and 128 + N after death by
signal N.

Each attempt is a process group of its own. When an attempt fails or takes too long, the whole group is ended before the
next one begins: by SIGTERM, and after --kill-after by SIGKILL. SIGINT, SIGTERM, SIGHUP and SIGQUIT go to the whole
group, and no further attempt is made; between two attempts they end hikebox. On a terminal the command is in the
foreground. On macOS and Windows an attempt is the command alone: what that starts itself is not ended.

The command has HIKEBOX_ATTEMPT, the number of the attempt from 1, and with a deadline, also of a run around this one,
HIKEBOX_SECONDS_LEFT. A deadline does not end an attempt that is under way.

A policy is the name of a JSON file, JSON, or an expression. By default it is
  {default}

A LIMIT is one of these. Buckets and breakers are spelt as for `hikebox storm`.
  N: at most N retries
  RESERVE/SHARE%/PERIOD: RESERVE retries in each PERIOD (60s, 1h), and a SHARE of the runs
  {spellings}
A bucket's numbers are thousandths of a token, and RATIO is in thousandths. LATE is the cost of a retry after a timeout.
DEADLINE is in milliseconds. If a breaker refuses a run, the command is not started and the status is 75. Runs can't
share the other limits of `hikebox storm`: a run that is killed would keep its place in flight for ever, and a throttle
has two words, of which a folder keeps one.

examples:
  hikebox run -- curl --fail https://example.org
  hikebox run --policy 'recurs(9) & spaced(2)' --on 1-3 --timeout 30 -- ./job
  hikebox run --limit 100@/run/lock/nightly -- ./job   # at most 100 retries over all runs that name the folder
  hikebox run --limit 10/20%/1h@/run/lock/jobs -- ./job   # each hour 10 over all runs, and one for every five runs
  hikebox run --limit breaker:5/1/30000@/run/lock/jobs -- ./job   # no run for 30 s after 5 failures in a row
  hikebox run --pace 10/1s@/run/lock/jobs -- ./job   # ten attempts a second over all runs; each waits for its turn
"""

_STORM = """\
Plays a storm: requests come to a peer that fails for a while, and each retries by your policy. It makes no call and
takes no time. Times are in milliseconds, except for --seconds and a quota's PERIOD. An expression has seconds.

Each line of the report is a window of time, named by its first moment. A request or a retry counts in the window in
which it begins. A call counts in the window in which it ends: it succeeded, was refused in the outage, was shed because
the queue was full, or was late because its client had given up. The status is 6 if a storm was cut by --calls.

A LIMIT is one of these:
{forms}
A bucket's numbers are thousandths of a token, and LATE is the cost of a retry after a late call. RATIO and SHARE are in
thousandths, DEADLINE and PERIOD in milliseconds.

--sweep plays the storms for each value of a parameter, as NAME=FROM..TO/COUNT or NAME=A,B,C:
{axes}

examples:
  hikebox storm 'recurs(8) & exponential(0.1, 2).cap(10).jittered(0, 1)'
  hikebox storm --quota 10/10%/1s --without --svg storm.svg plans/back-off.json
  hikebox storm --scenario herd plans/back-off.json plans/jittered-back-off.json
  hikebox storm --quota 10/10%/1s --beside 30=plans/three-tries.json plans/back-off.json
  hikebox storm --quota 10/10%/1s --without --sweep rate=200..1600/8 --svg load.svg plans/back-off.json
  hikebox storm --scenario brown-out --find quota 'recurs(3)'
  hikebox storm --log /var/log/nginx/access.log.1.gz --quota 10/10%/1s --without plans/back-off.json
"""


_ADVISE = """\
Plays four stories of a peer under many limits, and says which limit to take: the one with which the peer comes back in
every story, and whose worst story is the best. Of equals it is the one with the fewest calls. The stories are an
outage, a brown-out, a replica that is down, and a surge; by default in the second sixth of the time. If the peer is one
replica, it is played as two of half the capacity where one is down.

Times are in milliseconds, except for --seconds. An expression has seconds. A storm makes no call and takes no time.

If no limit brings the peer back in every story, it says which limit is the nearest, and with which capacity, patience
or queue that would do.

examples:
  hikebox advise 'recurs(8) & exponential(0.1, 2).cap(10).jittered(0, 1)'
  hikebox advise --rate 300 --capacity 400 --patience 2000 --seconds 120 plans/back-off.json
  hikebox advise --kind quota --kind bucket --svg advice.svg plans/back-off.json
  hikebox advise --cookbook
"""


def main(words: Optional[List[str]] = None) -> int:
    """The program: its exit status."""
    settle()
    try:
        return _does(words)
    finally:
        _drops_unwritten()


def _does(words: Optional[List[str]]) -> int:
    """Does what the command line says: its exit status."""
    try:
        given = _parser().read(words)
        return int(given.does(given))
    except PolicyError as error:
        return _fails(str(error), BAD_INPUT)
    except (LimitError, StoreError, StormError) as error:
        is_file = isinstance(error, StormError) and error.name in ("scenario", "log", "arrivals")
        return _fails(str(error), BAD_INPUT if is_file else BAD_COMMAND_LINE)
    except MemoryError:
        return _fails("no memory", NO_MEMORY)
    except KeyboardInterrupt:
        return 130


def _fails(line: str, status: int) -> int:
    tell(f"hikebox: {line}\n")
    return status


#: What is said of a storm that makes too many calls.
_CUT = "not finished: a storm was cut by --calls"

#: What a policy is on the command line.
_POLICY = "a JSON file's name, JSON, or an expression"

#: How the width of a picture is given.
_WIDE: Any = {"metavar": "N", "type": values.number(MAX_WIDTH, MIN_WIDTH), "default": 760}


def _parser() -> Parser:
    parser = Parser(prog="hikebox", description="Retries commands by policies, within limits.")
    parser.set_defaults(parser=parser)
    parser.add_argument("--version", action="version", version=f"hikebox {VERSION}")
    commands = parser.add_subparsers(metavar="COMMAND", prog="hikebox")
    for name, (does, words, fills) in _COMMANDS.items():
        usage = f"hikebox {name} [OPTION..] {words}" if words else None
        command = commands.add_parser(name, help=does, usage=usage, formatter_class=Layout)
        command.fills = fills
    return parser


def _fill_run(run: Any) -> None:
    from .limits import SPELLINGS
    from .run import MAX_OUTPUT

    run.epilog = _RUN.format(default=DEFAULT, spellings=SPELLINGS.replace(", ", "\n  "))
    run.add_argument("--policy", metavar="POLICY", default=DEFAULT, help="when to run it again")
    bound = "at most N retries of this run; or a limit over all runs that name it and FOLDER (see below)"
    run.add_argument("--limit", metavar="N|LIMIT@FOLDER", help=bound, action=Once)
    open_for = "how long a breaker is open, each time that it opens (30 s); spelt as for --policy"
    run.add_argument("--open", metavar="POLICY", help=open_for, action=Once)
    paced = "begin RUNS attempts a PERIOD, evenly, or BURST (1) at once, over all runs that name it and FOLDER"
    run.add_argument("--pace", metavar="RUNS/PERIOD[/BURST]@FOLDER", help=paced, action=Once)
    run.add_argument("--on", metavar="CODES", type=values.statuses, help="retry only these statuses, such as 1,3-5")
    run.add_argument("--timeout", metavar="SECONDS", type=values.duration, help="how long an attempt may take")
    grace = "how long after SIGTERM a SIGKILL follows (5)"
    run.add_argument("--kill-after", metavar="SECONDS", type=values.duration, default=5.0, help=grace)
    within = "begin no attempt later than this after the first one"
    run.add_argument("--deadline", metavar="SECONDS", type=values.duration, help=within)
    run.add_argument("--replay-input", action="store_true", help="give each attempt the whole standard input")
    run.add_argument("--last-output", action="store_true", help="print the standard output of the last attempt only")
    limit = "with --last-output, fail if an attempt has more output, in bytes or as 10K, 10M, 10G (1G)"
    run.add_argument("--output-limit", metavar="SIZE", type=values.size, default=MAX_OUTPUT, help=limit)
    tells = run.add_mutually_exclusive_group()
    tells.add_argument("--verbose", "-v", action="store_true", help="print what happens, on standard error")
    tells.add_argument("--quiet", "-q", action="store_true", help="on a terminal, show no line while it waits")
    run.add_argument("command", nargs=argparse.REMAINDER, metavar="COMMAND")
    run.set_defaults(does=_run, parser=run)


def _fill_plan(plan: Any) -> None:
    several = f"{_POLICY}; - or nothing reads standard input; with several, a picture shows all of them"
    plan.add_argument("file", nargs="*", metavar="POLICY", help=several)
    plan.add_argument("--steps", type=values.number(4096), default=10, metavar="N", help="how many events at most (10)")
    millis: Any = {"metavar": "M", "type": values.number(MAX_NUMBER), "default": 0}
    plan.add_argument("--from", dest="start", help="the first moment, in milliseconds (0)", **millis)
    plan.add_argument("--took", help="how long each further call takes, in milliseconds (0)", **millis)
    codes = plan.add_mutually_exclusive_group()
    codes.add_argument(
        "--input", type=values.number(MAX_NUMBER), default=0, metavar="N", help="the code of each failure (0)"
    )
    in_turn = "the codes of the failures, in turn; the last one repeats"
    codes.add_argument("--inputs", type=values.inputs(MAX_NUMBER), metavar="A,B,..", help=in_turn)
    words = plan.add_mutually_exclusive_group()
    same = "the random number of each event, from 0 to 4294967295 (the middle)"
    words.add_argument("--word", type=values.number(2**32 - 1), default=2**31, metavar="W", help=same)
    words.add_argument(
        "--words", type=values.number(2**64 - 1), metavar="SEED", help="different random numbers, from this seed"
    )
    plan.add_argument("--svg", metavar="FILE", help="write the picture into this file; - is standard output")
    plan.add_argument("--width", help="how wide the picture is, from 280 to 4000 (760)", **_WIDE)
    plan.set_defaults(does=_plan, parser=plan)


def _fill_check(check: Any) -> None:
    one = f"{_POLICY}; - or nothing reads standard input"
    check.add_argument("file", nargs="?", default="-", metavar="POLICY", help=one)
    check.set_defaults(does=_check, parser=check)


def _fill_storm(storm: Any) -> None:
    from ..storms.axes import axes_text
    from ..limits.spellings import LIMIT_FORMS
    from .storm_options import add_storm_options

    forms = "\n".join(f"  {form}" for form in LIMIT_FORMS)
    storm.epilog = _STORM.format(forms=forms, axes=axes_text())
    add_storm_options(storm)
    compare = "play this policy too; you can give it again"
    storm.add_argument("--compare", metavar="POLICY", action="append", default=[], help=compare)
    printed = storm.add_mutually_exclusive_group()
    printed.add_argument("--csv", action="store_true", help="print the windows of one storm, or a sweep, as CSV")
    shown = "print the windows and totals of one storm, a sweep, or what --find found, as JSON"
    printed.add_argument("--json", action="store_true", help=shown)
    printed.add_argument("--svg", metavar="FILE", help="write a picture to this file; - is standard output")
    shown = "print each window with a bar of its calls, in colour on a terminal unless NO_COLOR is set"
    printed.add_argument("--bars", action="store_true", help=shown)
    columns = "the width of the picture, from 280 to 4000 (760), or of the lines of --bars, from 72 to 1000 (80)"
    storm.add_argument("--width", metavar="N", type=values.number(MAX_WIDTH, 72), help=columns)
    storm.add_argument("--detail", action="store_true", help="show in the picture why calls failed")
    storm.add_argument("--title", metavar="TEXT", help="the title of the picture, in place of the policy")
    name = "the name of a storm in a picture or a table; give one for each storm"
    storm.add_argument("--name", metavar="TEXT", action="append", help=name)
    several = f"{_POLICY}; - or nothing reads standard input; with several, the totals are printed side by side"
    storm.add_argument("file", nargs="*", metavar="POLICY", help=several)
    storm.set_defaults(does=_storm, parser=storm)


def _fill_advise(advise: Any) -> None:
    from .advise_command import add_advise_options

    advise.epilog = _ADVISE
    add_advise_options(advise)
    all_told = "print all limits that were tried, not only the best of each kind"
    printed = advise.add_mutually_exclusive_group()
    printed.add_argument("--all", action="store_true", help=all_told)
    printed.add_argument("--json", action="store_true", help="print all that was tried, and the advice, as JSON")
    printed.add_argument("--svg", metavar="FILE", help="write a picture to this file; - is standard output")
    advise.add_argument("--width", help="how wide the picture is, from 280 to 4000 (760)", **_WIDE)
    advise.add_argument("--title", metavar="TEXT", help="the title of the picture, in place of the policy")
    several = f"{_POLICY}; - or nothing reads standard input; with several, each is tried"
    advise.add_argument("file", nargs="*", metavar="POLICY", help=several)
    advise.set_defaults(does=_advise, parser=advise)


def _fill_lab(lab: Any) -> None:
    lab.add_argument(
        "link",
        nargs="?",
        default="",
        type=_link,
        metavar="LINK",
        help="a link that the page made, in this run or another: open what it carries",
    )
    lab.add_argument(
        "--port", type=values.number(65535), default=0, metavar="N", help="the port on 127.0.0.1 (a free one)"
    )
    lab.add_argument("--no-browser", action="store_true", help="print the address, and open no browser")
    lab.set_defaults(does=_lab, parser=lab)


#: Each command: what it does, the words that it takes beside options, and what adds its options.
_COMMANDS: Dict[str, Tuple[str, str, Callable[[Any], None]]] = {
    "run": ("run a command until it succeeds", "-- COMMAND [WORD..]", _fill_run),
    "plan": ("play a policy and print what it does, in milliseconds", "[POLICY..]", _fill_plan),
    "check": ("say what a policy is, or where it is wrong", "", _fill_check),
    "storm": ("show what a policy does to a peer that fails for a while", "[POLICY..]", _fill_storm),
    "advise": ("say which limit to take, by storms under many limits", "[POLICY..]", _fill_advise),
    "lab": (
        "serve a page on which you try policies and storms, on this machine, until Ctrl-C",
        "[LINK]",
        _fill_lab,
    ),
}


def _link(text: str) -> str:
    """A link of the page, also one that carries nothing."""
    if text and "#" not in text and not text.startswith(("http://127.0.0.1:", "http://localhost:")):
        raise argparse.ArgumentTypeError(f"expected a link, as http://127.0.0.1:8000/..#story=quota, got {text!r}")
    return text


def _tell_warnings() -> None:
    """Tells what the package warns of on standard error, each thing once; how the retry ends the run says itself."""
    import logging

    told: Set[str] = set()

    def emit(record: logging.LogRecord) -> None:
        line = record.getMessage()
        if line not in told and not hasattr(record, "hikebox_ending"):
            told.add(line)
            tell(f"hikebox: {line}\n")

    handler = logging.Handler(logging.WARNING)
    setattr(handler, "emit", emit)
    logging.getLogger("hikebox").addHandler(handler)


def _run(given: Any) -> int:
    from .run import RunOptions, run_command

    command = given.command[1:] if given.command[:1] == ["--"] else given.command
    if not command or not command[0]:
        return _fails(f"run: expected a command, got {repr(command[0]) if command else 'none'}", BAD_COMMAND_LINE)
    options = RunOptions(
        policy=_policy(given.policy),
        limit=_limit(given),
        pace=_pace(given),
        on=given.on,
        timeout=given.timeout,
        grace=given.kill_after,
        deadline=given.deadline,
        verbose=given.verbose,
        quiet=given.quiet,
        replay_input=given.replay_input,
        last_output=given.last_output,
        max_output=given.output_limit,
    )
    _tell_warnings()
    try:
        return run_command(command, options)
    except OSError as error:
        return _fails(str(error.strerror), BAD_STREAM)


def _limit(given: Any) -> Optional[Limit]:
    """What the retries of a run draw on."""
    from .limits import limit

    if given.limit is not None:
        return limit(given.limit, None if given.open is None else _policy(given.open))
    if given.open is not None:
        raise LimitError("--open: expected --limit breaker:.. too, got no --limit")
    return None


def _pace(given: Any) -> Any:
    """What the attempts of a run wait for."""
    from .limits import pace

    return None if given.pace is None else pace(given.pace)


def _plan(given: Any) -> int:
    policies = [_policy(word) for word in given.file or ["-"]]
    how: Any = {
        "start": milliseconds(given.start),
        "took": milliseconds(given.took),
        "input": given.input if given.inputs is None else given.inputs,
    }

    def random() -> Callable[[], float]:
        words: Iterator[int] = repeat(given.word) if given.words is None else seeded(given.words)
        return lambda: next(words) / 2**32

    if given.svg is not None:
        from ..policy.picture import plan_picture

        return _writes(given.svg, plan_picture(*policies, steps=given.steps, random=random, width=given.width, **how))
    told = ""
    for policy in policies:
        told += f"{policy!r}\n" if len(policies) > 1 else ""
        told += "".join(f"{step}\n" for step in policy.preview(given.steps, random=random(), **how))
    return _prints(told)


def _storm(given: Any) -> int:
    from .storm_command import result_of

    try:
        result = result_of(given, _policy)
    except OSError as error:  # (of a log)
        return _fails(str(error.strerror), BAD_STREAM)
    status = _prints(result.text) if given.svg is None else _writes(given.svg, result.text)
    return _fails(_CUT, NOT_FINISHED) if result.is_cut and status == 0 else status


def _advise(given: Any) -> int:
    from .advise_command import advice_of

    try:
        text = advice_of(given, _policy)
    except OSError as error:  # (of a log)
        return _fails(str(error.strerror), BAD_STREAM)
    return _prints(text) if given.svg is None else _writes(given.svg, text)


def _lab(given: Any) -> int:
    from ..lab.server import run_lab

    try:
        return run_lab(given.port, given.link, not given.no_browser)
    except OSError as error:
        about = f"port {given.port}: " if given.port else ""
        return _fails(f"lab: {about}{error.strerror}", BAD_STREAM)


def _writes(name: str, text: str) -> int:
    """Writes a picture into a file, or onto standard output."""
    if name == "-":
        writes_utf_8()
        return _prints(text)
    try:
        with open(name, "w", encoding="utf-8", newline="\n") as file:
            file.write(text)
        return 0
    except OSError as error:
        return _fails(f"write failed: {name}: {error.strerror}", BAD_STREAM)


def _check(given: Any) -> int:
    try:
        policy = _policy(given.file)
    except PolicyError as error:
        _prints(f"{error}\n" if error.fault is Fault.NOT_JSON else f"{error.place or 'top'}: {error.hint}\n")
        return _fails(error.fault.value, BAD_INPUT)
    nodes = "1 node" if policy.nodes == 1 else f"{policy.nodes} nodes"
    most = policy.most_retries
    bound = "" if most is None else f", goes on at most {most} {'time' if most == 1 else 'times'}"
    return _prints(f"plan: {nodes}, depth {policy.depth}{bound}\n")


def _prints(text: str) -> int:
    try:
        sys.stdout.write(text)
        sys.stdout.flush()
        return 0
    except OSError as error:
        _drops_unwritten()
        return _fails(f"write failed: standard output: {error.strerror}", BAD_STREAM)


def _drops_unwritten() -> None:
    """Drops what could not be written, which Python would try again at its end."""
    try:
        sys.stdout.flush()
    except OSError:
        os.dup2(os.open(os.devnull, os.O_WRONLY), sys.stdout.fileno())


Parser.prints = staticmethod(_prints)


def _policy(word: str) -> Policy:
    """The policy that a word of the command line names: standard input, JSON, an expression or a file."""
    if word == "-":
        return Policy.from_json(_read(0))
    if not word:
        _stop("expected a policy, got ''", BAD_COMMAND_LINE)
    if word.lstrip()[:1] in ("{", "[", '"'):
        return Policy.from_json(word)
    if ("(" in word or word in builders.__all__) and not os.path.exists(word):
        return Policy.parse(word)
    return Policy.from_json(_read(word))


def _read(source: Union[int, str]) -> bytes:
    """The bytes of a file, or of standard input."""
    if source == 0 and os.isatty(0):
        ends = "Ctrl-Z and Enter end it" if os.name == "nt" else "Ctrl-D ends it"
        tell(f"hikebox: reading a policy as JSON from the terminal; {ends}\n")
    try:
        with open(source, "rb", closefd=source != 0) as file:
            text = file.read(MAX_BYTES + 1)
    except OSError as error:
        wanted = "; expected a file, JSON or an expression, as spaced(30)" if error.errno == errno.ENOENT else ""
        _stop(f"read failed: {source if source else 'standard input'}: {error.strerror}{wanted}", BAD_STREAM)
    if len(text) > MAX_BYTES:
        _stop("input too long", BAD_INPUT)
    return text


def _stop(line: str, status: int) -> NoReturn:
    raise SystemExit(_fails(line, status))
