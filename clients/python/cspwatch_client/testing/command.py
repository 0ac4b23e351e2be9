"""The command `cspwatch-test`: its words, and a campaign or a replay from them."""
from __future__ import annotations

import argparse
import json
import os
import random
import signal
import sys
from typing import Optional, Sequence, TextIO

if sys.version_info < (3, 11):
    print("cspwatch-test needs Python 3.11 or later, this is %d.%d" % sys.version_info[:2], file=sys.stderr)
    raise SystemExit(2)

from ..logs.junit import JUnit
from ..logs.maps import Specification
from ..logs.program import ProgramFault
from ..logs.showing import printable
from ..replies import Fault
from .adapters import AdapterFault, loaded
from .calls import Hung
from .durations import seconds_of
from .jobs import IsCancelled, Watch, parts_of, play_side_by_side
from .junit import write_junit
from .replaying import ReplayFault, replay_of
from .results import Finding, Result, finding_of, stopped_by
from .runs import Failure
from .showing import Progress, print_finding, print_result, print_stopped
from .systems import TIMEOUT_SECONDS, System, system_for

RUNS, STEPS, MOST_STEPS, MOST_JOBS = 200, 50, 1000, 64

DATABASE = os.path.join(".hypothesis", "examples")
"""Where hypothesis keeps failing runs."""

EPILOG = """times are written as 200ms, 10s, 5m or 1h. exit status: 0 no report was rejected; 1 one was; 2 bad use, a fault in the
adapter, a call that hangs, or nothing was tested; 3 the script was refused; 5 a file or the program failed; 6 a limit was met.
Of several, the first of 1, 3, 5, 6, 2, 0."""


class BadUse(Exception):
    """Words that don't fit together."""


def parser() -> argparse.ArgumentParser:
    """The words of the command."""
    found = argparse.ArgumentParser(
        prog="cspwatch-test", description="Tests a system by its specification, and makes the run that fails short.", epilog=EPILOG
    )
    found.add_argument("spec", metavar="SPEC", help="the script")
    found.add_argument("process", metavar="PROCESS", help="the process to judge by")
    found.add_argument("adapter", metavar="ADAPTER", help="the adapter, a file of Python")
    found.add_argument("--runs", metavar="N", type=natural, help="make at most N runs (%d, or with --time no end)" % RUNS)
    found.add_argument("--steps", metavar="N", type=natural, default=STEPS, help="at most N inputs a run (%d; up to %d)" % (STEPS, MOST_STEPS))
    found.add_argument("--time", metavar="TIME", type=seconds_of, help="begin no further run after this time")
    found.add_argument("--seed", metavar="N", type=int, help="make the same runs again; chosen at random where left out")
    found.add_argument("--jobs", metavar="N", type=natural, default=1, help="test N systems side by side, each in a process of its own")
    found.add_argument("--robust", action="store_true", help="try inputs that the specification refuses, too")
    found.add_argument("--timeout", metavar="TIME", type=seconds_of, default=TIMEOUT_SECONDS, help="how long a call of the adapter may take (10s)")
    found.add_argument("--replay", metavar="FILE", help="do the inputs of the run in FILE once more, in place of a campaign")
    found.add_argument("--quiet", action="store_true", help="print the failing run alone, without the counts")
    found.add_argument("--save", metavar="FILE", help="write the shortest failing run to FILE, as lines for cspwatch check")
    found.add_argument("--junit", metavar="FILE", help="write the runs to FILE as test cases")
    found.add_argument("--json", metavar="FILE", help="write what came of the campaign to FILE")
    found.add_argument("--database", metavar="FOLDER", default=DATABASE, help="where failing runs are kept (%s)" % DATABASE)
    found.add_argument("--large", action="store_true", help="judge by check --large")
    found.add_argument("--program", metavar="FILE", help="the program cspwatch; $CSPWATCH or the one on the PATH where left out")
    return found


def natural(text: str) -> int:
    number = int(text)
    if number < 1:
        raise ValueError(text)
    return number


def main(words: Optional[Sequence[str]] = None) -> int:
    """Runs the command with these words, and answers its status."""
    options = parser().parse_args(words)
    for stream in (sys.stdout, sys.stderr):
        stream.reconfigure(errors="backslashreplace")  # type: ignore[attr-defined]
    signal.signal(signal.SIGTERM, signal.default_int_handler)
    try:
        return run(options, sys.stdout, sys.stderr)
    except (BadUse, AdapterFault, ReplayFault) as fault:
        return said(fault, 2)
    except ProgramFault as fault:
        return said(fault, fault.status)
    except KeyboardInterrupt:
        return said("cspwatch-test: interrupted before the first run", 2)
    except BrokenPipeError:
        # Nobody reads the output any more; the interpreter would fail again when it flushes at its end.
        os.dup2(os.open(os.devnull, os.O_WRONLY), sys.stdout.fileno())
        return 5
    except OSError as fault:
        return said("%s: %s" % (fault.filename or "cspwatch-test", fault.strerror or fault), 5)


def said(fault: object, status: int) -> int:
    """Says what is wrong."""
    for line in str(fault).splitlines():
        print(printable(line), file=sys.stderr)
    return status


def run(options: argparse.Namespace, out: TextIO, errors: TextIO) -> int:
    """A replay, or a whole campaign."""
    check_use(options)
    if options.replay is not None:
        return replay(options, out, errors)
    junit = JUnit(options.junit, options.process) if options.junit is not None else None
    told = open(options.json, "w", encoding="utf-8") if options.json is not None else None
    result = campaign(options, Progress(errors))
    print_result(result, out, errors, options.quiet)
    if result.finding is not None and options.save is not None:
        save(options.save, result.finding)
    if junit is not None:
        write_junit(junit, result)
    if told is not None:
        with told:
            json.dump(result.as_json(), told, indent=2)
            told.write("\n")
    return result.status()


def check_use(options: argparse.Namespace) -> None:
    """Finds words that don't fit together."""
    if options.steps > MOST_STEPS:
        raise BadUse("cspwatch-test: a run has at most %d inputs" % MOST_STEPS)
    if options.jobs > MOST_JOBS:
        raise BadUse("cspwatch-test: at most %d systems are tested side by side" % MOST_JOBS)
    for name in ("--jobs", "--runs", "--time", "--seed", "--save", "--junit", "--json"):
        if options.replay is not None and getattr(options, name[2:]) not in (None, 1):
            raise BadUse("cspwatch-test: %s is for a campaign, and doesn't go with --replay" % name)


def system_of(options: argparse.Namespace) -> System:
    """The system, from the words."""
    specification = Specification(options.spec, options.process, options.large)
    return system_for(specification, loaded(options.adapter), printable(options.adapter), options.program, options.timeout)


def campaign(options: argparse.Namespace, progress: Progress) -> Result:
    """Plays the campaign, in this process or in several."""
    try:
        from .campaigns import Campaign, Wishes
    except ImportError as error:
        raise BadUse("cspwatch-test: a campaign needs Python's package hypothesis (Debian: python3-hypothesis): %s" % error) from None
    seed = options.seed if options.seed is not None else random.SystemRandom().getrandbits(32)
    runs = options.runs if options.runs is not None or options.time is not None else RUNS
    parts = parts_of(runs, options.jobs)

    def play(number: int, is_cancelled: IsCancelled, watch: Watch) -> Result:
        wishes = Wishes(parts[number - 1], options.steps, seed + number - 1, options.time, options.robust, options.database)
        system = system_of(options)
        try:
            return Campaign(system, wishes, is_cancelled, watch).play()
        finally:
            system.close()

    try:
        if options.jobs == 1:
            return play(1, lambda: False, progress.show)
        whole = play_side_by_side(play, len(parts), progress.show)
        whole.seed = seed
        return whole
    finally:
        progress.end()


def save(path: str, finding: Finding) -> None:
    """Writes the failing run."""
    with open(path, "w", encoding="utf-8") as file:
        file.write("".join(report + "\n" for report in finding.reports))


def replay(options: argparse.Namespace, out: TextIO, errors: TextIO) -> int:
    """Does the inputs of a run once more."""
    system = system_of(options)
    try:
        found = replay_of(options.replay, system.adapter)
        played = system.play(found.steps)
    except Failure as failure:
        print_finding(finding_of(failure, system.judges), out)
        return 1
    except (AdapterFault, Hung, Fault) as error:
        stopped = stopped_by(error, system.run)
        print_stopped(stopped, errors)
        return stopped.status
    finally:
        system.close()
    print("%s: the run passes: %d steps, %d reports" % (options.replay, len(played.tried), played.reports), file=out)
    return 0
