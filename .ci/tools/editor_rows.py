#!/usr/bin/env python3
"""Tries what serves an editor, as an editor does: the language server and the debug adapter, with messages, and the debugger of a terminal, with keys.

    python3 .ci/tools/editor_rows.py PROGRAM

What the server finds is compared with what the program says; what the adapter shows of each moment of a run with what sessions of the program print; what
the colours of each editor know with the words that the documents have. Three themes are tried at a time. The exit status is 1 if something differed. A program that is too slow for runs of
millions of instructions, as that of a trial is, isn't tried on those, and that is said.
"""
import subprocess
import sys
import tempfile
import time
from concurrent.futures import ProcessPoolExecutor
from itertools import repeat
from pathlib import Path

sys.path.append(str(Path(__file__).resolve().parents[2] / "tools"))

import debugger_rows as debugger
import server_rows as server
import unfit_rows as unfit
from arguments import parser_of
from arguments import program as executable
from editor_clients import EXAMPLES, SECONDS, Client, Silent
from wire import Quiet

THEMES = [
    server.of_findings, server.of_places, server.of_examples, server.of_words, server.of_colours, debugger.of_runs, debugger.of_waiting, debugger.of_infix,
    debugger.of_stops, debugger.of_many_stops, debugger.of_watches, debugger.of_console, debugger.of_refusals, debugger.of_terminal, unfit.of_messages,
    unfit.of_requests, unfit.of_program, unfit.of_sessions, unfit.of_leaving, unfit.of_names, unfit.of_unproved, debugger.of_long_runs,
]
# Those that make millions of instructions, and so many instructions a second as they need. A proved program makes a hundred times as many.
LONG, NEEDED, SAMPLE = [debugger.of_long_runs], 1_000_000, 100_000

# So many themes at a time, because a theme mostly waits.
AT_A_TIME = 3


def speed(program):
    """How many instructions of the processor a program makes in a second, by a short run."""
    source = EXAMPLES / "counting/clock.gypsy"
    with tempfile.NamedTemporaryFile("w") as script:
        script.write(f"step {SAMPLE}\n")
        script.flush()
        line = [program, "debug", "fm9001", source, source.with_name("odd.values"), "100", "100", script.name]
        began = time.process_time() + sum(children())
        subprocess.run(line, stdout=subprocess.DEVNULL, check=True)
        return SAMPLE / max(time.process_time() + sum(children()) - began, 0.001)


def children():
    """The seconds of processor that what was started so far has taken."""
    import resource

    used = resource.getrusage(resource.RUSAGE_CHILDREN)
    return used.ru_utime, used.ru_stime


def differences(theme, program):
    """What differed in a theme."""
    Client.aside.clear()
    try:
        yield from theme(program)
    except Quiet:
        yield f"there was no answer in {SECONDS} seconds"
    except Silent:
        yield "what serves has ended in place of an answer"
    yield from (it for it in Client.aside if "Traceback" in it)


def tried(theme, program):
    """How many seconds a theme took, and what differed in it."""
    began, found = time.time(), list(differences(theme, program))
    return time.time() - began, found


def main():
    parser = parser_of(__doc__)
    parser.add_argument("program", type=executable, help="cli_stack")
    parser.add_argument("themes", nargs="*", help="some of " + ", ".join(it.__name__[3:] for it in THEMES))
    words = parser.parse_args()
    themes = [it for it in THEMES if not words.themes or it.__name__[3:] in words.themes]
    made = speed(words.program)
    if made < NEEDED and set(LONG) & set(themes):
        themes = [it for it in themes if it not in LONG]
        print(f"editor: long_runs isn't tried: this program makes {made:,.0f} instructions a second, and {NEEDED:,} are needed. A proved program is faster")
    differing = 0
    with ProcessPoolExecutor(AT_A_TIME) as themes_at_a_time:
        for theme, (seconds, found) in zip(themes, themes_at_a_time.map(tried, themes, repeat(words.program))):
            differing += len(found)
            print("\n".join([f"{theme.__name__[3:]}: {seconds:.1f} s, {len(found)} differed", *found]), flush=True)
    return 1 if differing else 0


if __name__ == "__main__":
    sys.exit(main())
