"""What a command of the program takes, and the words of the scripts that measure it."""
import os
import subprocess
import sys
from pathlib import Path

sys.path.append(str(Path(__file__).resolve().parents[1] / "tools"))
from arguments import parser_of  # noqa: E402
from arguments import program as executable  # noqa: E402

TURNS = 5


def taken(program, words, folder, is_read=True):
    """The least time of some turns, the process's own and the system's, the most memory of that turn in megabytes, its status, and what it
    printed. Where that isn't read, it goes nowhere: a process begins with the most memory of its parent, which would hold it."""
    turns = []
    for _ in range(TURNS):
        process = subprocess.Popen([program, *words.split()], cwd=folder, stdout=subprocess.PIPE if is_read else subprocess.DEVNULL)
        printed = process.stdout.read().decode().strip().replace("\n", " / ") if is_read else ""
        _, status, usage = os.wait4(process.pid, 0)
        turns.append((usage.ru_utime + usage.ru_stime, usage.ru_maxrss // 1024, os.waitstatus_to_exitcode(status), printed))
    return min(turns)


def program_parser(doc):
    """A parser whose first word is the built program."""
    parser = parser_of(doc)
    parser.add_argument("program", type=executable, help="cli_stack")
    return parser


def start(parser, write, main):
    """Starts a script that measures: it calls itself with `--write` where a file is to be written by a process of its own."""
    if sys.argv[1:2] == ["--write"]:
        write(*sys.argv[2:])
    else:
        main(**vars(parser.parse_args()))
