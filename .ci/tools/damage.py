#!/usr/bin/env python3
"""Damaged files: every truncation of a file, and the file with each of its bytes changed to 0, to 255 and to its two neighbours, is read by
each command that reads such a file.

The files are five sources of `examples/` with their values, a script, an assembly text, the infix programs, a text of
Piton, the images of the assembly text, of the text of Piton and of one source, and a certificate. No command ends by a signal, or with a status
that isn't among those of its texts; none takes over a second of processor time, or 64 MB. --share tries one damaged file of eight. --sanitized is for a
program that a trial built: it looks at its own use of memory, and has four times as much of both.
"""
import itertools
import multiprocessing
import os
import resource
import shutil
import sys
import tempfile
from pathlib import Path

sys.path.append(str(Path(__file__).resolve().parents[2] / "tools"))

from arguments import parser_of  # noqa: E402
from arguments import program as executable  # noqa: E402
from tried import statuses  # noqa: E402

SECONDS, KILOBYTES = 1.0, 64 * 1024
SANITIZED = 4
# In how many parts the damaged files of one file are tried, so that all processors have work to the end.
PARTS = 8
TURNS = 3
# Files are written by the ten thousand: where there is memory for them, not to a disk.
FOLDERS = "/dev/shm" if os.access("/dev/shm", os.W_OK) else None
EXAMPLES = Path(__file__).resolve().parents[2] / "examples"
# Larger sources take longer, and have no other forms.
SOURCES = {
    "first/seven.gypsy": "first/nine.values",
    "first/two.gypsy": "first/two.values",
    "first/report.gypsy": "first/report.values",
    "conditions/count.gypsy": "conditions/count.values",
    "calls/down.gypsy": "calls/down.values",
}
PITON = "(piton main 2 2 0 ((g (nat 4) (nat 5))) () (main () () (push-global g) (add1-nat) (pop-global g) (ret)))"

# What a command on damaged files can't end with: by a promise `go` has no such end, and a session of a source's program none.
NEVER = {"go": {6}, "debug": {6, 8}}
STATUSES = {name: ends - NEVER.get(name, set()) for name, ends in statuses().items()}

# What reads a file of each kind: DAMAGED is the damaged one, and VALUES, SOURCE the whole ones beside it.
READERS = {
    "gypsy": [
        "check DAMAGED",
        "mean DAMAGED VALUES 20 20 1000",
        "pit DAMAGED 20 20 out",
        "build DAMAGED 20 20 out",
        "quick DAMAGED 20 20 out",
        "go DAMAGED VALUES 20 20 1000 out",
        "need DAMAGED out",
        "cert DAMAGED CERTIFICATE 20 20",
        "turns 10 1000 20 20 DAMAGED VALUES",
    ],
    "values": ["mean SOURCE DAMAGED 20 20 1000", "go SOURCE DAMAGED 20 20 1000 out", "run IMAGE DAMAGED 1000", "idebug IMAGE DAMAGED SCRIPT"],
    "script": [f"debug {level} SOURCE VALUES 20 20 DAMAGED" for level in ("gypsy", "piton", "fm9001")],
    "piton": ["pcheck DAMAGED", "prun DAMAGED 1000", "pbuild DAMAGED out", "pdebug DAMAGED SCRIPT"],
    "image": ["show DAMAGED", "run DAMAGED VALUES 1000", "idebug DAMAGED VALUES SCRIPT"],
    "small image": ["show DAMAGED", "run DAMAGED VALUES 1000", "idebug DAMAGED VALUES SCRIPT", "migrate DAMAGED out"],
    "plain image": ["unasm DAMAGED out"],
    "assembly": ["asm DAMAGED out"],
    "infix": ["mini DAMAGED out"],
    "certificate": ["cert SOURCE DAMAGED 20 20"],
}


def damaged(content):
    """The file's truncations, and the file with one byte changed."""
    for at, byte in enumerate(content):
        yield f"cut at {at}", content[:at]
        for other in sorted({0, 255, (byte + 1) % 256, (byte - 1) % 256} - {byte}):
            yield f"byte {at} is {other}", content[:at] + bytes([other]) + content[at + 1 :]


def ends(program, words):
    """The status of a command, or minus its signal; its seconds of processor time, and its most memory in kilobytes."""
    nothing = [(os.POSIX_SPAWN_OPEN, 1, "/dev/null", os.O_WRONLY, 0)]
    child = os.posix_spawn(program, [program, *words], os.environ, file_actions=nothing)
    _, status, used = os.wait4(child, 0)
    return os.waitstatus_to_exitcode(status), used.ru_utime + used.ru_stime, used.ru_maxrss


def judge(job):
    """What is wrong with the replies of one command to a part of the damaged files that one file gives, and how many were tried."""
    program, folder, kind, name, words, part, times = job
    content = Path(folder, name).read_bytes()
    command, count, wrong = words[0], 0, []
    with tempfile.TemporaryDirectory(dir=FOLDERS) as own:
        for file in Path(folder).iterdir():
            shutil.copy(file, own)
        os.chdir(own)
        for how, bytes_of in itertools.islice(damaged(content), part, None, PARTS):
            Path("damaged").write_bytes(bytes_of)
            count += 1
            # The machine may be busy: of several turns the best counts.
            for _ in range(TURNS):
                status, seconds, kilobytes = ends(program, words)
                if status in STATUSES[command] and seconds <= SECONDS * times and kilobytes <= KILOBYTES * times:
                    break
            else:
                wrong.append(f"{' '.join(words)}, {kind} {name}, {how}: status {status}, {seconds:.2f} s, {kilobytes} KB")
        os.chdir("/")
    return count, wrong


def whole_files(program, folder):
    """Puts the whole files into a folder, and tells for each its kind, its name, and the files that stand beside it."""
    files = []
    Path(folder, "main.certificate").write_text("((main 2 4))", encoding="ascii")
    script = {"SCRIPT": "steps.script"}
    shutil.copy(EXAMPLES / "sessions/steps.script", folder)
    for source, values in ((EXAMPLES / source, EXAMPLES / values) for source, values in SOURCES.items()):
        stem = source.stem
        beside = {"SOURCE": source.name, "VALUES": values.name, "IMAGE": f"{stem}.image", "CERTIFICATE": "main.certificate", **script}
        for example in (source, values):
            shutil.copy(example, folder)
        ends(program, ["build", source.name, "20", "20", f"{stem}.image"])
        files += [("gypsy", source.name, beside), ("values", values.name, beside)]
        if stem == "seven":
            files += [("image", f"{stem}.image", beside), ("certificate", "main.certificate", beside), ("script", "steps.script", beside)]
    Path(folder, "seven.piton").write_text(PITON, encoding="ascii")
    Path(folder, "no.values").write_text("()", encoding="ascii")
    ends(program, ["pbuild", "seven.piton", "piton.image"])
    shutil.copy(EXAMPLES / "assembly/sum.asm", folder)
    ends(program, ["asm", "sum.asm", "sum.image"])
    files += [("piton", "seven.piton", script), ("small image", "piton.image", {"VALUES": "no.values", **script})]
    for infix in EXAMPLES.glob("infix/*.mini"):
        shutil.copy(infix, folder)
        files.append(("infix", infix.name, {}))
    return files + [("assembly", "sum.asm", {}), ("plain image", "sum.image", {})]


def main():
    parser = parser_of(__doc__)
    parser.add_argument("program", type=executable, help="cli_stack")
    parser.add_argument("--only", choices=READERS, help="damage files of this kind alone")
    parser.add_argument("--share", action="store_true", help=f"try one damaged file of {PARTS}")
    parser.add_argument("--sanitized", action="store_true", help="the program looks at its own use of memory")
    words = parser.parse_args()
    program, times = str(words.program), SANITIZED if words.sanitized else 1
    with tempfile.TemporaryDirectory(dir=FOLDERS) as folder:
        os.chdir(folder)
        jobs = []
        for kind, name, beside in whole_files(program, folder):
            if words.only not in (None, kind):
                continue
            for row in READERS[kind]:
                line = [{"DAMAGED": "damaged", **beside}.get(word, word) for word in row.split()]
                jobs += [(program, folder, kind, name, line, part, times) for part in range(1 if words.share else PARTS)]
        jobs.sort(key=lambda job: -Path(folder, job[3]).stat().st_size)
        with multiprocessing.Pool(len(os.sched_getaffinity(0))) as pool:
            found = pool.map(judge, jobs, chunksize=1)
        os.chdir("/")
    wrong = [line for _, lines in found for line in lines]
    print("\n".join(wrong[:20]))
    print(f"damage: {sum(count for count, _ in found)} runs, {len(wrong)} of them wrong")
    return bool(wrong)


if __name__ == "__main__":
    resource.setrlimit(resource.RLIMIT_CORE, (0, 0))
    sys.exit(main())
