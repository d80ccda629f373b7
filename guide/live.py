"""Writes a page that has the proved program in it, compiled for WebAssembly, with an editor: what is written there is compiled, run and shown on every
level by the reader's browser.

    python3 guide/live.py OUT.html

The program is proved and built by then (./stack prove), which leaves the libraries that this needs. The kit builds cli_stack once more, with a tool folder
whose `clang` keeps the module that it is given and hands it on; what is linked of the object must be the built program, byte for byte. So the page's
program is made of the module of the proved program, for another machine: a memory of 64 bits as the first one's, and live/shim.c for the few calls of
the system. A browser needs WebAssembly with such memories: Chromium and Firefox have it.
"""
import argparse
import hashlib
import json
import os
import re
import shutil
import subprocess
import sys
import tempfile
from pathlib import Path

import ends
import page
from explain import rows_of_page

TOP = Path(__file__).resolve().parent.parent
HERE = TOP / "guide" / "live"
PROGRAM = TOP / "crates/cli_stack"
TARGET = "wasm64-unknown-unknown"
# The examples: a source, its values, the sizes of the two stacks and the budget. The first is there at once.
EXAMPLES = [
    ("calls/down.gypsy", "calls/down", 24, 10, 1000), ("first/seven.gypsy", "first/nine", 7, 3, 1000), ("infix/gcd.mini", "infix/gcd", 200, 200, 10000),
    ("infix/squares.mini", "infix/squares", 200, 200, 10000), ("counting/upto.gypsy", "counting/upto", 100, 100, 10000),
    ("arrays/sum.gypsy", "arrays/sum", 100, 100, 10000), ("conditions/count.gypsy", "conditions/count", 13, 5, 1000),
    ("conditions/inc.gypsy", "conditions/inc", 14, 6, 1000), ("calls/swap.gypsy", "calls/swap", 100, 100, 1000),
    ("characters/letters.gypsy", "characters/letters", 100, 100, 100000), ("numbers/product.gypsy", "numbers/product", 100, 100, 10000),
]
# What live/host.js gives to the program.
HOST = ["read", "write", "close", "rattle_arg"]
# The last lines whose sentences the editor shows, beside the rules.
ENDS = (5, 12)
CHECKED = """The program in this page is made of the module of the proved one: the kit built <code>cli_stack</code> once more, said <code>logic=proved</code>, \
and for the computer it made of that module, byte for byte, the proved program (SHA-256 <code>{digest}</code>). The same module was compiled for \
WebAssembly."""
UNCHECKED = "The program in this page was handed in as it is, for a trial: <strong>nothing is known of it</strong>."
BELIEF = """{origin} Trusted beyond what the README of the repository lists under <em>What is trusted</em>: LLVM’s back end for WebAssembly, on a module that \
was made for another machine; the {shim} lines of C and {host} of JavaScript that stand for the system’s memory, files and words; and the browser. Not proved \
either: that the page shows what was printed. Its script compares the levels at each moment, and shows nothing but the difference where there is one."""
KEEPS_MODULE = """#!/bin/sh
[ ! -f module.bc ] || cp module.bc "{kept}"
exec "{clang}" "$@"
"""


class Failed(Exception):
    """The kit didn't do what was asked."""


def rows_of_crates():
    """The repository's crates, each with what it stands on, of the repository or of the kit."""
    rows = (line.split("#")[0].split(":") for line in (TOP / "crates.txt").read_text().splitlines())
    return {row[0].split()[0]: row[1].split() for row in rows if len(row) == 2}


def keeping_tools(kit, room, kept):
    """A tool folder as the kit's, whose compiler keeps the module of a program."""
    tools = room / "tools"
    (tools / "bin").mkdir(parents=True)
    (tools / "lib").symlink_to(kit / "toolchain/lib")
    for tool in (kit / "toolchain/bin").iterdir():
        if tool.name != "clang":
            (tools / "bin" / tool.name).symlink_to(tool)
    clang = tools / "bin/clang"
    clang.write_text(KEEPS_MODULE.format(kept=kept, clang=kit / "toolchain/bin/clang"))
    clang.chmod(0o755)
    return tools


def linked(kit, room, made):
    """The program that the kit links of an object, as it does in its gate."""
    words = ["--target", "x86_64-unknown-linux-gnu", "--toolchain", kit / "toolchain", "-o", room / "program", made]
    subprocess.run([kit / "bin/rattle-link", *words, kit / "c/libos_c.a", kit / "c/liblibc_c.a"], check=True, stdout=subprocess.DEVNULL)
    return (room / "program").read_bytes()


def keep_module(kit, room):
    """The module of the whole program, as the kit hands it to its compiler, and what the proved program is known by."""
    kept, built, log = room / "module.bc", room / "program.o", room / "build.log"
    ours = rows_of_crates()
    rlib = {name: TOP / f"crates/{name}/out/rlib/{name}.rlib" for name in ours}
    missing = [name for name in ours["cli_stack"] if name in rlib and not rlib[name].exists()]
    if missing or not (PROGRAM / "out/cli_stack").exists():
        what = f"the library of {missing[0]}" if missing else "the program"
        raise Failed(f"{what} isn't there: remove {PROGRAM / 'out/cli_stack'}, and ./stack prove leaves it")
    words = ["--crate-name", "cli_stack", "src/main.rt", "--extern", f"std={kit}/rlibs/std.rlib", "-L", f"dependency={kit}/rlibs"]
    for name in ours["cli_stack"]:
        words += ["--extern", f"{name}={rlib.get(name, kit / f'rlibs/{name}.rlib')}"]
    for path in filter(Path.exists, rlib.values()):
        words += ["-L", f"dependency={path.parent}"]
    words += ["--antt-project", kit / "rattle/logic/antt-project.json", "--logic-built", kit / "logic_built"]
    # A copy of what was proved: the repository's own stays as it is. The gate keeps none, and then the crate is proved once more, for some minutes.
    if (PROGRAM / "out/incremental").is_dir():
        shutil.copytree(PROGRAM / "out/incremental", room / "incremental")
    words += ["--incremental", room / "incremental", "--toolchain", keeping_tools(kit, room, kept), "--backend", "llvm", "-o", built]
    with log.open("w") as said:
        status = subprocess.run([kit / "bin/rattle", "build", *map(str, words)], cwd=PROGRAM, stdout=said, stderr=said, check=False).returncode
    if status or not re.search(r"^logic=proved ", log.read_text(), re.M):
        raise Failed(f"the kit doesn't build cli_stack:\n{log.read_text()[-2000:]}")
    program = linked(kit, room, built)
    if program != (PROGRAM / "out/cli_stack").read_bytes():
        raise Failed("the kit makes another program of cli_stack than it made before")
    return kept, hashlib.sha256(program).hexdigest()


def compile_module(kit, room, module, level):
    """The module as a program for a browser."""
    clang, made = kit / "toolchain/bin/clang", room / "stack.wasm"
    target = [clang, f"--target={TARGET}", f"-O{level}", "-mbulk-memory", "-c"]
    unlike = ["-Wno-override-module", "-ffunction-sections", "-x", "ir"]
    subprocess.run([*target, *unlike, module, "-o", room / "stack.o"], check=True, stderr=subprocess.DEVNULL)
    subprocess.run([*target, "-ffreestanding", "-fno-builtin", HERE / "shim.c", "-o", room / "shim.o"], check=True)
    (room / "host.names").write_text("\n".join(HOST))
    link = ["-mwasm64", "--no-entry", "--export=main", f"--allow-undefined-file={room / 'host.names'}", "--gc-sections", "--strip-all"]
    link += ["-z", "stack-size=8388608", "-o", made]
    # The kit's linker is one with its compiler, which goes by its name.
    if os.spawnv(os.P_WAIT, clang, ["wasm-ld", *map(str, [*link, room / "stack.o", room / "shim.o"])]):
        raise Failed("the linker doesn't link the program")
    return made.read_bytes()


def examples():
    """What the editor offers."""
    folder = TOP / "examples"
    for source, values, control, temporary, budget in EXAMPLES:
        texts = {"source": (folder / source).read_text(), "values": (folder / f"{values}.values").read_text().strip()}
        yield {"name": source, **texts, "control": control, "temporary": temporary, "budget": budget}


def told():
    """What the editor knows: the examples, the sentence of each rule, and those of other last lines, by their patterns."""
    rules, endings = rows_of_page()
    plain = {rule: text.replace("`", "") for rule, text in rules.items()}
    ends = [[re.sub(r"\(\?P<\w+>(.*?)\)", r"\1", it.pattern.pattern), it.says] for it in endings if it.pattern and it.status in ENDS]
    return {"examples": list(examples()), "rules": plain, "endings": ends}


def tail(wasm):
    """What the page has beside a page of a run: what the editor knows, the program, and what asks it."""
    known = json.dumps(told()).replace("<", "\\u003c")
    yield f'<script type="application/json" id="told">{known}</script>\n'
    for name in ("host", "ask"):
        yield f'<script type="text/plain" id="{name}">{page.script_of(f"{name}.js", HERE)}</script>\n'
    yield f'<script type="text/plain" id="packed">{page.packed(wasm)}</script>\n<script>\n{page.script_of("live.js", HERE)}</script>\n'


def lines_in(name):
    return len(page.script_of(name, HERE).splitlines())


def make_page(wasm, origin):
    """The text of the page."""
    belief = BELIEF.format(origin=origin, shim=lines_in("shim.c"), host=lines_in("host.js"))
    parts = {"style": page.script_of("live.css", HERE), "editor": page.script_of("editor.html", HERE), "body": ' class="live"'}
    return page.render("The verified short stack", "write a program, and see its run on every level", belief, tail="".join(tail(wasm)), **parts)


def words_of_line():
    parser = argparse.ArgumentParser(description="Writes a page with the proved program in it, compiled for WebAssembly, and an editor.")
    parser.add_argument("out", metavar="OUT.html", type=Path)
    parser.add_argument("--kit", type=Path, default=Path(os.environ.get("RATTLE_KIT", "/opt/rattle")), help="the kit's folder")
    parser.add_argument("--level", type=int, choices=range(4), default=2, help="how much the compiler for WebAssembly does")
    parser.add_argument("--keep", metavar="WASM", type=Path, help="also store the compiled program")
    parser.add_argument("--trial", metavar="WASM", type=Path, help="take this compiled program as it is; the page says so")
    return parser


def main(line):
    words = words_of_line().parse_args(line)
    with tempfile.TemporaryDirectory() as room:
        try:
            if words.trial:
                wasm, origin = words.trial.read_bytes(), UNCHECKED
            else:
                module, digest = keep_module(words.kit.resolve(), Path(room))
                wasm, origin = compile_module(words.kit.resolve(), Path(room), module, words.level), CHECKED.format(digest=digest)
        except Failed as failed:
            ends.tell(f"{failed}")
            return ends.FAILED
    if words.keep:
        ends.store(words.keep, wasm)
    ends.store(words.out, make_page(wasm, origin).encode())
    print(f"written {words.out}")
    return 0


if __name__ == "__main__":
    ends.end(lambda: main(sys.argv[1:]))
