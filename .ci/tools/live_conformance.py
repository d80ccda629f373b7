#!/usr/bin/env python3
"""Runs the rows of the folder conformance on the program that is in a page of guide/live.py, in a Chromium without a window.

    python3 .ci/tools/live_conformance.py LIVE.html [NAME ..]

The rows are those of conformance/run, or of the files that are named, as check.rows. Prints a line for each row that fails, how many rows each file
has, and how many failed. The exit status is 1 where one failed.
"""
import base64
import json
import sys
from importlib.machinery import SourceFileLoader
from importlib.util import module_from_spec, spec_from_loader
from pathlib import Path

sys.path.append(str(Path(__file__).resolve().parents[2] / "tools"))

import browsers  # noqa: E402
from arguments import file, parser_of  # noqa: E402
from browsers import Chromium, Fault  # noqa: E402

CONFORMANCE = Path(__file__).resolve().parent.parent.parent / "conformance"
# The largest images are a while in a browser.
browsers.WAIT = 900
# `run` there is a script without an ending.
loader = SourceFileLoader("conformance", str(CONFORMANCE / "run"))
conformance = module_from_spec(spec_from_loader("conformance", loader))
loader.exec_module(conformance)

SETS_UP = """(async () => {
  const perform = new Function(`${by("host").textContent}; return perform;`)();
  const program = await WebAssembly.compile(await (await unpacked("packed")).arrayBuffer());
  const bytesOf = (text) => Uint8Array.from(atob(text), (it) => it.charCodeAt(0));
  const packed = (bytes) => {
    const parts = [];
    for (let at = 0; at < bytes.length; at += 32768) parts.push(String.fromCharCode(...bytes.subarray(at, at + 32768)));
    return btoa(parts.join(""));
  };
  const each = (files, change) => Object.fromEntries(Object.entries(files).map(([name, it]) => [name, change(it)]));
  window.performRow = ({ words, files, input }) => {
    const ran = perform(program, words.map(bytesOf), each(files, bytesOf), bytesOf(input));
    return { status: ran.status, printed: packed(ran.printed), stored: each(ran.bytes, packed) };
  };
  return 1;
})()"""


def packed(content):
    return base64.b64encode(content).decode()


def perform(browser, words, files, given):
    """The status, what is printed and the files afterwards of one run, which is given this as standard input."""
    asked = {"words": [packed(it) for it in words], "files": {name: packed(it) for name, it in files.items()}, "input": packed(given)}
    ran = browser.evaluate(f"performRow({json.dumps(asked)})")
    stored = {name: base64.b64decode(it) for name, it in ran["stored"].items()}
    return ran["status"], base64.b64decode(ran["printed"]), files | stored


def judge(browser, row):
    """What is wrong with the runs of a row, or nothing."""
    files = {name: it() if callable(it) else it for name, it in row.files.items()}
    for run in row.runs:
        files |= {name: it() if callable(it) else it for name, it in (run.change(files) if run.change else {}).items()}
        before = dict(files)
        try:
            status, printed, files = perform(browser, [it for it in run.words.split(b" ") if it], before, before[run.given] if run.given else b"")
            fault = run.fault(status, printed, before, files)
        except Fault as thrown:
            fault = str(thrown)
        if fault:
            return f"{row.name}: {run.words.decode('ascii', 'backslashreplace'):.200}: {fault:.400}"
    return None


def main():
    parser = parser_of(__doc__)
    parser.add_argument("page", type=file, help="the page with the program, as guide/live.py writes it")
    parser.add_argument("names", nargs="*", help="only these files of rows")
    words = parser.parse_args()
    paths = [it for it in (*sorted(CONFORMANCE.glob("*.rows")), *sorted(CONFORMANCE.glob("made/*.py"))) if not words.names or it.name in words.names]
    if missing := set(words.names) - {it.name for it in paths}:
        parser.error(f"conformance has no {', '.join(sorted(missing))}")
    count = failed = 0
    with Chromium() as browser:
        browser.open(words.page.as_uri())
        browser.wait_until("['shown', 'refused'].includes(document.body.dataset.state)")
        browser.evaluate(SETS_UP)
        for path in paths:
            rows = list(conformance.rows_of(path) if path.suffix == ".rows" else conformance.rows_made_by(path))
            faults = [it for it in (judge(browser, row) for row in rows) if it]
            print("\n".join([*faults, f"{len(rows):5} rows: {path.name}" + f", {len(faults)} failed" * bool(faults)]), flush=True)
            count, failed = count + len(rows), failed + len(faults)
    print(f"{count:5} rows, {failed} failed")
    return 1 if failed else 0


if __name__ == "__main__":
    sys.exit(main())
