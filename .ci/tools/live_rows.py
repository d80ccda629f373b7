#!/usr/bin/env python3
"""Tries the page that guide/live.py writes, in Chromium and in Firefox without a window.

    python3 .ci/tools/live_rows.py LIVE.html PROGRAM [--browser chromium|firefox] [--examples N]

Each example is run in the page, and what the program in the page answered is compared, text by text, with what PROGRAM answers, which was compiled for
this computer. Tried are also: refusals of a source, of values, of an infix program and of a size, with the mark in the editor and the sentence; that the
address holds a program; that Stop stops; keys, contrast and width. Prints a line for each difference. The exit status is 1 where something differed, or
where neither browser is there.
"""
import sys
import tempfile
import time
from pathlib import Path

TOP = Path(__file__).resolve().parent.parent.parent
sys.path.insert(0, str(TOP / "guide"))

import live  # noqa: E402
import page  # noqa: E402

sys.path.append(str(Path(__file__).resolve().parents[2] / "tools"))

from arguments import file, parser_of  # noqa: E402
from arguments import program as executable  # noqa: E402
from browsers import Chromium, Firefox  # noqa: E402
from page_rows import CONTRAST, LEAST_CONTRAST, NARROW  # noqa: E402
from program import Program  # noqa: E402

ANSWERS = "infix control temporary source values run pit show fm9001 piton cost gypsy counts parts memory".split()
SETTLED = "['shown', 'refused'].includes(document.body.dataset.state)"
GIVEN = "((x 1))"
SOURCE = "(program main (proc main ((x integer)) () () () {}))"
# What is written and given, the size of the temporary stack, and what is said, marked and shown as the sentence's beginning.
REFUSALS = [
    (SOURCE.format("(mg-integer-add x x y)"), GIVEN, 100, "refused S14 at 68", "y", "S14: "),
    (SOURCE.format("(skip)"), GIVEN, 100, "refused M9 at 48", "(", "M9: "),
    (SOURCE.format("(no-op)"), "((x true))", 100, "values V5 at 1", "(", "V5: "),
    ("int x; x := 1 + true;", GIVEN, 100, "refused Y7 at 14", "+", "Y7: "),
    (SOURCE.format("(no-op)"), GIVEN, 1, "size temporary 2", "", "TEMP is too small"),
]


def native(program, example):
    """What the program of this computer answers of an example."""
    with tempfile.TemporaryDirectory() as room:
        for name in ("source", "values"):
            (Path(room) / name).write_text(example[name])
        with Program(program, Path(room) / "source", Path(room) / "values", example["control"], example["temporary"]) as asked:
            return page.gather(asked, example["budget"], page.MOMENTS)


def as_lists(value):
    return list(map(as_lists, value)) if isinstance(value, (list, tuple)) else value


def settle(browser):
    browser.wait_until(SETTLED)
    return browser.evaluate("document.body.dataset.state")


def write(browser, source, values, temporary):
    """Writes into the editor, and runs."""
    for name, text in (("text", source), ("given", values), ("ctrl", 100), ("temp", temporary), ("budget", 1000)):
        browser.evaluate(f"document.getElementById('{name}').value = {text!r}")
    browser.evaluate("document.getElementById('go').click()")
    browser.wait_until("document.body.dataset.state === 'runs' || " + SETTLED)
    time.sleep(0.1)
    return settle(browser)


def examples(browser, program, most):
    """Examples of which the two programs answer otherwise."""
    for n, example in enumerate(list(live.examples())[:most]):
        browser.evaluate(f"document.getElementById('example').value = '{n}', document.getElementById('example').onchange(), 0")
        time.sleep(0.2)
        if settle(browser) != "shown":
            yield f"{example['name']}: {browser.evaluate('document.getElementById(`said`).textContent')}"
            continue
        wanted = native(program, example)
        found = browser.evaluate("window.answers")
        for name in ANSWERS:
            if found[name] != as_lists(wanted[name]):
                yield f"{example['name']}: {name} differs: {str(found[name])[:200]!r}, wanted {str(wanted[name])[:200]!r}"
        yield None


def refusals(browser):
    for source, values, temporary, line, marked, sentence in REFUSALS:
        state = write(browser, source, values, temporary)
        said = browser.evaluate("document.getElementById('said').textContent")
        mark = browser.evaluate("[...document.querySelectorAll('#editor mark')].map((it) => it.textContent).join()")
        if state != "refused" or line not in said or sentence not in said:
            yield f"{source} with {values}: {state}, {said!r}, wanted {line} and {sentence!r}"
        if mark != marked:
            yield f"{source} with {values}: {mark!r} is marked, wanted {marked!r}"
        if browser.evaluate("document.getElementById('controls').getClientRects().length"):
            yield f"{source}: a run is shown beside a refusal"


def address(browser, path):
    """Whether the address holds a program and a moment."""
    write(browser, SOURCE.format("(mg-integer-add x x x)"), "((x 21))", 100)
    held = browser.evaluate("location.hash").replace("#0~", "#5~")
    browser.open(f"{path.as_uri()}{held}")
    settle(browser)
    found = browser.evaluate("[document.getElementById('text').value, document.getElementById('count-machine').textContent, window.answers.run]")
    if found != [SOURCE.format("(mg-integer-add x x x)"), "5", found[2]] or "x = 42" not in found[2]:
        yield f"from the address came {found}"


def stops(browser):
    """Whether Stop ends a run that is endless."""
    browser.evaluate("document.getElementById('budget').value = '1099511627776'")
    browser.evaluate(f"document.getElementById('text').value = {SOURCE.format('(loop (no-op))')!r}")
    browser.evaluate("document.getElementById('go').click()")
    time.sleep(2)
    browser.evaluate("document.getElementById('stop').click()")
    said = browser.evaluate("document.getElementById('said').textContent")
    if said != "Stopped." or browser.evaluate("document.getElementById('go').disabled"):
        yield f"after Stop it says {said!r}"


def eye(browser):
    for dark in (False, True):
        browser.window(1400, 900, dark)
        ratio, text = browser.evaluate(LEAST_CONTRAST)
        if ratio < CONTRAST:
            yield f"{'dark' if dark else 'light'}: the contrast of `{text}` is {ratio:.2f}"
    browser.window(NARROW, 800)
    if browser.evaluate("document.documentElement.scrollWidth") > NARROW:
        yield f"a page of {NARROW} pixels is {browser.evaluate('document.documentElement.scrollWidth')} wide"
    browser.window(1400, 900)


def tried(browser, words):
    path = words.page.resolve()
    browser.open(path.as_uri())
    settle(browser)
    yield from examples(browser, words.program, words.examples)
    yield from refusals(browser)
    yield from address(browser, path)
    if isinstance(browser, Chromium):
        yield from eye(browser)
        yield from browser.complaints()
    yield from stops(browser)


def main():
    parser = parser_of(__doc__)
    parser.add_argument("page", type=file, help="the page with the program, as guide/live.py writes it")
    parser.add_argument("program", type=executable, help="cli_stack")
    parser.add_argument("--browser", choices=["chromium", "firefox"], help="only this one")
    parser.add_argument("--examples", type=int, default=99, help="how many examples are compared")
    words = parser.parse_args()
    kinds = {"chromium": Chromium, "firefox": Firefox}
    chosen = [it for name, it in kinds.items() if it.path() and words.browser in (None, name)]
    failed = not chosen
    for kind in chosen:
        with kind() as browser:
            found = list(tried(browser, words))
        differing = [it for it in found if it]
        for it in differing:
            print(f"{kind.__name__}: {it}")
        print(f"{kind.__name__}: {found.count(None)} examples compared, {len(REFUSALS)} refusals, the address, Stop; {len(differing)} differed")
        failed = failed or bool(differing)
    if not chosen:
        print("live: there is no Chromium and no Firefox (Debian: apt-get install chromium firefox-esr)")
    return 1 if failed else 0


if __name__ == "__main__":
    sys.exit(main())
