#!/usr/bin/env python3
"""Tries the pages that guide/page.py writes, in a Chromium without a window: what a page shows at a moment is what the program says of it, asked anew.

    python3 .ci/tools/page_rows.py PROGRAM

Tried are also: that the keyboard is enough, that text has contrast enough in light and in dark, that a narrow page doesn't scroll sideways, that no
script complains, that a page whose answers don't fit one another shows nothing, and that a page of 3,000 moments takes at most ten seconds of a
processor. Prints a line for each difference, and how much was compared. Where there is no Chromium the pages are written, and nothing is compared.
The exit status is 1 where something differed.
"""
import base64
import gzip
import json
import os
import re
import subprocess
import sys
import tempfile
from pathlib import Path

sys.path.append(str(Path(__file__).resolve().parents[2] / "tools"))

from arguments import parser_of  # noqa: E402
from arguments import program as executable  # noqa: E402
from browsers import Chromium  # noqa: E402

sys.path.append(str(Path(__file__).resolve().parents[2] / "guide"))

from definitions_of import tree_of  # noqa: E402

TOP = Path(__file__).resolve().parent.parent.parent
EXAMPLES = TOP / "examples"
# A source, its values, the sizes of the two stacks, the budget, and the moments at which the page is looked at.
RUNS = [
    ("first/seven.gypsy", "first/nine.values", 7, 3, 1000, [0, 5, 23, 28]),
    ("calls/down.gypsy", "calls/down.values", 24, 10, 1000, [77, 146, 186, 423]),
    ("conditions/count.gypsy", "conditions/count.values", 13, 5, 1000, [109, 199, 226]),
    ("arrays/sum.gypsy", "arrays/sum.values", 15, 14, 300, [184, 300]),
    ("infix/gcd.mini", "infix/gcd.values", 200, 200, 500, [0, 251, 500]),
]
# A run of more than the 3,000 moments that a page has, and the most seconds of a processor that its page takes.
LARGE, MOST_SECONDS = ("arrays/sort.gypsy", "arrays/sort.values", 100, 100, 100_000), 10
# The statement of the infix program at these moments.
INFIX = {0: "", 251: "y := y - x;", 500: "while not (x = y)"}
CONTRAST = 4.5
NARROW = 360

# What stands on the page: texts of elements with an id, the rows of tables, and what is marked as current.
SHOWN = """(() => {
  const text = (it) => [...it.childNodes].filter((part) => part.className !== "alias").map((part) => part.textContent).join("");
  const rows = (id) => [...document.getElementById(id).rows].map((row) => [...row.cells].map(text));
  const texts = Object.fromEntries([...document.querySelectorAll("[id]")].map((it) => [it.id, text(it)]));
  texts["piton-stack"] = [...document.getElementById("piton-stack").children].map(text).join(" ");
  const aliases = (id) => [...document.querySelectorAll(`#${id} tr`)].map((row) => row.querySelector(".alias")?.textContent ?? "");
  const lines = [...document.querySelectorAll("#source .line")].map((it) => it.dataset.line);
  return { texts, lines, waiting: rows("waiting"), aliases: aliases("variables"), lent: aliases("waiting"), variables: rows("variables"), locals: rows("locals"), temporary: rows("temporary"), control: rows("control"),
    now: [...document.querySelectorAll(".now")].map((it) => it.id || it.dataset.place),
    infix: text(document.querySelector("#infix .now") ?? document.createElement("i")) };
})()"""
# The least contrast of a text with what is behind it, and that text. What can't be used just now may be pale.
LEAST_CONTRAST = """(() => {
  const numbers = (color) => color.match(/[\\d.]+/g).map(Number);
  const part = (it) => (it / 255 <= 0.04045 ? it / 255 / 12.92 : ((it / 255 + 0.055) / 1.055) ** 2.4);
  const light = ([r, g, b]) => 0.2126 * part(r) + 0.7152 * part(g) + 0.0722 * part(b);
  const behind = (it) => {
    for (; it; it = it.parentElement) {
      const color = numbers(getComputedStyle(it).backgroundColor);
      if (color.length === 3 || color[3] > 0) return color;
    }
    return [255, 255, 255];
  };
  let least = [99, ""];
  for (const it of document.body.querySelectorAll("*")) {
    const own = [...it.childNodes].some((node) => node.nodeType === 3 && node.data.trim());
    if (!own || it.closest("script, option, :disabled, .hidden, [hidden], [aria-hidden]") || !it.getClientRects().length) continue;
    const [a, b] = [light(numbers(getComputedStyle(it).color)), light(behind(it))].sort((x, y) => y - x);
    const ratio = (a + 0.05) / (b + 0.05);
    if (ratio < least[0]) least = [ratio, `${it.tagName} ${it.className} ${it.textContent.slice(0, 40)}`];
  }
  return least;
})()"""
# Changes of single answers that no page may pass over: the name of the answer, what is replaced, and what by. After 186 instructions all levels stand
# between two of their steps.
CHANGES = [
    ("fm9001", r"(count 186\nr0 [0-9a-f]{7}).", r"\g<1>7"),
    ("fm9001", r"(count 186\n(?:r.*\n){15}r15 [0-9a-f]{7}).", r"\g<1>f"),
    ("piton", r"(at p 0 frames 3\n(?:.*\n)*?stack.*)\(int 1\)", r"\g<1>(int 2)"),
    ("piton", r"(at p 0 frames 3\nb = \(nat )3", r"\g<1>2"),
    ("gypsy", r"(at 213 depth 2\ncondition normal\nn = )1", r"\g<1>2"),
    ("run", r"finished 423", r"finished 424"),
    ("memory", None, None),
]


class Program:
    """The built program, asked of one run."""

    def __init__(self, program, source, values, *sizes):
        self.words = [program, "debug"], [str(source), str(values), *map(str, sizes), "/dev/stdin"]

    def says(self, level, script):
        before, after = self.words
        return subprocess.run([*before, level, *after], input=script, capture_output=True, text=True, check=True).stdout.splitlines()

    def cost(self, level, steps):
        return int(self.says(level, f"attach cost\nstep {steps}\ndetach cost\n")[-1].split()[1])

    def steps_at(self, level, count):
        """How many steps the level has made by a count of instructions: the most that cost no more; and what they cost."""
        low, high = 0, count
        while low < high:
            middle = (low + high + 1) // 2
            if self.cost(level, middle) <= count:
                low = middle
            else:
                high = middle - 1
        made = int(self.says(level, f"attach count\nstep {low}\ndetach count\n")[-1].split()[1])
        return made, self.cost(level, made)

    def shows(self, level, steps):
        return self.says(level, f"step {steps}\nshow\n")[1:]


def pairs(lines):
    return [it.split(" = ", 1) for it in lines]


def stack_words(stack):
    """The words of a stack of Piton, the top first, in hexadecimal digits."""
    number = {"t": 1, "f": 0}
    words = [number[value] if tag == "bool" else int(value) for tag, value in re.findall(r"\((\w+) (\S+?)\)", stack)]
    return [f"{it % 2 ** 32:08x}" for it in reversed(words)]


def wanted(program, count, source):
    """What a page has to show at a count of instructions of a source's run."""
    made, at = program.steps_at("gypsy", count)
    steps, piton_at = program.steps_at("piton", count)
    first, condition, *variables = program.shows("gypsy", made)
    head, *piton = program.shows("piton", steps)
    _, *registers, flags = program.shows("fm9001", count)
    stack = next(n for n, it in enumerate(piton) if re.match(r"stack( \(|$)", it))
    place = re.fullmatch(r"at (\d+) depth (\d+)", first)
    where = re.fullmatch(r"at (\S+ \d+) frames (\d+)", head)
    texts = {
        "count-source": f"{made:,}", "count-piton": f"{steps:,}", "count-machine": f"{count:,}",
        "condition": condition.removeprefix("condition "), "depth": place[2] if place else "none",
        "piton-now": where[1] if where else "halted", "piton-stack": piton[stack][6:],
        "flags": flags.removeprefix("flags "), **dict(it.split() for it in registers),
    }
    return {
        "source": source, "activations": activations(program, source, made), "texts": texts, "variables": pairs(variables), "locals": pairs(piton[:stack]), "place": place and place[1], "is mark": at == count,
        "temporary": stack_words(piton[stack]) if piton_at == count else None, "frames": int(where[2]) if where else 0,
    }


def activations(program, source, steps):
    """The activations after so many steps of a source, the newest first, each as its name, its variables and whose each is: from what `show` says of the
    active one at each moment, and from the calls in the text."""
    tree = tree_of(source)
    heads = {proc[1][1][1]: proc for proc in tree[1][2:]}
    calls = {items[0]: items[1] for items in lists_in(tree)}
    moments = "\n".join(program.says("gypsy", "show\n" + "step 1\nshow\n" * steps)) + "\n"
    stack, place = [], None
    for block in re.split(r"^stepped .*\n", moments, flags=re.M):
        first, _, *variables = block.splitlines()
        at = re.fullmatch(r"at (\d+) depth (\d+)", first)
        if not at:
            return []
        if int(at[2]) > len(stack):
            called = calls[place][1][1] if stack else tree[1][1][1]
            formals = [it[1][0][1] for it in heads[called][1][2][1]]
            actuals = [it[1] for it in calls[place][2][1]] if stack else []
            stack.append((called, {}, {formal: stack[-1][2].get(actual) or (stack[-1][1], stack[-1][0], actual) for formal, actual in zip(formals, actuals)}))
        del stack[int(at[2]):]
        stack[-1][1].update(pairs(variables))
        _, owned, of = stack[-1]
        for formal, (there, _, name) in of.items():
            there[name] = owned[formal]
        for _, owned, of in stack:
            owned.update({formal: there[name] for formal, (there, _, name) in of.items()})
        place = int(at[1])
    return [(name, owned, {formal: f"{whose}.{it}" for formal, (_, whose, it) in of.items()}) for name, owned, of in reversed(stack)]


def lists_in(tree):
    """Each list of a tree, with where it begins."""
    place, items = tree
    if isinstance(items, list):
        yield place, items
        for it in items:
            yield from lists_in(it)


def of_activations(shown, found):
    """What a page shows otherwise of the activations."""
    if not found:
        if shown["waiting"]:
            yield f"at the end {shown['waiting']} wait"
        return
    lent = [f" → {found[0][2][name]}" if name in found[0][2] else "" for name, _ in shown["variables"]]
    if shown["aliases"] != lent:
        yield f"the variables are {shown['aliases']}, wanted {lent}"
    rows = [row for name, owned, of in found[1:] for row in [[name], *([it, value] for it, value in owned.items())]]
    whose = [it for _, owned, of in found[1:] for it in ["", *(f" → {of[name]}" if name in of else "" for name in owned)]]
    if shown["waiting"] != rows or shown["lent"] != whose:
        yield f"there wait {shown['waiting']} {shown['lent']}, wanted {rows} {whose}"


def differences(shown, told, is_infix):
    """What a page shows otherwise at a moment than the program says, in lines."""
    if not is_infix:
        yield from of_activations(shown, told["activations"])
    if shown["lines"] != [str(it + 1) for it in range(len(told["source"].splitlines()))]:
        yield f"the lines have the numbers {shown['lines']}"
    for name, text in told["texts"].items():
        if shown["texts"].get(name) != text:
            yield f"{name} is {shown['texts'].get(name)!r}, wanted {text!r}"
    for name in ("variables", "locals"):
        # Of a lowered source the temporaries that it doesn't use aren't shown.
        rows = [row for row in told[name] if not is_infix or "$" not in row[0] or row in shown[name]]
        if shown[name] != rows:
            yield f"{name} are {shown[name]}, wanted {rows}"
    if told["place"] and (told["place"] not in shown["now"] or f"w{int(told['texts']['r15'], 16)}" not in shown["now"]):
        yield f"marked is {shown['now']}, wanted the statement at {told['place']} and the word at {told['texts']['r15']}"
    if is_infix and shown["infix"] != INFIX[int(told["texts"]["count-machine"].replace(",", ""))]:
        yield f"of the infix program `{shown['infix']}` is marked"
    if shown["texts"]["mark"].startswith("At ") != told["is mark"]:
        yield f"mark is {shown['texts']['mark']!r}"
    if told["temporary"] is not None and [row[1] for row in shown["temporary"] if len(row) > 1] != told["temporary"]:
        yield f"the temporary stack is {shown['temporary']}, wanted {told['temporary']}"
    frames = sum(row[-1].startswith("frame of ") for row in shown["control"])
    if told["temporary"] is not None and frames != told["frames"]:
        yield f"the control stack has {frames} frames, wanted {told['frames']}"


def opened(browser, path, state="shown", at=""):
    browser.open(f"{path.as_uri()}{at}")
    browser.wait_until("['shown', 'refused'].includes(document.body.dataset.state)")
    found = browser.evaluate("document.body.dataset.state")
    if found != state:
        yield f"the page is {found}, wanted {state}: {browser.evaluate('document.getElementById(`outcome`).textContent')}"
    yield from browser.complaints()


def text_of(browser, name):
    return browser.evaluate(f"document.getElementById('{name}').textContent")


def by_keys(browser):
    """What the keyboard does otherwise than it should, on the page of `down`, opened after 146 instructions."""
    steps = [
        ("Home", "count-machine", "0"), ("ArrowRight", "count-source", "1"), ("2", "count-source", "1"), ("ArrowRight", "count-piton", None),
        ("3", "count-source", "1"), ("End", "count-machine", "423"), ("ArrowLeft", "count-machine", "422"), ("ArrowRight", "count-machine", "423"),
    ]
    for key, name, text in steps:
        before = text_of(browser, name)
        browser.key(key)
        after = text_of(browser, name)
        if after != text and not (text is None and after != before):
            yield f"after the key {key} {name} is {after}, wanted {text or 'another'}"
    for _ in range(40):
        browser.key("Tab")
        if browser.evaluate("document.activeElement.className") == "pick":
            break
    pressed = "document.querySelectorAll('.pick[aria-pressed=true]').length"
    for key, count in (("Enter", 1), ("Escape", 0), (" ", 1), ("Escape", 0)):
        browser.key(key)
        if browser.evaluate(pressed) != count:
            yield f"after the keys Tab and {key!r} {browser.evaluate(pressed)} statements are picked, wanted {count}"
    if browser.evaluate("getComputedStyle(document.activeElement).outlineStyle") == "none":
        yield "what has the focus isn't seen"


def by_eye(browser):
    """Where contrast is too low, or a narrow page scrolls sideways."""
    for dark in (False, True):
        browser.window(1280, 900, dark)
        browser.evaluate("document.querySelectorAll('details').forEach((it) => { it.open = true; })")
        ratio, text = browser.evaluate(LEAST_CONTRAST)
        if ratio < CONTRAST:
            yield f"{'dark' if dark else 'light'}: the contrast of `{text}` is {ratio:.2f}, wanted {CONTRAST}"
    browser.window(NARROW, 800)
    width = browser.evaluate("document.documentElement.scrollWidth")
    if width > NARROW:
        yield f"a page of {NARROW} pixels is {width} wide"
    browser.window(1280, 900)


DATA = re.compile(r'(<script type="text/plain" id="data">)(.*?)(</script>)', re.S)


def changed(path, name, pattern, by):
    """Changes one answer in a page."""
    page = path.read_text(encoding="utf-8")
    answers = json.loads(gzip.decompress(base64.b64decode(DATA.search(page)[2])))
    if name == "memory":
        last = max(it for it in answers["memory"] if it[0] <= 186)
        last[1] = re.sub(r"([0-9a-f]{8})\n$", lambda it: f"{int(it[1], 16) ^ 1:08x}\n", last[1])
    else:
        found = re.subn(pattern, by, answers[name], count=1)
        if found[1] != 1 or found[0] == answers[name]:
            raise SystemExit(f"page: the change of {name} by {pattern} changes nothing")
        answers[name] = found[0]
    data = base64.b64encode(gzip.compress(json.dumps(answers).encode())).decode()
    path.write_text(DATA.sub(lambda it: it[1] + data + it[3], page), encoding="utf-8")


def faults(browser, path):
    """Pages with a changed answer that show something nevertheless."""
    page = path.read_text(encoding="utf-8")
    for name, pattern, by in CHANGES:
        path.write_text(page, encoding="utf-8")
        changed(path, name, pattern, by)
        for it in opened(browser, path, "refused"):
            yield f"with a change of {name}, {pattern}: {it}"
        if browser.evaluate("document.getElementById('shown').checkVisibility()"):
            yield f"with a change of {name} there is something to be seen"
    path.write_text(page, encoding="utf-8")


def write_page(program, path, source, values, *sizes):
    words = [EXAMPLES / source, EXAMPLES / values, *sizes, path]
    subprocess.run([sys.executable, TOP / "guide/page.py", program, *map(str, words)], check=True, capture_output=True)


def compare(program, browser, path):
    """Compares all pages. Yields a line for each difference, and None for each moment that was compared."""
    for source, values, control, temporary, budget, moments in RUNS:
        write_page(program, path, source, values, control, temporary, budget)
        wrong = list(opened(browser, path, at="#1"))
        if wrong:
            yield from (f"{source}: {it}" for it in wrong)
            continue
        asked_source = EXAMPLES / source
        if source.endswith(".mini"):
            asked_source = path.with_suffix(".gypsy")
            subprocess.run([program, "mini", EXAMPLES / source, asked_source], check=True, capture_output=True)
        asked = Program(program, asked_source, EXAMPLES / values, control, temporary)
        for count in moments:
            browser.evaluate(f"location.hash = '#{count}'")
            browser.wait_until(f"document.getElementById('moment').value === '{count}'")
            shown = browser.evaluate(SHOWN)
            yield from (f"{source} after {count} instructions: {it}" for it in differences(shown, wanted(asked, count, asked_source.read_text()), source.endswith(".mini")))
            yield None
        yield from (f"{source}: {it}" for it in by_eye(browser))
        if source == "calls/down.gypsy":
            yield from (f"{source}: {it}" for it in opened(browser, path, at="#146"))
            yield from (f"{source}: {it}" for it in by_keys(browser))
            yield from (f"{source}: {it}" for it in faults(browser, path))


def write_large(program, path):
    """Writes the page of many moments, and says what it took, in seconds of a processor."""
    before = os.times()
    write_page(program, path, *LARGE)
    after = os.times()
    took = after.children_user + after.children_system - before.children_user - before.children_system
    print(f"pages: one of 3,000 moments took {took:.1f} s of a processor, at most {MOST_SECONDS}")
    return took <= MOST_SECONDS


def main():
    parser = parser_of(__doc__)
    parser.add_argument("program", type=executable, help="cli_stack")
    program = parser.parse_args().program
    with tempfile.TemporaryDirectory() as room:
        path = Path(room) / "page.html"
        is_quick = write_large(program, path)
        if not Chromium.path():
            for run in RUNS:
                write_page(program, path, *run[:5])
            print(f"pages: {len(RUNS)} were written. There is no Chromium (Debian: apt-get install chromium), so nothing was compared")
            return 0 if is_quick else 1
        with Chromium() as browser:
            found = [f"{LARGE[0]}: {it}" for it in opened(browser, path)]
            found += compare(program, browser, path)
    differing = [it for it in found if it]
    for it in differing:
        print(it)
    print(f"pages: {found.count(None)} moments of {len(RUNS)} runs compared in a browser, with keys, contrast, width and {len(CHANGES)} changed answers; {len(differing)} differed")
    return 1 if differing or not is_quick else 0


if __name__ == "__main__":
    sys.exit(main())
