"""What the documents say of words of the languages, for whoever points at one: no sentence on them is written here."""
import re
from functools import cache

from catalog import GUIDE

PREDEFINED = re.compile(r"^\| (`mg-[^|]*) \| (`[^|]*) \| ([^|]*) \| ([^|]*) \| ([^|]*?) ?\|$", re.M)
PREDEFINED_PRICE = re.compile(r"^- ((?:`mg-[a-z-]+`(?:, )?)+): (.*)$", re.M)
FORM_PRICE = re.compile(r"^- ((?:a round of )?`\(([a-z-]+)[^`]*\)`[^:]*): (.*)$", re.M)
OPERATION = re.compile(r"^- (`[a-z][^:]*): (.*)$", re.M)
MACHINE_OPERATION = re.compile(r"^- \d+ `([A-Z0-9]+)`: (.*)$", re.M)
CODE = re.compile(r"^\| ([^|]*`[^|]*) \| (`[^|]*`|the same[^|]*) \| ([^|]*) \|$", re.M)


@cache
def page(name):
    return (GUIDE.parent / "docs" / name).read_text(encoding="utf-8")


def part(name, head):
    """What stands under a heading of a page, up to the next one that isn't lower."""
    level = head.split()[0]
    _, found, rest = page(name).partition(f"\n{head}\n")
    return re.split(rf"^#{{1,{len(level)}}} ", rest, maxsplit=1, flags=re.M)[0] if found else ""


@cache
def predefined():
    """Of each predefined procedure what it takes, which arguments are literals, what it does and where it fails."""
    rows = {}
    for names, takes, literals, does, fails in PREDEFINED.findall(page("languages/gypsy.md")):
        said = does.split(", ")
        for number, name in enumerate(re.findall(r"`(mg-[a-z-]+)`", names)):
            rows[name] = (takes, literals, said[number] if len(said) > 1 and names.count("`mg-") > 1 else does, fails)
    return rows


@cache
def prices():
    """What a statement costs, by its first word, in the sentences of docs/proved/meaning.md: instructions first, then steps of Piton."""
    found = {}
    for names, price in PREDEFINED_PRICE.findall(part("proved/meaning.md", "### Predefined calls")):
        found |= {name: [price] for name in re.findall(r"`(mg-[a-z-]+)`", names)}
    for said, head, price in FORM_PRICE.findall(part("proved/meaning.md", "## What a run costs")):
        found.setdefault(head, []).append(f"{said}: {price}")
    for head, price in re.findall(r"^- `\((no-op|signal)[^`]*\)` \(([^)]*)\)", page("proved/meaning.md"), re.M):
        found.setdefault(head, []).insert(0, price)
    return found


@cache
def templates():
    """The Piton that a statement becomes, by its first word: the blocks of docs/proved/generated.md."""
    found = {}
    code = part("proved/generated.md", "## The code of each statement").split("\n### ")[0]
    for block in re.findall(r"^```text\n(.*?)^```$", code, re.M | re.S):
        for text in re.split(r"\n\n(?=\S)", block):
            head = re.match(r"\(([a-zA-Z-]+)", text)
            if head:
                found["mg-" if head[1] == "R" else head[1]] = text.rstrip()
    return found


@cache
def meanings():
    """What a statement gives, by its first word: the list of docs/languages/gypsy.md."""
    rows = part("languages/gypsy.md", "## Meaning").split("\n- ")
    return {head: row.split("\n\n")[0] for row in rows for head in re.findall(r"`\(([a-z-]+)[ )]", row.split(" give")[0].split(":")[0])}


@cache
def operations():
    """What an instruction of Piton does, by its name."""
    found = {}
    for said, does in OPERATION.findall(part("languages/piton.md", "## The word operations")):
        found |= {name: f"{said}: {does}" for name in re.findall(r"`([a-z][a-z0-9*-]+)`", said)}
    for said, does in OPERATION.findall(part("languages/piton.md", "## The machine")):
        found |= {name.split()[0]: f"{said}: {does}" for name in re.findall(r"`([^`]+)`", said) if name[:4] != "test"}
        for name in re.findall(r"\b(?:test-[a-z]+-and-jump)", said):
            found |= {name.replace("nat", sort): f"{said}: {does}" for sort in ("nat", "int", "bool", "bitv")}
    return {name: said for name, said in found.items() if name in codes()}


@cache
def codes():
    """The code of an instruction of Piton, by its name: how it is written, and how many words it has; of `jump-case` those before its table."""
    found, words = {}, 0
    for names, code, row in CODE.findall(part("languages/fm9001.md", "## The code of Piton's instructions")):
        words = words if row.startswith("the same") else len(row.split())
        for name in re.findall(r"`([a-z][a-z0-9*-]*)`", names):
            found[name] = (code.strip("`"), words)
    for sort in ("nat", "int", "bool", "bitv"):
        found[f"test-{sort}-and-jump"] = found["zero"]
    return found


@cache
def machine_operations():
    """What an operation of the processor gives, by its name."""
    return dict(MACHINE_OPERATION.findall(part("languages/fm9001.md", "## Operations")))


@cache
def store_conditions():
    return dict(re.findall(r"\d+ `([a-z]{2})` ([^;\n]*?)(?=[;.]|$)", part("languages/fm9001.md", "## Store conditions"), re.M))


@cache
def directives():
    return dict(re.findall(r"^- `(\.[a-z]+) [A-Z]`: (.*)$", page("languages/asm.md"), re.M))
