"""Where a definition of the kit stands, by the imports from a page on."""
import json
import os
import re
from functools import cache
from pathlib import Path

from imports import names_in

KIT = Path(os.environ.get("RATTLE_KIT", "/opt/rattle")) / "rattle"
IMPORT = re.compile(r"(?:unfoldable )?(?:pub )?use ([\w.]+?)\.?(\{.*\})$")
MARKS = r"(?:(?:pub|abbrev|unfoldable|pattern|data|record|axiom) )*"


@cache
def imports_of(path):
    """What a page imports and passes on: the module and the name there, by the name here."""
    found = {}
    for line in path.read_text().split("\n"):
        imported = IMPORT.match(line)
        for module, name in names_in(imported[1], imported[2]) if imported else []:
            there, _, here = name.partition(" as ")
            found[here or there] = module, there
    return found


@cache
def mounts(folder):
    """The folders of the logic's libraries, by the name under which a page imports from them."""
    path = folder / "antt-project.json"
    named = json.loads(path.read_text()).get("mounts", {}) if path.is_file() else {}
    return {name: (folder / there).resolve() for name, there in named.items()}


def page_at(module):
    """The file of a module: of a crate's definitions, or of the logic, of which a folder may have its files in `src`."""
    first, *rest = module.split(".")
    if first == "Rattle":
        crate, kind, *page = rest
        path = (KIT / crate / kind).joinpath(*page).with_suffix(".antt")
        passed_on = re.search(rf"^pub use (Rattle\..*\.{page[0]})$", (KIT / crate / kind / "Lib.antt").read_text(), re.M) if not path.is_file() else None
        return page_at(".".join([passed_on[1], *page[1:]])) if passed_on else path
    folder = {"std": KIT / "antt/lib"}.get(first) or mounts(KIT / "logic").get(first)
    if folder is None:
        return None
    paths = [top.joinpath(*rest).with_suffix(".antt") for top in (folder, folder / "src")]
    return next((it for it in paths if it.is_file()), None)


def place_of(crate, page, name):
    """The file and the line of the kit where a name is defined, or none."""
    return found_in(f"Rattle.{crate}.specs.{page}", name)


def found_in(module, name):
    if module.startswith("Prim."):
        return f"{module}, which is built in"
    declared = re.match(r"Rattle\.(\w+)\.specs\.declared\.[\w.]*?([A-Z]\w*)", module)
    if declared:
        return type_at(KIT / declared[1] / "src", declared[2])
    path = page_at(module)
    if path is None or not path.is_file():
        return None
    if name in imports_of(path):
        return found_in(*imports_of(path)[name])
    shape = re.compile(rf"\s*{MARKS}(?:\w+ )*{re.escape(name)}(?: \w+)*(?: \{{[^}}]*\}})?(?: \([^)]*\)| \{{[^}}]*\}})* :")
    number = next((number for number, line in enumerate(path.read_text().split("\n"), 1) if shape.match(line)), None)
    return f"{path.relative_to(KIT)}:{number}" if number else None


def type_at(folder, name):
    """The file and the line of an enum or a struct of the kit's code."""
    for path in sorted(folder.rglob("*.rt")):
        for number, line in enumerate(path.read_text().split("\n"), 1):
            if re.match(rf"\s*pub (enum|struct) {name}\b", line):
                return f"{path.relative_to(KIT)}:{number}"
    return None
