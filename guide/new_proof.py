#!/usr/bin/env python3
"""Writes the crate of a new verified program over a source: all its files, with `?` where what you say and prove of the program goes.

    python3 guide/new_proof.py FILE.gypsy NAME [--statement NAME] [--law NAME]

writes crates/NAME and its line in crates.txt. NAME stands before the definitions, as guide/definitions_of.py prints them. The rest has a specification
with a clause for all values, the law, and the proof with its imports: among these are the rules of the statements that the source has. The file must be
a source that `./stack need` takes. docs/proved/verifying.md says what belongs at each `?`.
"""
import re
import subprocess
import sys
import tempfile
from collections import namedtuple
from pathlib import Path

import definitions_of as definitions
from definitions_of import SIMPLE, TOP, chain, tree_of
from imports import DEFINITIONS, PROOFS, apart, grouped
from arguments import file, parser_of

# The rules of each form of a statement, and of each predefined procedure.
RULES = {
    "no-op": ["no_op_rule"], "signal": ["signal_rule"], "seq": ["seq_rule", "skip_rule"], "if": ["if_true", "if_false"], "begin": ["begin_rule"],
    "call": ["meets_rule", "given_rule"], "loop": ["counting_rule", "loop_over"],
}
PREDEFINED = {
    "mg-simple-variable-assignment": ["assign_rule"], "mg-simple-constant-assignment": ["constant_rule"], "mg-simple-variable-eq": ["equal_rule"],
    "mg-simple-constant-eq": ["equal_constant_rule"], "mg-integer-le": ["at_most_rule"], "mg-integer-unary-minus": ["negate_rule", "negate_fails"],
    "mg-integer-add": ["add_rule", "add_fails"], "mg-integer-subtract": ["subtract_rule", "subtract_fails"],
    "mg-integer-multiply": ["multiply_rule", "multiply_fails"], "mg-boolean-or": ["or_rule"], "mg-boolean-and": ["and_rule"],
    "mg-boolean-not": ["not_rule"], "mg-index-array": ["index_rule", "index_fails"], "mg-array-element-assignment": ["store_rule", "store_fails"],
}
# Where the names of the pages come from; a page imports those that it has.
SPEC_IMPORTS = """
use Rattle.std.specs.Prelude.{◌≡◌, ℤ, List, [], ◌∷◌, map, Bool, true, Some, codes}
use Rattle.stack_text.specs.{declared.shape.Kind.TheVariants.{Integer, Boolean, Character}, Values.{ValueOf}}
use Rattle.fm_image.specs.Image.{ImageOf}
use Rattle.display_maps.specs.{declared.shown.Shown.{Shown}, declared.shown.Shown.TheVariants.{Normal, Named, Number, Truth}}
use Rattle.display_maps.specs.{Reading.{ReadingOf}, ValueReading.{value_shown}}
use Rattle.gypsy_syntax.specs.{Ranges.{is_in_range}, Effects.{integer_value, truth_value}, Programs.{simple}, ValuesFit.{ValueFits}}
use Rattle.program_images.specs.Shows.{Shows}
"""
PROOF_IMPORTS = """
use Rattle.std.{proofs.Common.{◌≡◌, ℕ, ◌≤◌, List, [], ◌∷◌, Bool, true, refl, arith}, specs.Prelude.{ℤ}}
use Rattle.stack_text.{specs.declared.shape.Kind.TheVariants.{Integer}, specs.Values.{ValueOf}}
use Rattle.gypsy_syntax.{specs.Ranges.is_in_range, specs.Programs.{proc_at}, specs.Effects.{integer_value, truth_value}, specs.ValuesFit.{ValueFits, VarsFit}}
use Rattle.gypsy_space.specs.Needs.{StackSizes, stack_sizes, main_used, with_call, call_need, has_room}
use Rattle.gypsy_logic.{specs.Ends.{Meets, Given, Gives, AnyRoom, Means, Is}, proofs.Rules.{◌▸◌, skip_rule, no_op_rule, signal_rule, seq_rule}}
use Rattle.gypsy_logic.proofs.Rules.{if_true, if_false, begin_rule, loop_over, meets_rule, given_rule, main_rule, room_is}
use Rattle.gypsy_logic.{proofs.LoopRules.counting_rule, proofs.NumberFacts.number_fits, proofs.PredefinedRules.{PREDEFINED}}
use Rattle.gypsy_semantics.proofs.EffectLaws.{truth_fits}
use Rattle.fm_image.specs.Image.{ImageOf}
use Rattle.stack_build.specs.Build.{BuiltOf, BuildsText}
use Rattle.program_images.{proofs.ImageRules.{shown_in, built_text}, specs.TextPrograms.ImplementsText}
""".replace("PREDEFINED", ", ".join(rule for rules in PREDEFINED.values() for rule in rules))
TEXT_LAWS = """-- The program of the text, with the names of main's formals and its conditions, by computing.
use Rattle.std.{{proofs.Common.{{[], ◌∷◌, refl}}, specs.Prelude.codes}}
use Rattle.stack_text.{{specs.Names.place_among, specs.Tokens.tokens, specs.TreeIn.{{tree_in, items_of}}}}
use Rattle.gypsy_syntax.specs.Keywords.{{form_named, keyword_name, predef_named}}
use Rattle.stack_build.specs.Formals.{{main_of}}
use Rattle.program_images.specs.TextPrograms.{{source_of_text, IsText}}
use Rattle.{crate}.specs.{page}Text.{{{name}_text, {name}_program}}

pub {name}_is_text : IsText {name}_text {name}_program {names} {conditions}
unfolding {name}_text source_of_text tokens tree_in items_of form_named keyword_name predef_named place_among main_of
{name}_is_text = record {{ reads = refl; resolves = refl; names_are = refl; conditions_are = refl }}
"""
LAWS = """//! What the images of `{file}` do. The function does nothing: its clauses hold of all
//! images that implement the text, such as one in a file that `go` stored, and so of all that `build` makes of the text.

ghost use Rattle.std.specs.Prelude.{{ℕ, ◌≤◌}};
ghost use Rattle.fm_image.specs.Image.{{ImageOf}};
ghost use Rattle.gypsy_space.specs.Needs.{{stack_sizes}};
ghost use Rattle.stack_build.specs.Build.{{BuiltOf, BuildsText}};
ghost use Rattle.program_images.specs.TextPrograms.{{ImplementsText}};
ghost use Rattle.{crate}.specs.{{{page}.{{{statement}}}, {page}Text.{{{name}_text}}}};

/// `{file}` does what `{statement}` says{if_room}.
pub fn {law}()
    ensures image {{ (ctrl temp : ℕ) (image : ImageOf) → {premises}
        ImplementsText {name}_text (stack_sizes ctrl temp) image → {statement} image }}
    ensures built {{ (ctrl temp : ℕ) (built : BuiltOf) → {premises}{break_built}BuildsText {name}_text ctrl temp built →
        {statement} built.image }}
{{}}
"""
LIB = """//! A program that is proved to meet its specification.
#![tactic(auto)]

mod laws;

pub use laws::{law};
"""
ANSWERS = """use Rattle.{crate}.proofs.{page}Laws.{{{name}_image, {name}_built}}
use Rattle.{crate}.proofs.laws.{law}.Goals as goal

pub returns-clause-image : goal.returns-clause-image
returns-clause-image c = {name}_image

pub returns-clause-built : goal.returns-clause-built
returns-clause-built c = {name}_built
"""
# Words that no variable of a proof can have as its name here.
TAKEN = set("abbrev built c codes condition ctrl data do elim h image implements import in infix let map module mutual pub record refl room rw simp sizes t temp tt u "
            "unfolding use where".split())


class Formal(namedtuple("Formal", "word kind length owner")):
    """A formal of a procedure: how it is written as a variable and as a value. Main's arrays and characters have a definition for that, `OWNER_NAME`;
    those of other procedures are any values."""

    @property
    def name(self):
        name = re.sub(r"\W", "_", self.word)
        return f"{name}_now" if name in TAKEN else name

    @property
    def is_plain(self):
        return self.length is None and self.kind != "character"

    @property
    def type(self):
        if self.is_plain:
            return "ℤ" if self.kind == "integer" else "Bool"
        return "ValueOf" if not self.owner else "ℤ" if self.length is None else "List ℤ"

    @property
    def value(self):
        if self.is_plain:
            return f"{'integer' if self.kind == 'integer' else 'truth'}_value {self.name}"
        return f"{self.owner}_{self.name} {self.name}" if self.owner else self.name

    @property
    def premise(self):
        if self.is_plain:
            return f"is_in_range Integer {self.name} ≡ true" if self.kind == "integer" else None
        return f"ValueFits ({self.value})"

    @property
    def fits(self):
        if self.is_plain:
            return f"number_fits {self.name} {self.name}_fits" if self.kind == "integer" else f"truth_fits {self.name}"
        return f"{self.name}_fits"

    @property
    def shown(self):
        if self.is_plain:
            return f"{'Number' if self.kind == 'integer' else 'Truth'} {self.name} ∷ []"
        return f"map Number {self.name}" if self.kind == "integer" else f"value_shown ({self.value})"

    def definition(self):
        """What a value of main's is, if that takes more than its number or truth."""
        shape = f"simple {SIMPLE[self.kind]}" if self.length is None else f"record {{ kind = {SIMPLE[self.kind]}; length = {self.length} }}"
        name, items = f"{self.owner}_{self.name}", self.name if self.length is not None else f"{self.name} ∷ []"
        return (f"-- {self.word} as a value\nabbrev pub {name} : {self.type} → ValueOf\n"
                f"{name} {self.name} = record {{ shape = {shape}; items = {items} }}\n\n")


def formals_of(proc, owner):
    for _, ((_, word), (_, kind)) in proc[1][2][1]:
        yield Formal(word, kind, None, owner) if isinstance(kind, str) else Formal(word, kind[1][1], int(kind[2][1]), owner)


def statements(tree):
    """The statements in one, each as its first word and the procedure that it calls."""
    head, *rest = tree[1]
    yield head[1], rest[0][1] if head[1] == "call" else None
    for it in {"seq": rest, "loop": rest, "if": rest[1:], "begin": rest[::2]}.get(head[1], []):
        yield from statements(it)


def wrapped(parts, width, pad):
    """The parts of a type, in lines of at most so many characters as far as they can be broken."""
    lines = [""]
    for number, part in enumerate(parts):
        part += " →" if number + 1 < len(parts) else ""
        if lines[-1] and len(lines[-1]) + 1 + len(part) > width:
            lines.append(pad + part)
        else:
            lines[-1] += f" {part}" if lines[-1] else part
    return "\n".join(lines)


def with_imports(head, imports, body, form, *further):
    """A page with the imports of the names that it has, and of the further ones."""
    words, signs = {*re.findall(r"[\w-]+", re.sub(r'codes "[^"]*"', "codes", body)), *further}, set(re.findall(r"[^\w\s(){};,.]+", body))
    kept = []
    for line in apart(imports.strip()).split("\n"):
        name = line[line.index("{") + 1:line.rindex("}")]
        if name in words or (not re.match(r"\w", name) and set(re.sub("◌", " ", name).split()) <= signs):
            kept.append(line)
    return f"{head}\n{grouped(chr(10).join(kept), form)}\n\n{body}"


class Crate:
    """The files of a crate over a source. The needs are what `need` prints of both stacks, and None if the source is recursive."""

    def __init__(self, path, name, needs, statement=None, law=None):
        self.path, self.name, self.crate = path, name, name
        self.page = "".join(part.capitalize() for part in name.split("_"))
        self.statement, self.law = statement or f"Does{self.page}", law or f"{name}_does"
        program = tree_of(path.read_text())
        self.procs = {proc[1][1][1]: proc for proc in program[1][2:]}
        self.main = program[1][1][1]
        self.formals = list(formals_of(self.procs[self.main], name))
        self.calls = {name: list(dict.fromkeys(it for _, it in statements(proc[1][6]) if it)) for name, proc in self.procs.items()}
        self.heads = {head for proc in self.procs.values() for head, _ in statements(proc[1][6])}
        self.control, self.temporary = needs or ("?", "?")
        self.has_calls = bool(self.calls[self.main])

    def number(self, name):
        return list(self.procs).index(name)

    @property
    def premises(self):
        return [f"{self.temporary} ≤ temp", f"{self.control} ≤ ctrl"] if self.has_calls else []

    def binders(self, formals):
        """The variables with their types, those next to each other together."""
        groups = []
        for it in formals:
            if groups and groups[-1][1] == it.type:
                groups[-1][0].append(it.name)
            else:
                groups.append(([it.name], it.type))
        return " ".join(f"({' '.join(names)} : {type})" for names, type in groups)

    def values(self, formals):
        return chain(it.value for it in formals)

    # ---- The specification

    def specification(self):
        name, words = self.name, [it.word for it in self.formals]
        listed = " and ".join(filter(None, [", ".join(["the condition", *words[:-1]]), *words[-1:]]))
        items = [f'(codes "{it.word}", {it.shown})' for it in self.formals]
        shown = (f"-- {listed}\nabbrev pub {name}_shown : {' → '.join(['Shown', *(it.type for it in self.formals), 'ReadingOf'])}\n"
                 f"{' '.join([f'{name}_shown condition', *(it.name for it in self.formals)])} ={self.reading(items)}\n\n")
        parts = [*filter(None, [self.binders(self.formals), *(it.premise for it in self.formals)])]
        shows = f"Shows image ({self.values(self.formals)}) ({' '.join([f'{name}_shown', *['?'] * (len(self.formals) + 1)])})"
        record = (f"-- ?: what the program does, and a clause for each case\npub record {self.statement} (image : ImageOf) : Type 0 where\n"
                  f"  pub shows : {wrapped(parts, 110, '      ')}{' →' if parts else ''}\n      {shows}\n")
        own = "".join(it.definition() for it in self.formals if not it.is_plain)
        return with_imports(f"-- What {self.file} does.", SPEC_IMPORTS, own + shown + record, DEFINITIONS, "Normal")

    @property
    def file(self):
        return definitions.shown(self.path)

    @staticmethod
    def reading(items):
        """The condition and the variables as memory is read, with a line for each variable if one line has no room for them."""
        flat = f"record {{ condition = Some condition; items = {chain(items)} }}"
        return f" {flat}" if len(flat) <= 110 else f" record {{\n  condition = Some condition;\n  items =\n      {chain(items, link=' ∷' + chr(10) + '      ')};\n}}"

    # ---- The proof

    def contract(self, name):
        """What a procedure gives, still open."""
        formals, label = list(formals_of(self.procs[name], "")), re.sub(r"\W", "_", name)
        calls = [f"has_room {self.name}_program sizes {self.number(it)} (with_call {self.name}_program {self.number(name)} u) ≡ true" for it in self.calls[name]]
        room = f"(λ u. {' × '.join(f'({it})' for it in calls) if len(calls) > 1 else calls[0]})" if calls else "AnyRoom"
        given = f"(Given ({self.values(formals)}) {room})"
        given = f"\n      {given}" if len(given) > 80 else f" {given}"
        return (f"-- ---- the procedure {name}\n\n-- ?: what it gives back, and its condition\n"
                f"module _ {' '.join(filter(None, ['(sizes : StackSizes)', self.binders(formals)]))} where\n"
                f"  {label}_gives : Meets {self.name}_program sizes {self.number(name)}{given}\n      (Gives ? ?)\n"
                f"  {label}_gives = meets_rule (λ u room. ?)\n\n")

    def rooms(self):
        """That each call has room, on each way from main; if the source is recursive, only main's calls."""
        ways = [[it] for it in self.calls[self.main]]
        for way in ways:
            if self.control != "?":
                ways += [[*way, it] for it in self.calls[way[-1]]]
        for way in ways:
            used = f"main_used {self.name}_program"
            for it in way[:-1]:
                used = f"with_call {self.name}_program {self.number(it)} ({used})"
            label = "room" if len(ways) == 1 else f"{re.sub(chr(92) + 'W', '_', '_'.join(way))}_room"
            words = f"{self.name}_program sizes {self.number(way[-1])} ({used})"
            yield (f"{label} : (sizes : StackSizes) → HasRoom sizes → has_room {words} ≡ true\n"
                   f"unfolding main_used {'with_call ' if way[1:] else ''}call_need\n"
                   f"{label} sizes h = room_is {words} (omega (arith, h.0)) (omega (arith, h.1))\n\n")

    def program(self):
        """What the program means, still open, with the room of its calls."""
        given = [f"(sizes : StackSizes){' ' * bool(self.formals)}{self.binders(self.formals)}", *["HasRoom sizes"] * self.has_calls]
        given += [it.premise for it in self.formals if it.premise]
        named = ["shows sizes", *(it.name for it in self.formals), *["h"] * self.has_calls, *(f"{it.name}_fits" for it in self.formals if it.premise)]
        if self.has_calls:
            yield "-- ---- the program, where both stacks have room for its calls\n\nabbrev HasRoom : StackSizes → Type 0\n"
            yield f"HasRoom sizes = ({self.temporary} ≤ sizes.temp) × ({self.control} ≤ sizes.ctrl)\n\n"
            yield from self.rooms()
        else:
            yield "-- ---- the program\n\n"
        means = f"Means {self.name}_program sizes ({self.values(self.formals)}) (Is ? ?)"
        yield f"shows : {wrapped([*given, means], 150, '    ')}\n{' '.join(named)} = main_rule ▸ ?\n\n"

    def memory(self):
        """From what the program means to memory."""
        name, formals = self.name, self.formals
        premised = [it for it in formals if it.premise]
        fits = "tt"
        for it in reversed(formals):
            fits = f"(refl, {it.fits}, {fits})"
        parts = [*filter(None, [self.binders(formals)]), *(it.premise for it in premised)]
        values_fit = f"VarsFit (proc_at {name}_program {self.number(self.main)}).formals ({self.values(formals)})"
        names, fitted = [it.name for it in formals], [f"{it.name}_fits" for it in premised]
        room = ["(t, c)"] * self.has_calls
        shows = f"({' '.join(['values_fit', *names, *fitted])})"
        given = " ".join(["(shows (stack_sizes ctrl temp)", *names, *room, *fitted]) + ")"
        bound, t_c = " ".join([*names, *fitted]), " t c" if self.has_calls else ""
        yield f"-- ---- its memory\n\nvalues_fit : {wrapped([*parts, values_fit], 150, '    ')}\n{' '.join(['values_fit', *names, *fitted])} = {fits}\n\n"
        image = ["(ctrl temp : ℕ) (image : ImageOf)", *self.premises, f"ImplementsText {name}_text (stack_sizes ctrl temp) image", f"{self.statement} image"]
        yield f"pub {name}_image : {wrapped(image, 135, '    ')}\n{name}_image ctrl temp image{t_c} implements = record {{\n"
        line = f"  shows = {f'λ {bound}. ' if bound else ''}shown_in {name}_is_text implements"
        yield f"{line}{' ' if len(line) + len(shows) + len(given) < 158 else chr(10) + 6 * ' '}{shows} {given};\n}}\n\n"
        built = ["(ctrl temp : ℕ) (built : BuiltOf)", *self.premises, f"BuildsText {name}_text ctrl temp built", f"{self.statement} built.image"]
        yield f"pub {name}_built : {wrapped(built, 135, '    ')}\n"
        yield f"{name}_built ctrl temp built{t_c} builds = {name}_image ctrl temp built.image{t_c} (built_text builds)\n"

    def proof(self):
        body = "".join([*(self.contract(it) for it in self.procs if it != self.main and any(it in calls for calls in self.calls.values())), *self.program(), *self.memory()])
        imports = (f"{PROOF_IMPORTS}use Rattle.{self.crate}.specs.{{{self.page}Text.{{{self.name}_text, {self.name}_program}}}}\n"
                   f"use Rattle.{self.crate}.{{specs.{self.page}.{{{', '.join([self.statement, *self.own_values()])}}}, proofs.TextLaws.{self.name}_is_text}}")
        rules = [rule for head, rules in {**RULES, **PREDEFINED}.items() if head in self.heads for rule in rules]
        return with_imports(f"-- {self.file}: ?", imports, body, PROOFS, *rules)

    def own_values(self):
        return [f"{self.name}_{it.name}" for it in self.formals if not it.is_plain]

    # ---- The files

    def files(self):
        """Each file of the crate, by its name."""
        main = self.procs[self.main][1]
        names, conditions = (chain(f'codes "{word}"' for word in it) for it in ([it.word for it in self.formals], [it[1] for it in main[3][1]]))
        premises = "".join(f"{it} → " for it in self.premises)
        words = {it: getattr(self, it) for it in ("crate", "name", "page", "statement", "law", "file")}
        words |= {"names": f"({names})" if self.formals else names, "conditions": f"({conditions})" if main[3][1] else conditions}
        words |= {"premises": premises.rstrip(), "if_room": ", if both stacks have room for its calls" if self.has_calls else ""}
        first = f"    ensures built {{ (ctrl temp : ℕ) (built : BuiltOf) → {premises}BuildsText {self.name}_text ctrl temp built →"
        words["break_built"] = " " if len(first) <= 120 and premises else "\n        " if premises else ""
        laws = LAWS.format(**words).replace("→ \n", "→\n")
        yield "src/lib.rt", LIB.format(**words)
        yield "src/laws.rt", laws if self.has_calls else laws.replace("{ℕ, ◌≤◌}", "{ℕ}")
        yield "specs/Lib.antt", f"-- What {self.file} does, and its text.\npub mod {self.page}\npub mod {self.page}Text\n"
        yield f"specs/{self.page}.antt", self.specification()
        yield f"specs/{self.page}Text.antt", definitions.page_of(self.path, self.name)
        yield "proofs/Lib.antt", f"pub mod TextLaws\npub mod {self.page}Laws\n"
        yield "proofs/TextLaws.antt", TEXT_LAWS.format(**words)
        yield f"proofs/{self.page}Laws.antt", self.proof()
        yield f"proofs/laws/{self.law}/Answers.antt", ANSWERS.format(**words)


def needs_of(path):
    """The sizes that `need` prints, None of a recursive source. A source that is refused ends the script, as the program says."""
    with tempfile.TemporaryDirectory() as room:
        ran = subprocess.run([TOP / "stack", "need", path, Path(room) / "cert"], stdout=subprocess.PIPE, text=True, check=False)
    found = re.fullmatch(r"control (\d+)\ntemporary (\d+)\n", ran.stdout)
    if not found and not ran.stdout.startswith("recursive "):
        sys.exit(f"{ran.stdout.strip() or f'./stack need ended with status {ran.returncode}'}: nothing was written")
    return found.groups() if found else None


def with_line(lines, name):
    """The lines of crates.txt with that of a crate over `program_images`, behind that of the examples' proofs."""
    below = next(line.split(": ", 1)[1] for line in lines if line.startswith("program_images: "))
    at = next((number for number, line in enumerate(lines) if line.startswith("proved_programs:")), len(lines) - 1) + 1
    return [*lines[:at], f"{name}: program_images {below}", *lines[at:]]


def main():
    parser = parser_of(__doc__)
    parser.add_argument("file", type=file, metavar="FILE.gypsy", help="the source")
    parser.add_argument("name", metavar="NAME", help="a word of small letters, digits and _")
    parser.add_argument("--statement", help="what the specification is called: DoesNAME, if left out")
    parser.add_argument("--law", help="what the law is called: NAME_does, if left out")
    chosen = parser.parse_args()
    folder = TOP / "crates" / chosen.name
    if not re.fullmatch(r"[a-z][a-z0-9_]*", chosen.name) or folder.exists():
        parser.error(f"{chosen.name} isn't the name of a new crate")
    for name, text in Crate(chosen.file, chosen.name, needs_of(chosen.file), chosen.statement, chosen.law).files():
        (folder / name).parent.mkdir(parents=True, exist_ok=True)
        (folder / name).write_text(text)
        print(f"written {(folder / name).relative_to(TOP)}{': ' + str(text.count('?')) + ' open' if '?' in text else ''}")
    crates = TOP / "crates.txt"
    crates.write_text("\n".join(with_line(crates.read_text().split("\n"), chosen.name)))
    print(f"written crates.txt: the line of {chosen.name}")
    print(f"next: python3 tools/quick_check.py {chosen.name} --allow-holes says what each ? must be")


if __name__ == "__main__":
    main()
