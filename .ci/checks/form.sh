#!/usr/bin/env bash
# The form of definitions, lemmas, clauses and documents, that the table of the proofs' lines is current, that the pages of help are as
# guide/commands.txt, and that code makes out of memory of an error of the library or of a call alone.
set -u
cd "$(dirname "${BASH_SOURCE[0]}")/../.." || exit 1
status=0
export PYTHONDONTWRITEBYTECODE=1
python3 .ci/tools/form.py || status=1
python3 tools/proof_lines.py || status=1
python3 tools/help_pages.py || status=1
python3 .ci/tools/memory_sources.py || status=1

# In a copy with mistakes each of them is told.
folder=$(mktemp -d) || exit 1
trap 'rm -rf "$folder"' EXIT
git ls-files -z | while IFS= read -r -d '' file; do [ ! -f "$file" ] || printf '%s\0' "$file"; done | xargs -0 cp --parents -t "$folder"
cd "$folder" || exit 1
further=()
# mistake WANTED FILE LINE ..: these lines are added to a file, of which this is to be told.
mistake() {
    further+=("$1")
    printf '%s\n' "${@:3}" >>"$2"
}
mistake 'crates/fm_words/specs: are_same is defined at ' crates/fm_words/specs/Word.antt 'pub are_same : ℕ'
mistake 'Masks.antt:[0-9]*: word_bits is defined at crates/fm_words/specs/Word.antt:[0-9]* too' crates/fm_words/specs/Word.antt 'pub word_bits : ℕ'
mistake 'same_names.txt: never_there has one meaning now' .ci/tools/same_names.txt '== no reason' never_there
mistake 'Laws.antt:[0-9]*: 163 characters; break the line, at most 160' crates/fm_words/proofs/WordLaws.antt "-- $(printf %0160d 0)"
mistake 'crates/fm_words/specs: Word and Words differ by an ending' crates/fm_words/specs/Words.antt 'pub nothing_at_all : ℕ'
mkdir crates/stack_text/specs/Alone
mistake 'crates/stack_text/specs/Alone: a folder of one page' crates/stack_text/specs/Alone/Only.antt 'pub only_one : ℕ'
mistake 'stack_text/specs/Lib.antt:[0-9]*: move Trees to crates/stack_text/specs/Internal' crates/stack_text/specs/Lib.antt \
    '-- Internal: what only private functions and lemmas say.' 'pub mod Trees' 'pub mod Names'
mistake 'Answer.antt: it imports OpenLists, which is internal to stack_text' crates/cli_stack/specs/Answer.antt 'use Rattle.stack_text.specs.Internal.OpenLists.{opened}'
mistake 'crates/fm_words/src/lib.rt:[0-9]*: a clause of 1[0-9]* characters' crates/fm_words/src/lib.rt "    ensures { $(printf %0120d 0) }"
mistake "crates/fm_words/src/word.rt: it imports used_by_nothing and doesn't use it" crates/fm_words/src/word.rt \
    'ghost use Rattle.std.specs.Prelude.{used_by_nothing};'
mistake 'Answer.antt: it imports TokenSpans, which is internal to stack_text' crates/cli_stack/specs/Answer.antt \
    'use Rattle.stack_text.specs.{Trees.{Node}, Internal.TokenSpans.{token_in}}'
mistake "crates/fm_words/src/word.rt: it imports used_by_nobody and doesn't use it" crates/fm_words/src/word.rt \
    'ghost use Rattle.std.specs.{Prelude.{ℕ}, List.{used_by_nobody}};'
mistake 'docs/proved/related.md:[0-9]*: a table row without its head' docs/proved/related.md '' '| a row | of no table |'
mistake 'docs/working/limits.md:[0-9]*: the crate fm_words has no not_there_either' docs/working/limits.md '| 9 | of what | said | `fm_words` (`not_there_either`) | | |'
mistake 'docs/working/limits.md:[0-9]*: there is no crates/fm_words/specs/Nothing.antt' docs/working/limits.md '| 9 | of what | said | `fm_words/specs/Nothing`: `nowhere` | | |'
mistake 'docs/proved/promises.md: the crate nobody is missing' crates.txt 'nobody: stack_text'
echo 'pub word_bits : ℕ' >>crates/fm_machine/specs/Masks.antt
sed -i 's/ lines of definitions in 2/ lines of definitions in 9/' README.md
further+=('README.md: the theorem rests on [0-9,]* lines of definitions in [0-9]* files')
sed -i 's/`decides` on [0-9]/&9/' README.md
further+=('README.md: `decides` rests on ')
sed -i '/^| `stack_build.Moments.KeepsMoments` |/s/ | [0-9,]* |$/ | 1 |/' docs/proved/promises.md
further+=('docs/proved/promises.md:[0-9]*: stack_build.Moments.KeepsMoments rests on ')
printf -- '-- %0200d\n' 0 >>crates/fm_words/specs/Word.antt
echo 'pub served_by_nothing : 0 ≡ 0' >crates/fm_words/proofs/NothingLaws.antt
echo '[a page](nowhere.md), [a heading](promises.md#nowhere), and `docs/nowhere.md`' >>docs/proved/glossary.md
echo '| 9 | it bounds | said | `fm_words/specs/Word`: `nowhere` | | |' >>docs/working/limits.md
yes word | head -n 1301 >>README.md
sed -i 's/^does lists an image$/does prints an image/' guide/commands.txt
sed -i 's/^const BUDGET: u64 = 1000;$/const BUDGET: u64 = 2000;/' crates/example_client/src/main.rt
git init -q && git add -A
told=$(python3 .ci/tools/form.py; python3 tools/help_pages.py)
for wanted in 'crates/fm_words/specs/Word.antt:[0-9]*: 203 characters' 'NothingLaws.antt: no proof cites this lemma module' \
    'NothingLaws.antt: it has no sentence at its head' 'NothingLaws.antt:1: nothing uses served_by_nothing' \
    'docs/proved/glossary.md:[0-9]*: the link nowhere.md leads to nothing' \
    'docs/proved/glossary.md:[0-9]*: docs/proved/promises.md has no heading for #nowhere' 'docs/proved/glossary.md:[0-9]*: there is no docs/nowhere.md' \
    'docs/working/limits.md:[0-9]*: .*Word.antt has no nowhere' 'README.md: it has 2,[0-9]* words' "docs/program/cli.md isn't as guide" \
    "docs/working/use-the-crates.md:[0-9]*: the listing isn't in crates/example_client/src/main.rt"; do
    grep -q "$wanted" <<<"$told" || {
        echo "form: a mistake isn't told: $wanted"
        status=1
    }
done
for wanted in "${further[@]}"; do
    grep -q "$wanted" <<<"$told" || { echo "form: a mistake isn't told: $wanted"; status=1; }
done
[ "$status" = 0 ] && echo "form: ok"
exit "$status"
