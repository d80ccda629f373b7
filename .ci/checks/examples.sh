#!/usr/bin/env bash
# Each example with the line that runs it, and the answers of the course: what the documents show as transcripts is run. No file stands
# twice, and the texts of which something is proved are those of their files.
set -u
export STACK_EXPLAIN=0
cd "$(dirname "${BASH_SOURCE[0]}")/../.." || exit 1
status=0

# It is proved and built where that isn't done yet.
./stack prove || exit 1
mapfile -t documents < <(git grep -l '^```console$' -- '*.md')
python3 .ci/tools/transcripts.py stack "${documents[@]}" || status=1

for file in $(git ls-files examples ':!*.md'); do
    grep -qF "${file#examples/}" examples/README.md || { echo "examples/README.md doesn't name $file"; status=1; }
done
twice=$(git ls-files -z examples crates/cli_stack/data | xargs -0 sha256sum | sort | uniq -w 64 -D)
[ -z "$twice" ] || { echo "the same file stands twice:"; echo "$twice"; status=1; }
python3 .ci/tools/texts.py || status=1
python3 .ci/tools/proof_rows.py || status=1
[ "$status" = 0 ] && echo "examples: ok"
exit "$status"
