#!/bin/sh
# pages.sh DIRECTORY: copies the pages for users and auditors and the samples into the directory.
# Links to what only the repository has, such as the pages for developers, become plain text.
set -eu
[ $# = 1 ] || { sed -n '2,/^set/s/^# //p' "$0"; exit 2; }
cd "$(dirname "$0")/.."
mkdir -p "$1/docs" "$1/samples" "$1/extras"
inner='ARCHITECTURE|DECISIONS|PERFORMANCE|OWN_CRATES|CONTRIBUTING|STYLE'
inner="$inner|bench/README|hostile/README|second_reader/README|crates/[a-z_]*/README"
for page in README.md CHANGELOG.md NOTICE.md docs/TUTORIAL.md docs/FAQ.md docs/MANUAL.md \
    docs/INTERNALS.md docs/RECIPES.md docs/MANY_DUMPS.md docs/PYTHON.md docs/PRODUCERS.md \
    docs/DEFINITIONS.md docs/PROOFS.md docs/AUDIT.md docs/GLOSSARY.md extras/README.md; do
    sed -E "s,\[([^][]+)\]\([^()]*($inner)\.md[^()]*\),\1,g" "$page" > "$1/$page"
    chmod 644 "$1/$page"
done
for picture in docs/*.svg docs/*.png; do
    install -m 644 "$picture" "$1/docs"
done
install -m 644 samples/* "$1/samples"
