#!/usr/bin/env bash
# Prints an index of the definitions and lemmas: a line for each file of specs/ and proofs/, with the first sentence of its head.
#
#     docs/index.sh               all of them
#     docs/index.sh WORD ..       those whose lines have each of these words, in any case
#     docs/index.sh --crate NAME  those of one crate, where NAME may be a pattern, as 'core_*'
#
# Files that list modules, and the answers to a function's goals, have no head and aren't shown.
set -u
top=$(dirname -- "$(readlink -f -- "${BASH_SOURCE[0]}")")/..
crates='*'
if [ "${1-}" = --crate ]; then
    crates=${2?usage: docs/index.sh --crate NAME}
    shift 2
fi

# The first sentence of a file's head: comment lines up to the first full stop that ends one.
first_sentences() {
    awk '
        FNR == 1 { done = 0; text = "" }
        done { next }
        /^--/ {
            sub(/^-- ?/, "")
            text = text (text == "" ? "" : " ") $0
            if (match(text, /\.( |$)/)) { print name() "\t" substr(text, 1, RSTART); done = 1 }
            next
        }
        { if (text != "") print name() "\t" text; done = 1 }
        function name(  path) { path = FILENAME; sub(/^.*\/crates\//, "", path); sub(/\.antt$/, "", path); return path }
    ' "$@"
}

lines=$(cd "$top" && find crates/$crates/specs crates/$crates/proofs -name '*.antt' -print0 2>/dev/null |
    LC_ALL=C sort -z | sed -z "s#^#$top/#" | xargs -0 -r bash -c "$(declare -f first_sentences); first_sentences \"\$@\"" _)
for word in "$@"; do
    lines=$(grep -iF -- "$word" <<<"$lines")
done
[ -n "$lines" ] && printf '%s\n' "$lines" | expand -t 72
