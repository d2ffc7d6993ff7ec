#!/usr/bin/env bash
# Prints the contracts of a crate's public functions: of each file of src/ the signatures with what they require and ensure.
#
#     docs/contracts.sh CRATE [WORD]      only functions whose signature has the word, if one is given
set -u
top=$(dirname -- "$(readlink -f -- "${BASH_SOURCE[0]}")")/..
[ $# -ge 1 ] && [ -d "$top/crates/$1/src" ] || {
    echo 'usage: docs/contracts.sh CRATE [WORD]' >&2
    exit 2
}
cd "$top/crates/$1" || exit 1
find src -name '*.rt' ! -name 'tests.rt' | LC_ALL=C sort | xargs awk -v word="${2-}" '
    FNR == 1 { impl = "" }
    /^}/ { impl = "" }
    /^impl/ { impl = $0; sub(/ *\{$/, "", impl); next }
    /^ *pub fn / { text = ""; within = 1 }
    within {
        line = $0
        sub(/^    ?/, "", line)
        if ($0 ~ /^ *\{$/) { within = 0; show() } else { text = text line "\n" }
        if ($0 ~ /^ *pub fn .*\{$/) { within = 0; show() }
    }
    function show() {
        if (word != "" && index(text, word) == 0) return
        if (FILENAME != last) { print "-- " FILENAME; last = FILENAME }
        if (impl != "" && impl != shown) { print impl; shown = impl }
        printf "%s\n", text
    }
'
