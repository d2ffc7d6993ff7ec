#!/usr/bin/env bash
# Checks what documents name: that each link leads somewhere, that each path of a crate is there, that each definition that
# docs/CLAIMS.md names is one, that it names each clause of `run` and each field of the headline, that callers are shown as they
# are, that numbers which can be counted are right, and that README is short. It needs nothing but a shell.
set -u
here=$(dirname -- "$(readlink -f -- "${BASH_SOURCE[0]}")")
. "$here/lib.sh"
cd "$here/.." || exit 1

mapfile -t documents < <(find . -name '*.md' -not -path '*/out/*' -not -path './.git/*' | sort)

# The anchors of a document: its headings as a link names them, and what `<a name=..>` names.
anchors() {
    sed -n 's/^#\+ //p' "$1" | sed 's/<a [^>]*><\/a>//g' | tr 'A-Z' 'a-z' | sed 's/[^a-z0-9 _-]//g; s/ /-/g'
    grep -oE '<a name="[^"]*"' "$1" | sed 's/.*"\(.*\)"/\1/'
}

# A link of a document: to a file or folder, to an anchor, or to an anchor of a file.
leads() {
    local document=$1 link=$2 file anchor
    file=${link%%#*}
    anchor=
    [[ $link != *#* ]] || anchor=${link#*#}
    file=${file:+$(dirname "$document")/$file}
    file=${file:-$document}
    [ -e "$file" ] && { [ -z "$anchor" ] || [ -d "$file" ] || anchors "$file" | grep -qxF -- "$anchor"; }
}

check_links() {
    local document link
    for document in "${documents[@]}"; do
        while read -r link; do
            leads "$document" "$link"
            count $? "$document: the link $link leads nowhere"
        done < <(grep -oE '\]\([^) ]+\)' "$document" | sed 's/^](//; s/)$//' | grep -v '^https\?:')
    done
}

check_paths() {
    local document path
    for document in "${documents[@]}"; do
        while read -r path; do
            [ -e "$path" ]
            count $? "$document: $path isn't there"
        done < <(grep -oE '`(crates|docs|tests|examples|bin)/[A-Za-z0-9_./-]*`' "$document" | tr -d '`' | grep -v '/NAME\|/out/' | sort -u)
        while read -r path; do
            [ -e "crates/$path" ]
            count $? "$document: crates/$path isn't there"
        done < <(grep -oE '`[a-z_0-9]+/(src|specs|proofs)/[A-Za-z0-9_/-]+\.(rt|antt)`' "$document" | tr -d '`' | sort -u)
        while read -r path; do
            [ -e "crates/$path" ] || [ -e "crates/$path.antt" ] || [ -e "crates/$path.rt" ]
            count $? "$document: crates/$path isn't there"
        done < <(grep -oE '`[a-z_0-9]+/(src|specs|proofs)/[A-Za-z0-9_/-]+`' "$document" | tr -d '`' | sort -u)
    done
}

# A name of CLAIMS.md is a file of specs/, or something that one or a source declares.
check_claims() {
    local name
    while read -r name; do
        [ -n "$(find crates/*/specs -name "$name.antt" -print -quit)" ] || grep -rqE "^ *(abbrev |unfoldable )?(pub )?(record|data|abbrev|unfoldable)? ?(pub )?$name( |$)" crates/*/specs ||
            grep -rqE "pub (struct|enum|trait) $name( |<|\(|\{|:|;|$)" crates/*/src
        count $? "docs/CLAIMS.md: no definition $name"
    done < <(grep -oE '`[A-Z][a-z][A-Za-z]+`' docs/CLAIMS.md | tr -d '`' | sort -u)
}

# Each clause of `run` and each field of what it promises is named in CLAIMS.md.
check_clauses() {
    local name
    while read -r name; do
        grep -qF -- "\`$name\`" docs/CLAIMS.md
        count $? "docs/CLAIMS.md doesn't name $name"
    done < <({
        sed -n '/^pub fn run</,/^{/p' crates/nfs_client/src/top.rt | sed -n 's/^ *ensures \([a-z_]*\) {.*/\1/p'
        sed -n 's/^  pub \([a-z_]*\) :.*/\1/p' crates/nfs_client/specs/Headline.antt | grep -vx first
    } | sort -u)
}

# The file of a module: the longest front of its name that is one.
file_of() {
    local path=crates/${1//.//}
    while [ ! -e "$path.antt" ] && [[ $path == */*/* ]]; do path=${path%/*}; done
    file=$path.antt
}

# How many files of definitions the imports of one reach, and how many of their lines aren't blank and import nothing.
reached() {
    local -A seen=(["$1"]=1)
    local -a left=("$1")
    local module file
    while [ ${#left[@]} -gt 0 ]; do
        file=${left[-1]}
        unset 'left[-1]'
        while read -r module; do
            file_of "$module"
            [ -e "$file" ] && [ -z "${seen[$file]:-}" ] || continue
            seen[$file]=1
            left+=("$file")
        done < <(grep -oE 'Rattle\.[a-z_0-9]+\.(specs|proofs)(\.[A-Za-z_0-9]+)+' "$file" | grep -v '\.specs\.\(declared\|contracts\)\.' | sed 's/^Rattle\.//')
    done
    echo "${#seen[@]} $(cat "${!seen[@]}" | grep -cvE '^ *$|^ *(pub )?use ')"
}

check_numbers() {
    local files lines rounded crate edits told
    read -r files lines < <(reached crates/nfs_client/specs/Headline.antt)
    rounded=$(((lines + 50) / 100 * 100))
    grep -q "reach $files files, with some $((rounded / 1000)),$(printf %03d $((rounded % 1000))) lines" docs/CLAIMS.md
    count $? "docs/CLAIMS.md: the imports of the headline reach $files files with $lines lines"
    while read -r crate told; do
        edits=$(find "crates/$crate/must-fail" -name '*.edit' 2>/dev/null | wc -l)
        [ "${told:-0}" = "$edits" ]
        count $? "docs/PERFORMANCE.md: $crate has $edits edits"
    done < <(sed -n 's/^| `\([a-z_0-9]*\)` |[^|]*|[^|]*| *\([0-9]*\) *|$/\1 \2/p' docs/PERFORMANCE.md)
}

# What a CALLING.md shows of library_uses: the block behind the file's name.
block() {
    awk -v name="$2" '$0 == "`" name "`:" { at = 1; next } at == 1 && /^```/ { at = 2; next } at == 2 && /^```$/ { exit } at == 2' "$1"
}

check_callers() {
    local document name
    for document in crates/*/CALLING.md; do
        while read -r name; do
            diff <(block "$document" "$name") "crates/$name" >/dev/null
            count $? "$document: crates/$name isn't as it is shown"
        done < <(grep -oE '^`library_uses/[^`]*`:$' "$document" | tr -d '`:')
    done
}

check_links
check_paths
check_callers
check_claims
check_clauses
check_numbers
words=$(wc -w <README.md)
[ "$words" -le 1500 ]
count $? "README.md has $words words"
sum_up
