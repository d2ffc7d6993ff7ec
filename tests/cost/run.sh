#!/usr/bin/env bash
# Counts the instructions that pending bytes and kept pages cost, by valgrind's callgrind over `layer_cost` as LLVM builds
# it: a line for each run, for segments also with a byte of a later write before them. The program is no crate of the
# repository: it is proved and built in a copy of it, which is removed at the end. What this machine has proved of the
# libraries isn't proved anew. It needs valgrind. The status is 0 if each run gave a count.
set -u

here=$(readlink -f -- "$(dirname -- "${BASH_SOURCE[0]}")")
top=${here%/*/*}
libraries='nfs_dir_calls nfs_file_calls nfs_types page_cache write_back xdr_codec'
copy=$(mktemp -d) || exit 1
trap 'rm -rf -- "$copy"' EXIT
crate=$copy/crates/layer_cost
program=$crate/out/layer_cost
status=0

# The repository with `layer_cost` as one more crate. Its files end in `.txt` here, since a source file may stand only in a
# crate that crates.txt names.
lay_out() {
    tar -C "$top" --exclude=./.git --exclude=out -cf - . | tar -C "$copy" -xf - &&
        mkdir -- "$crate" &&
        cp -r -- "$here/layer_cost/." "$crate" &&
        find "$crate" -name '*.txt' -exec bash -c 'mv -- "$1" "${1%.txt}"' _ {} \; &&
        echo "layer_cost: $libraries" >>"$copy/crates.txt"
}

# Proves and builds the program; prints what was said where that fails.
build() {
    (cd -- "$crate" && exec rt run) >"$copy/log" 2>&1 </dev/null && return
    cat -- "$copy/log" >&2
    return 1
}

# How many instructions a run takes, by the program's words.
instructions() {
    valgrind --tool=callgrind --callgrind-out-file=/dev/null "$program" "$@" 2>&1 >/dev/null |
        sed -n 's/^.*Collected : \([0-9]*\)$/\1/p'
}

# A line for each run: its words, and the count.
table() {
    local run words count
    for run in "$@"; do
        read -ra words <<<"$run"
        count=$(instructions "${words[@]}")
        [ -n "$count" ] || status=1
        echo "$run ${count:-no count}"
    done
}

if ! lay_out || ! build; then
    echo "layer_cost couldn't be built" >&2
    exit 1
fi
table 'segments 1000' 'segments 2000' 'segments 4000' 'segments 8000'
table 'segments 1000 later' 'segments 2000 later' 'segments 4000 later' 'segments 8000 later'
table 'pages 128' 'pages 256' 'pages 512' 'pages 1024'
exit "$status"
