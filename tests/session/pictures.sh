#!/usr/bin/env bash
# Draws the traces in the folder examples: each has to give the picture of the same name, with the verdict that its comment
# names marked, and an SVG picture that is XML and has each text of the entries. A text that is no trace is refused. It needs
# Python alone. The last line is 'N passed, M failed', and the status is 0 where nothing failed.
set -u

here=$(dirname -- "$(readlink -f -- "${BASH_SOURCE[0]}")")
view=$here/../../tools/trace-view
examples=$here/../../examples
. "$here/../lib.sh"

work=$(mktemp -d -t nfs3-pictures.XXXXXX)
trap 'rm -rf -- "$work"' EXIT

# What the comment of a trace says under this name.
named() {
    sed -n "s/^# $1: //p" "$2"
}

# How many texts an SVG picture has; nothing where it is no XML.
texts() {
    python3 -c 'import sys, xml.dom.minidom as xml; print(len(xml.parse(sys.argv[1]).getElementsByTagName("text")))' "$1" 2>/dev/null
}

draw_a_trace() {
    local name=$1 verdict status rows
    verdict=$(named verdict "$examples/$name.trace")
    "$view" --verdict "$verdict" <"$examples/$name.trace" >"$work/drawn"
    status=$?
    [ "$status" -eq 0 ] && cmp -s "$work/drawn" "$examples/$name.picture"
    count $? "$name: the picture"
    "$view" --svg --verdict "$verdict" "$examples/$name.trace" >"$work/drawn.svg"
    rows=$(grep -c '|.*|' "$examples/$name.picture")
    [ "$(texts "$work/drawn.svg")" -ge "$rows" ] 2>/dev/null
    count $? "$name: the SVG picture"
}

refuse_no_trace() {
    printf '%s\n' "$1" | "$view" >"$work/drawn" 2>"$work/said"
    [ $? -eq 9 ] && [ ! -s "$work/drawn" ] && [ "$(cat "$work/said")" = "trace-view: line $2 is of no trace" ]
    count $? "$1: $(cat "$work/said")"
}

for trace in "$examples"/*.trace; do
    draw_a_trace "$(basename "$trace" .trace)"
done
refuse_no_trace 'sent' 1
refuse_no_trace $'clock 0\nobj 01 zz - -' 2
refuse_no_trace $'# a comment\n\nwhatever 1' 3
"$view" --unknown </dev/null 2>/dev/null
[ $? -eq 2 ]
count $? 'a word that it does not know'
sum_up
