#!/usr/bin/env bash
# Copies a folder to a server, file by file:
#
#     examples/backup.sh FOLDER PATH HOST EXPORT [ARGUMENTS]
#
# PATH is where the copy stands; it is made if it isn't there, and files that are there already are written over. It ends
# with 0 only if the sync of each file was ok: then its bytes are on stable storage, on the terms of README.md. Folders and
# regular files are copied, without owners, rights and times; any other object is named, and the script ends with 1.
#
# A script has at most 1,048,576 bytes. So a file goes in parts of seven lines of 65,536 bytes, each by a process of its own.
set -u -o pipefail
export LC_ALL=C NFS3_QUIET=1
nfs3=${NFS3:-$(dirname -- "$(readlink -f -- "${BASH_SOURCE[0]}")")/../bin/nfs3}
[ $# -ge 4 ] || {
    sed -n 's/^#     /usage: /p' "${BASH_SOURCE[0]}" >&2
    exit 2
}
folder=$1 base=${2%/} at=("${@:3}")
line=65536 lines=7
work=$(mktemp -d -t nfs3-backup.XXXXXX)
trap 'rm -rf -- "$work"' EXIT

fail() {
    echo "backup: $*" >&2
    exit 1
}

# A path as scripts have it: bytes other than letters, digits and a few signs as % and two hex digits.
spelled() {
    local text=$1 byte k
    for ((k = 0; k < ${#text}; k++)); do
        byte=${text:k:1}
        case $byte in
        [a-zA-Z0-9/._-]) printf '%s' "$byte" ;;
        *) printf '%%%02x' $(($(printf '%d' "'$byte") & 255)) ;;
        esac
    done
}

# Runs the script in the file `script`. Each answer has to be ok, or what the second word allows too.
run() {
    "$nfs3" run "${at[@]}" <"$work/script" >"$work/said"
    [ $? -le 1 ] || fail "$1: the session was cut off"
    ! grep -vE "^1 [0-9]+ (ok|${2-ok})\$" "$work/said" >&2 || fail "$1: an answer isn't ok"
}

# The script of a part of a file: from where on.
part() {
    local file=$1 path=$2 offset=$3 hex
    if [ "$offset" = 0 ]; then
        printf '1 open 1 c %s\n1 truncate 1 0\n' "$path"
    else
        printf '1 open 1 w %s\n' "$path"
    fi
    dd if="$file" bs=$line skip=$((offset / line)) count=$lines status=none | od -An -v -tx1 -w$line | tr -d ' ' |
        while read -r hex; do
            echo "1 write 1 $offset $hex"
            offset=$((offset + line))
        done || return
    printf '1 sync 1\n1 close 1\n'
}

copy_file() {
    local size offset=0
    size=$(stat -c %s -- "$1") || fail "$1: can't be read"
    while :; do
        part "$1" "$2" "$offset" >"$work/script" || fail "$1: can't be read"
        run "$1"
        offset=$((offset + line * lines))
        [ "$offset" -lt "$size" ] || break
    done
}

# 17 is the status of a folder that is there already.
make_folder() {
    printf '1 mkdir %s\n' "$2" >"$work/script"
    run "$1" 'nfs 17'
}

find "$folder" -printf '%y %P\0' >"$work/objects" || fail "$folder: can't be read"
left=0
while read -r -d '' kind name; do
    path=$base${name:+/$(spelled "$name")}
    case $kind in
    d) [ -z "$path" ] || make_folder "$folder/$name" "$path" ;;
    f) copy_file "$folder/$name" "$path" ;;
    *) echo "backup: $folder/$name: not copied" >&2 && left=1 ;;
    esac
done <"$work/objects"
exit $left
