#!/usr/bin/env bash
# Brings back what examples/backup.sh copied, a folder or a file:
#
#     examples/restore.sh PATH FOLDER HOST EXPORT [ARGUMENTS]
#
# FOLDER is made if it isn't there, and files that are there already are written over. It ends with 0 only if each answer was
# ok and each file came as long as the server said it was.
set -u -o pipefail
export LC_ALL=C NFS3_QUIET=1
nfs3=${NFS3:-$(dirname -- "$(readlink -f -- "${BASH_SOURCE[0]}")")/../bin/nfs3}
[ $# -ge 4 ] || {
    sed -n 's/^#     /usage: /p' "${BASH_SOURCE[0]}" >&2
    exit 2
}
at=("${@:3}")
line=65536 lines=1000

fail() {
    echo "restore: $*" >&2
    exit 1
}

# Runs the script of standard input, and prints what comes after `ok`, line by line.
run() {
    "$nfs3" run "${at[@]}" | sed -E 's/^1 [0-9]+ ok ?//'
}

# The bytes of a file, of so many from an offset on.
bytes() {
    local offset=$2 end=$(($2 + line * lines))
    {
        printf '1 open 1 r %s\n' "$1"
        for (( ; offset < end && offset < $3; offset += line)); do
            echo "1 read 1 $offset $line"
        done
        printf '1 close 1\n'
    } | run | tr -d '\n' | tr a-f A-F | basenc --base16 -d
}

restore_file() {
    local path=$1 file=$2 size=$3 offset
    : >"$file" || exit 1
    for ((offset = 0; offset < size; offset += line * lines)); do
        bytes "$path" "$offset" "$size" >>"$file" || fail "$path: can't be read"
    done
    [ "$(stat -c %s -- "$file")" = "$size" ] || fail "$path: isn't whole"
}

# A name as the list shows it is what a script's path takes; %XX stands for a byte.
restore() {
    local path=$1 file=$2 name plain kind size
    local -a shown names
    shown=$(printf '1 stat %s\n' "${path:-/}" | run) || fail "${path:-/}: isn't there"
    read -r kind _ _ _ _ size _ <<<"$shown"
    case $kind in
    1) restore_file "$path" "$file" "$size" ;;
    2)
        mkdir -p -- "$file" || exit 1
        shown=$(printf '1 list %s\n' "${path:-/}" | run) || fail "${path:-/}: can't be listed"
        read -ra names <<<"$shown"
        for name in "${names[@]}"; do
            plain=${name//\\/\\\\}
            printf -v plain '%b' "${plain//%/\\x}"
            restore "$path/$name" "$file/$plain"
        done
        ;;
    *) fail "$path: neither a file nor a folder" ;;
    esac
}

restore "${1%/}" "$2"
