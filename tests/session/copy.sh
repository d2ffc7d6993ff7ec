#!/usr/bin/env bash
# Tries `nfs3 copy` over `nfs3 export` on the loopback: a folder goes there, twice, and what came is brought back by examples/restore.py and compared;
# what can't be copied is named, one line each, and the rest is copied. The program is that of bin/nfs3, or the one that the variable NFS3 names. The
# last line is 'N passed, M failed', and the status is 0 where nothing failed.
set -u

here=$(dirname -- "$(readlink -f -- "${BASH_SOURCE[0]}")")
export NFS3=${NFS3:-$here/../../bin/nfs3}
examples=$here/../../examples
. "$here/../lib.sh"

work=$(mktemp -d -t nfs3-copy.XXXXXX)
server=

# Ends what is still running, and removes the files.
end_all() {
    [ -n "$server" ] && end "$server"
    rm -rf -- "$work"
}
trap end_all EXIT

# Runs a copy: its status, and what standard error is to say, line by line in any order.
copies() {
    local wanted=$1 lines=$2
    shift 2
    "$NFS3" copy 127.0.0.1 /srv "$@" "${ports[@]}" >"$work/said" 2>"$work/warned"
    [ "$? $(sort "$work/warned")$(cat "$work/said")" = "$wanted $lines" ]
    count $? "copy $*: $(cat "$work/said" "$work/warned")"
}

# What stands at a path of the server is the same as what stands at a path of this machine.
came() {
    rm -rf -- "$work/back"
    "$examples/restore.py" "$1" "$work/back" 127.0.0.1 /srv "${ports[@]}" >"$work/said" 2>&1 && diff -r --no-dereference "$2" "$work/back" >"$work/said" 2>&1
    count $? "$1 differs from $2: $(head -3 "$work/said")"
}

# A folder with folders, links, an empty file, files that take several scripts, all bytes, and names with other bytes than letters.
make_a_folder() {
    mkdir -p "$work/there/b c/d/e" "$work/there/%41" "$work/there/empty folder"
    : >"$work/there/empty"
    printf 'a line\n' >"$work/there/b c/é%"
    head -c 65536 /dev/zero >"$work/there/b c/d/zeros"
    head -c 12000001 /dev/urandom >"$work/there/long"
    for file in $(seq 2000); do echo "$file" >"$work/there/b c/d/e/$file"; done
    LC_ALL=C awk 'BEGIN { for (i = 0; i < 256; i++) printf "%c", i }' >"$work/there/bytes"
    ln -s 'b c/é%' "$work/there/link"
    ln -s /nowhere/at/all "$work/there/b c/dangling"
}

try_folders() {
    copies 0 '' "$work/there" :/kept
    came /kept "$work/there"
    echo more >>"$work/there/bytes"
    head -c 100 /dev/urandom >"$work/there/long"
    copies 0 '' "$work/there/" :/kept/
    came /kept "$work/there"
    copies 0 '' "$work/there/b c" :/
    copies 0 '' "$work/there/link" :/kept/one
    came /kept/one "$work/there/b c/é%"
}

# What isn't copied, and that the rest is.
try_refusals() {
    mkdir "$work/some"
    echo a >"$work/some/a"
    mkfifo "$work/some/pipe"
    echo b >"$work/some/"$'\xff'
    ln -s elsewhere "$work/some/link"
    "$NFS3" run 127.0.0.1 /srv "${ports[@]}" >/dev/null <<END
1 mkdir /some
1 symlink /some/link there
1 mkdir /some/b
END
    echo file >"$work/some/b"
    copies 1 $'nfs3: /some/%ff: can\'t be read\nnfs3: /some/b: type\nnfs3: /some/link: nfs 17\nnfs3: /some/pipe: neither a file, a folder nor a link' \
        "$work/some" :/some
    [ "$(echo '1 list /some' | "$NFS3" run 127.0.0.1 /srv "${ports[@]}")" = '1 1 ok a b link' ]
    count $? 'all else is copied'
    copies 1 'nfs3: /none/at/all: nfs 2' "$work/there/bytes" :/none/at/all
    copies 1 'nfs3: /missing: can'"'"'t be read' "$work/missing" :/missing
    copies 2 'nfs3: usage' "$work/there" /kept
    copies 2 'nfs3: usage' "$work/there" :kept
    copies 2 'nfs3: usage' "$work/there" :/kept/../other
    copies 2 'nfs3: usage' "$work/there"
}

# A file whose reading fails, and one that is larger than the server takes.
try_failures() {
    copies 1 "nfs3: /mem: can't be read to its end" /proc/self/mem :/mem
    mkdir "$work/two"
    echo a >"$work/two/a"
    head -c 16777217 /dev/zero >"$work/two/b"
    copies 1 'nfs3: /two/b: nfs 27' "$work/two" :/two
    [ "$(echo '1 stat /two/a' | "$NFS3" run 127.0.0.1 /srv "${ports[@]}" | cut -d ' ' -f 3,9)" = 'ok 2' ]
    count $? 'the other file is copied'
}

# Lines of progress, of which the last has at most what there is.
try_progress() {
    "$NFS3" copy --progress 127.0.0.1 /srv "$work/there" :/shown "${ports[@]}" >"$work/said" 2>"$work/warned"
    [ "$?$(grep -vE '^nfs3: [0-9]+ files, [0-9]+ bytes$' "$work/warned")$(cat "$work/said")" = 0 ]
    count $? "progress: $(head -3 "$work/said" "$work/warned")"
}

choose_port
ports=(--mount-port "$port" --nfs-port "$port")
mkfifo "$work/listening"
"$NFS3" export "$port" 100000000 >"$work/listening" 2>/dev/null &
server=$!
read -r -t 30 <"$work/listening"
make_a_folder
try_folders
try_refusals
try_progress
try_failures
sum_up
