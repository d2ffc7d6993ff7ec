#!/usr/bin/env bash
# Tries `nfs3 copy` from a server, and `--check`, over `nfs3 export` on the loopback: a folder goes there and comes back the same; what differs is named, one line
# each; nothing is written through a link that came from the server. The program is that of bin/nfs3, or the one that the variable NFS3 names. The last line is
# 'N passed, M failed', and the status is 0 where nothing failed.
set -u

here=$(dirname -- "$(readlink -f -- "${BASH_SOURCE[0]}")")
export NFS3=${NFS3:-$here/../../bin/nfs3}
. "$here/../lib.sh"

work=$(mktemp -d -t nfs3-fetch.XXXXXX)
server=

# Ends what is still running, and removes the files.
end_all() {
    [ -n "$server" ] && end "$server"
    rm -rf -- "$work"
}
trap end_all EXIT

# Runs a copy: its status, and what standard error is to say, line by line in any order. Words before the host are given as one.
copies() {
    local wanted=$1 lines=$2 early=$3
    shift 3
    # shellcheck disable=SC2086
    "$NFS3" copy $early 127.0.0.1 /srv "$@" "${ports[@]}" >"$work/said" 2>"$work/warned"
    [ "$? $(LC_ALL=C sort "$work/warned")$(cat "$work/said")" = "$wanted $lines" ]
    count $? "copy $early $*: $(head -5 "$work/said" "$work/warned")"
}

# Two folders are the same, and nothing is left of files that weren't whole.
same() {
    diff -r --no-dereference "$1" "$2" >"$work/said" 2>&1
    count $? "$1 differs from $2: $(head -3 "$work/said")"
    [ -z "$(find "$2" -name '.nfs3-copy-*')" ]
    count $? 'nothing is left beside'
}

# A script of lines that are done before.
runs() {
    "$NFS3" run 127.0.0.1 /srv "${ports[@]}" >"$work/said" 2>&1
    count $? "script: $(head -3 "$work/said")"
}

make_a_folder() {
    mkdir -p "$work/there/b c/d/e" "$work/there/%41" "$work/there/empty folder"
    : >"$work/there/empty"
    printf 'a line\n' >"$work/there/b c/é%"
    head -c 65536 /dev/zero >"$work/there/b c/d/zeros"
    head -c 9000001 /dev/urandom >"$work/there/long"
    head -c 4194304 /dev/urandom >"$work/there/even"
    for file in $(seq 300); do echo "$file" >"$work/there/b c/d/e/$file"; done
    LC_ALL=C awk 'BEGIN { for (i = 0; i < 256; i++) printf "%c", i }' >"$work/there/bytes"
    ln -s 'b c/é%' "$work/there/link"
    ln -s /nowhere/at/all "$work/there/b c/dangling"
}

try_folders() {
    copies 0 '' '' "$work/there" :/kept
    copies 0 '' '' :/kept "$work/back"
    same "$work/there" "$work/back"
    copies 0 '' '' :/kept/ "$work/back/"
    same "$work/there" "$work/back"
    copies 0 '' --check "$work/there" :/kept
    copies 0 '' --check :/kept "$work/back"
    copies 0 '' '' :/kept/bytes "$work/one"
    cmp -s "$work/one" "$work/there/bytes"
    count $? 'one file'
}

try_differences() {
    echo x >>"$work/back/bytes"
    printf 'A line\n' >"$work/back/b c/é%"
    printf 'eight xs' | dd of="$work/back/long" bs=1 seek=8000000 conv=notrunc status=none
    rm "$work/back/empty" && mkdir "$work/back/empty"
    rmdir "$work/back/empty folder"
    ln -sfn elsewhere "$work/back/link"
    echo more >"$work/back/more"
    copies 1 $'nfs3: /kept/b%20c/%c3%a9%25: differs\nnfs3: /kept/bytes: differs\nnfs3: /kept/empty%20folder: isn\'t here\nnfs3: /kept/empty: something of another kind is here\nnfs3: /kept/link: differs\nnfs3: /kept/long: differs\nnfs3: /kept/more: isn\'t on the server' --check :/kept "$work/back"
    rmdir "$work/back/empty" && rm "$work/back/more" "$work/back/link"
    copies 0 '' --size-only :/kept "$work/back"
    [ "$(cat "$work/back/b c/é%")" = 'A line' ] && cmp -s "$work/back/bytes" "$work/there/bytes"
    count $? 'files of the same size are passed over, and no others'
    copies 0 '' '--check --size-only' :/kept "$work/back"
    copies 1 $'nfs3: /kept/b%20c/%c3%a9%25: differs\nnfs3: /kept/long: differs' --check :/kept "$work/back"
    copies 0 '' '' :/kept "$work/back"
    same "$work/there" "$work/back"
}

# Nothing is written through links, whether they came from the server or stood here before.
try_links() {
    mkdir "$work/outside"
    runs <<END
1 mkdir /out
1 symlink /out/a $work/outside
1 open 1 c /out/b
1 write 1 0 6162
1 close 1
END
    copies 0 '' '' :/out "$work/out"
    [ "$(readlink "$work/out/a")" = "$work/outside" ]
    count $? 'a link that leads out is made as it is'
    runs <<END
1 remove /out/a
1 mkdir /out/a
1 open 1 c /out/a/file
1 write 1 0 6162
1 close 1
END
    ln -sfn "$work/outside/b" "$work/out/b"
    copies 1 'nfs3: /out/a: something of another kind is here' '' :/out "$work/out"
    [ -z "$(ls -A "$work/outside")" ] && [ ! -L "$work/out/b" ] && [ "$(cat "$work/out/b")" = ab ]
    count $? 'nothing is written through a link'
}

try_refusals() {
    runs <<END
1 mkdir /some
1 open 1 c /some/%ff
1 write 1 0 6162
1 close 1
1 open 1 c /some/a
1 write 1 0 6162
1 close 1
1 mkdir /some/b
1 open 1 c /some/b/c
1 write 1 0 6162
1 close 1
END
    mkdir -p "$work/some/a"
    echo file >"$work/some/b"
    copies 1 $'nfs3: /some/%ff: its name can\'t be used here\nnfs3: /some/a: the system refused it\nnfs3: /some/b: something of another kind is here' '' :/some "$work/some"
    [ -z "$(find "$work/some" -name '.nfs3-copy-*')" ]
    count $? 'nothing is left beside'
    copies 1 'nfs3: /missing: nfs 2' '' :/missing "$work/missing"
    copies 2 'nfs3: usage' '' :/kept :/other
    copies 2 'nfs3: usage' --check "$work/there" "$work/back"
    copies 2 'nfs3: usage' --size-only "$work/there" :/kept
}

# Runs the program without the rights of a superuser to read what its owner may not.
bare() {
    if [ "$(id -u)" -eq 0 ]; then
        setpriv --inh-caps=-all --bounding-set=-all "$NFS3" "$@"
    else
        "$NFS3" "$@"
    fi
}

# A folder here that can't be listed may hold more than the server's: so it isn't equal.
try_closed_folder() {
    mkdir -p "$work/closed/b"
    runs <<END
1 mkdir /closed
1 mkdir /closed/b
END
    chmod 311 "$work/closed/b"
    bare copy --check 127.0.0.1 /srv :/closed "$work/closed" "${ports[@]}" >"$work/said" 2>"$work/warned"
    [ "$? $(cat "$work/warned")" = "1 nfs3: /closed/b: can't be listed here" ]
    count $? "a folder that can't be listed: $(cat "$work/warned")"
    chmod 755 "$work/closed/b"
}

choose_port
ports=(--mount-port "$port" --nfs-port "$port")
mkfifo "$work/listening"
"$NFS3" export "$port" 100000000 >"$work/listening" 2>/dev/null &
server=$!
read -r -t 30 <"$work/listening"
make_a_folder
try_folders
try_differences
try_links
try_refusals
try_closed_folder
sum_up
