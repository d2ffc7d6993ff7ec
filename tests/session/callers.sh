#!/usr/bin/env bash
# Tries `nfs3 run --batches` over `nfs3 export` on the loopback: callers in Python, one of which has two batches under way, a connection that is forgotten
# between two batches, and the backup and restore of examples. The program is that of bin/nfs3, or the one that the variable NFS3 names. The last line is
# 'N passed, M failed', and the status is 0 where nothing failed.
set -u

here=$(dirname -- "$(readlink -f -- "${BASH_SOURCE[0]}")")
export NFS3=${NFS3:-$here/../../bin/nfs3}
examples=$here/../../examples
. "$here/../lib.sh"

work=$(mktemp -d -t nfs3-callers.XXXXXX)
started=()

# Ends what is still running, and removes the files.
end_all() {
    local process
    for process in "${started[@]}"; do
        end "$process"
    done
    rm -rf -- "$work"
}
trap end_all EXIT

# Starts a program that prints `listening` once it listens.
start() {
    mkfifo "$work/listening"
    "$@" >"$work/listening" 2>>"$work/warned" &
    started+=($!)
    read -r -t 30 <"$work/listening"
    rm -f -- "$work/listening"
}

# A test of callers.py: its name, and what comes before the host.
calls() {
    python3 "$here/callers.py" "$@" >"$work/said" 2>&1
    count $? "$1: $(tail -1 "$work/said")"
}

# No one listens: the set-up is lost, which takes a minute. Each batch is answered, and the program stays to the end of its input.
start_a_lost_session() {
    printf '1 stat /\ngo\n1 stat /\n2 stat /\ngo\n' | "$NFS3" run --batches 127.0.0.1 /srv --mount-port 1 --nfs-port 1 >"$work/lost" 2>/dev/null &
    lost=$!
    started+=("$lost")
}

end_a_lost_session() {
    local status
    wait "$lost"
    status=$?
    [ "$status $(tr '\n' ';' <"$work/lost")" = '6 1 1 lost;done 1 6;1 3 lost;2 4 lost;done 2 6;' ]
    count $? "a lost session: $status $(cat "$work/lost")"
}

# A mount that is refused ends the program.
try_a_refused_mount() {
    local status
    printf '# nothing\ngo\n1 stat /\ngo\n' | "$NFS3" run --batches 127.0.0.1 /other "${at[@]:2}" >"$work/refused" 2>/dev/null
    status=$?
    [ "$status $(tr '\n' ';' <"$work/refused")" = '8 done 1 0;mount 2;' ]
    count $? "a refused mount: $status $(cat "$work/refused")"
}

# A folder with folders, links, an empty file, files that take several batches, all bytes, and names with other bytes than letters.
make_a_folder() {
    mkdir -p "$work/there/b c/d/e" "$work/there/%41" "$work/there/empty folder"
    : >"$work/there/empty"
    printf 'a line\n' >"$work/there/b c/é%"
    head -c 65536 /dev/zero >"$work/there/b c/d/zeros"
    head -c 3000001 /dev/urandom >"$work/there/long"
    for file in $(seq 40); do seq "$file" $((file * 37)) >"$work/there/b c/d/e/$file"; done
    LC_ALL=C awk 'BEGIN { for (i = 0; i < 256; i++) printf "%c", i }' >"$work/there/bytes"
    ln -s 'b c/é%' "$work/there/link"
    ln -s /nowhere/at/all "$work/there/b c/dangling"
}

try_a_backup() {
    make_a_folder
    "$examples/backup.py" "$work/there" /kept "${at[@]}" >"$work/said" 2>&1
    count $? "a backup: $(cat "$work/said")"
    "$examples/backup.py" "$work/there" /kept "${at[@]}" >"$work/said" 2>&1
    count $? "a backup over the one before: $(cat "$work/said")"
    "$examples/restore.py" /kept "$work/back" "${at[@]}" >"$work/said" 2>&1
    count $? "a restore: $(cat "$work/said")"
    diff -r --no-dereference "$work/there" "$work/back" >"$work/said" 2>&1
    count $? "what came back differs: $(head -5 "$work/said")"
    "$examples/restore.py" /kept/none "$work/none" "${at[@]}" >"$work/said" 2>&1
    [ $? -ne 0 ]
    count $? "a restore of what isn't there fails: $(cat "$work/said")"
    mkfifo "$work/there/pipe"
    "$examples/backup.py" "$work/there" /kept "${at[@]}" >"$work/said" 2>&1
    [ $? -eq 1 ] && [ "$(wc -l <"$work/said")" -eq 1 ]
    count $? "a pipe is named, and all else is copied: $(cat "$work/said")"
}

choose_port
server_port=$port
start "$NFS3" export "$server_port" 100000000
at=(127.0.0.1 /srv --mount-port "$server_port" --nfs-port "$server_port")
start_a_lost_session
calls waits "${at[@]}"
calls ahead "${at[@]}"
calls refused "${at[@]}"
calls long "${at[@]}"
try_a_refused_mount
try_a_backup
choose_port
start python3 "$here/forgetful.py" "$port" "$server_port"
calls forgotten "${started[-1]}" 127.0.0.1 /srv --mount-port "$server_port" --nfs-port "$port"
end_a_lost_session
sum_up
