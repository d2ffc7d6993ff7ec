#!/usr/bin/env bash
# Tries `nfs3 run --batches` and `replay --batches` with pipes: callers that wait for `done`, input that is cut, a connection that the
# server closes between two batches, and how much memory a long session takes. The program is that of bin/nfs3, or the one that the
# variable NFS3 names. The last line is 'N passed, M failed', and the status is 0 where nothing failed.
set -u

here=$(dirname -- "$(readlink -f -- "${BASH_SOURCE[0]}")")
nfs3=${NFS3:-$here/../../bin/nfs3}
. "$here/../lib.sh"
choose_port
server=

work=$(mktemp -d -t nfs3-batches.XXXXXX)

# Ends what is still running, and removes the files.
end_all() {
    [ -n "$server" ] && end "$server"
    rm -rf -- "$work"
}
trap end_all EXIT

# Writes a batch to the session, and reads up to its `done`: its lines, parted by commas. At most 60 seconds pass.
batch() {
    local line said=
    printf '%s\ngo\n' "$1" >&"${session[1]}"
    while read -r -t 60 line <&"${session[0]}"; do
        said+=$line,
        case $line in done*) break ;; esac
    done
    printf '%s' "$said"
}

# The batch was answered so.
answers() {
    local said
    said=$(batch "$1")
    [ "$said" = "$2" ]
    count $? "the batch '$1' is answered '$2': $said"
}

# Closes the input of the session, which ends with this status then.
closes() {
    local process=$session_PID status
    exec {session[1]}>&-
    wait "$process"
    status=$?
    [ "$status" -eq "$1" ]
    count $? "the session ends with $1: $status"
}

# A caller of one thread, which writes a batch and reads up to its `done`.
try_a_caller() {
    printf 'file /a 6162\n' >"$work/schedule"
    coproc session { exec "$nfs3" replay --batches "$work/schedule" /srv 2>/dev/null; }
    answers '1 open 1 rw /a' '1 1 ok,done 1 0,'
    answers '1 read 1 0 2' '1 3 ok 6162,done 2 0,'
    answers $'1 write 1 0 7a\n1 open 2 q /a' 'script 6 5,done 3 3,'
    answers $'# nothing\n' 'done 4 0,'
    answers $'1 write 1 0 7a\n1 read 1 0 2\n1 close 1' '1 11 ok,1 12 ok 7a62,1 13 ok,done 5 0,'
    closes 3
}

# Input that is cut in mid-line: `remove /d/b` is the front of another line.
try_a_cut() {
    local said
    printf 'dir /d\nfile /d/b 61\nfile /d/bc 62\n' >"$work/schedule"
    said=$(printf '1 list /d\ngo\n1 remove /d/b' | "$nfs3" replay --batches "$work/schedule" /srv 2>/dev/null)
    [ "$? $said" = $'3 1 1 ok b bc\ndone 1 0\nscript 3 10\ndone 2 3' ]
    count $? "an input that is cut: $said"
}

# Input without a `go` is read to its end before anything is written.
try_no_end() {
    local said
    : >"$work/schedule"
    said=$(yes '1 access / 1' | head -c 1048576 | "$nfs3" replay --batches "$work/schedule" /srv 2>/dev/null)
    [ "$? $said" = $'3 script 80660 10\ndone 1 3' ]
    count $? "an input of 1 MiB without a go: $said"
}

# The server closes a connection on which nothing comes for 15 seconds. The next batch goes over another one, and slots stay.
# The calls are MNT, FSINFO, LOOKUP, GETATTR and READ twice.
try_a_pause() {
    local listening
    printf 'file /a 6162\n' >"$work/schedule"
    mkfifo "$work/listening"
    "$nfs3" export "$port" 6 "$work/schedule" >"$work/listening" 2>"$work/warned" &
    server=$!
    read -r -t 30 listening <"$work/listening"
    [ "$listening" = "listening $port" ]
    count $? "the server listens: $listening$(cat "$work/warned")"
    coproc session { exec "$nfs3" run --batches 127.0.0.1 /srv --mount-port "$port" --nfs-port "$port" 2>/dev/null; }
    answers $'1 open 1 r /a\n1 read 1 0 1' '1 1 ok,1 2 ok 61,done 1 0,'
    sleep 20
    answers '1 read 1 1 1' '1 4 ok 62,done 2 0,'
    closes 0
    end "$server"
    server=
}

# The greatest resident size of a session of so many batches, each of 1 MiB of comments, in KiB.
size_of() {
    local count=$1
    (
        for _ in $(seq "$count"); do
            yes '# 0123456789012345678901234567890123456789012345678901234567890' | head -n 16383
            echo 'go'
        done
        echo '1 access / 1'
        echo 'go'
    ) | "$nfs3" replay --batches "$work/schedule" /srv >"$work/said" &
    local process=$! most=0 now
    while now=$(sed -n 's/^VmHWM:[^0-9]*\([0-9]*\).*/\1/p' "/proc/$process/status" 2>/dev/null) && [ -n "$now" ]; do
        most=$now
        sleep 0.05
    done
    wait "$process"
    echo "$most"
}

# A long session takes no more memory than a short one. Of a short one the greatest size may be missed between two looks, so there is
# room of 8 MiB; a session that kept its batches would take a hundred.
try_memory() {
    local few many
    : >"$work/schedule"
    few=$(size_of 5)
    many=$(size_of 100)
    [ "$(tail -n 1 "$work/said")" = 'done 101 0' ] && [ "$few" -gt 0 ] && [ "$many" -le $((few + 8192)) ]
    count $? "100 batches of 1 MiB take as much memory as 5: $many and $few KiB"
}

# The command lines that are no session of batches.
try_refusals() {
    local words
    for words in 'run --batches' 'run --batches 127.0.0.1 --portmap 111 /srv' 'make --batches 1 /srv'; do
        # shellcheck disable=SC2086
        "$nfs3" $words </dev/null >"$work/said" 2>&1
        [ $? -eq 2 ]
        count $? "'$words' is refused: $(cat "$work/said")"
    done
}

try_a_caller
try_a_cut
try_no_end
try_memory
try_refusals
try_a_pause
sum_up
