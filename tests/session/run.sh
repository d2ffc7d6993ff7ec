#!/usr/bin/env bash
# Tries `nfs3 run` with `nfs3 export`, on this machine alone: the server is waited for by the line that it writes once it
# listens, answers the calls of one script, and ends by itself. The program is that of bin/nfs3, or the one that the variable
# NFS3 names. The last line is 'N passed, M failed', and the status is 0 where nothing failed.
set -u

here=$(dirname -- "$(readlink -f -- "${BASH_SOURCE[0]}")")
nfs3=${NFS3:-$here/../../bin/nfs3}
. "$here/../lib.sh"

work=$(mktemp -d -t nfs3-session.XXXXXX)
server=
client=

# Ends what is still running, and removes the files.
end_all() {
    local process
    for process in $server $client; do
        kill "$process" 2>/dev/null
    done
    rm -rf -- "$work"
}

# Starts a server of so many calls, and waits at most 30 seconds until it listens: `--udp` or nothing, CALLS, and a schedule's
# file or nothing.
start_server() {
    mkfifo "$work/listening"
    local over=()
    [ "$1" = --udp ] && over=(--udp) && shift
    "$nfs3" export "${over[@]}" "$port" "$@" >"$work/listening" 2>"$work/warned" &
    server=$!
    listening=
    read -r -t 30 listening <"$work/listening"
    rm -f -- "$work/listening"
    [ "$listening" = "listening $port" ]
}

# The same; where another program has the port, another one is tried.
serve() {
    for _ in $(seq 10); do
        start_server "$@" && break
        wait "$server"
        choose_port
    done
    [ "$listening" = "listening $port" ]
    count $? "the server listens: $listening$(cat "$work/warned")"
}

# The server has ended with this status.
ended() {
    wait "$server"
    local status=$?
    server=
    [ "$status" -eq "$1" ]
    count $? "the server ends with $1: $status"
}

# Runs a script with the server: its text, what it is to write, and its status.
session() {
    local status
    printf '%s' "$1" | "$nfs3" run 127.0.0.1 /srv --mount-port "$port" --nfs-port "$port" >"$work/said" 2>&1
    status=$?
    [ "$status $(cat "$work/said")" = "$3 $2" ]
    count $? "the script '$1' comes to: $status $(cat "$work/said")"
}

# The six calls of a put are MNT, FSINFO, LOOKUP, GETATTR, WRITE and COMMIT.
try_a_put() {
    printf 'file /a 6869\n' >"$work/schedule"
    serve 6 "$work/schedule"
    session '1 put /a 0 6a6b6c' '1 1 ok' 0
    ended 0
}

# A script of several lines: MNT, FSINFO, LOOKUP, GETATTR and READ.
try_a_read() {
    printf 'file /a 6869\n' >"$work/schedule"
    serve 5 "$work/schedule"
    session $'1 open 1 r /a\n1 read 1 0 10\n1 close 1' $'1 1 ok\n1 2 ok 6869\n1 3 ok' 0
    ended 0
}

# The same by the port mapper, over a connection of its own: two calls of GETPORT come before these five. And over UDP, without
# a port mapper.
try_other_ways() {
    printf 'file /a 6869\n' >"$work/schedule"
    printf '1 open 1 r /a\n1 read 1 0 10\n1 close 1' >"$work/script"
    serve 7 "$work/schedule"
    "$nfs3" run 127.0.0.1 /srv --portmap "$port" <"$work/script" >"$work/said" 2>&1
    comes_to 0 $'1 1 ok\n1 2 ok 6869\n1 3 ok' $? 'a read by the port mapper'
    ended 0
    serve --udp 5 "$work/schedule"
    "$nfs3" run --udp 127.0.0.1 /srv --mount-port "$port" --nfs-port "$port" <"$work/script" >"$work/said" 2>&1
    comes_to 0 $'1 1 ok\n1 2 ok 6869\n1 3 ok' $? 'a read over UDP'
    ended 0
}

# Without a schedule there is no file: MNT, FSINFO and LOOKUP.
try_an_empty_export() {
    serve 3
    session '1 put /a 0 6a6b6c' '1 1 nfs 2' 1
    ended 0
}

# A connection on which nothing comes is closed after 15 seconds, and the next one is served.
try_a_silent_connection() {
    printf 'file /a 6869\n' >"$work/schedule"
    serve 6 "$work/schedule"
    exec 7<>"/dev/tcp/127.0.0.1/$port"
    (
        sleep 16
        printf '1 put /a 0 6a6b6c' | "$nfs3" run 127.0.0.1 /srv --mount-port "$port" --nfs-port "$port"
    ) >"$work/after" 2>&1
    [ "$(cat "$work/after")" = '1 1 ok' ]
    count $? "after a silent connection the next one is served: $(cat "$work/after")"
    exec 7>&-
    ended 0
}

# The last command ended as is wanted: the status and the text that are wanted, its own status, and what it was. What it
# said is in the file `said`.
comes_to() {
    local said
    said="$3 $(cat "$work/said")"
    [ "$said" = "$1 $2" ]
    count $? "$4 comes to: $said"
}

# A standard stream that is closed at the start is a fault once it is needed, and no connection takes its place. The five
# calls of a put without a mount are FSINFO, LOOKUP, GETATTR, WRITE and COMMIT.
try_closed_streams() {
    local put=("$nfs3" run 127.0.0.1 --root 0000000000000001 --nfs-port "$port")
    printf 'file /a 6869\n' >"$work/schedule"
    printf '1 put /a 0 6a6b6c' >"$work/script"
    serve 5 "$work/schedule"
    "${put[@]}" <"$work/script" 2>"$work/said" >&-
    comes_to 5 'nfs3: write fault' $? 'a put without standard output'
    ended 0
    serve 5 "$work/schedule"
    "${put[@]}" <"$work/script" >"$work/said" 2>&-
    comes_to 0 '1 1 ok' $? 'a put without standard error'
    ended 0
    "${put[@]}" 2>"$work/said" <&-
    comes_to 4 'nfs3: read fault' $? 'a put without standard input'
    "${put[@]}" 2>"$work/said" <&- >&-
    comes_to 4 'nfs3: read fault' $? 'a put without standard input and output'
    "$nfs3" replay "$work/schedule" /srv 2>"$work/said" <&-
    comes_to 4 'nfs3: read fault' $? 'a replay without standard input'
    "$nfs3" replay "$work/schedule" /srv <"$work/script" 2>"$work/said" >&-
    comes_to 5 'nfs3: write fault' $? 'a replay without standard output'
    "$nfs3" export "$port" 1 2>"$work/said" >&-
    comes_to 5 'nfs3: write fault' $? 'an export without standard output'
}

# Stops a process for a second.
pause() {
    kill -STOP "$1"
    sleep 1
    kill -CONT "$1"
    sleep 1
}

# A wait that is interrupted goes on: first the client is stopped while it waits for the server, which is stopped too, and then
# the server while it waits for the NULL call of a connection.
try_stopped_processes() {
    local client reply
    printf 'file /a 6869\n' >"$work/schedule"
    printf '1 put /a 0 6a6b6c' >"$work/script"
    serve 6 "$work/schedule"
    kill -STOP "$server"
    "$nfs3" run 127.0.0.1 /srv --mount-port "$port" --nfs-port "$port" <"$work/script" >"$work/said" 2>&1 &
    client=$!
    sleep 2
    pause "$client"
    kill -CONT "$server"
    wait "$client"
    comes_to 0 '1 1 ok' $? 'a put that is stopped'
    ended 0
    serve 1
    exec 7<>"/dev/tcp/127.0.0.1/$port"
    sleep 1
    pause "$server"
    printf '%b' '\x80\0\0\x28' '\0\0\0\1' '\0\0\0\0' '\0\0\0\2' '\0\1\x86\xa3' '\0\0\0\3' >&7
    printf '\0%.0s' {1..20} >&7
    reply=$(timeout 10 head -c 28 <&7 | od -An -v -tx4 --endian=big | tr -d '\n')
    [ "$reply" = ' 80000018 00000001 00000001 00000000 00000000 00000000 00000000' ]
    count $? "a server that is stopped answers: $reply"
    exec 7>&-
    ended 0
}

# Sends a record, given by hex digits, and shows so many bytes of what comes back.
ask() {
    local digits=${1// /}
    printf '%b' "$(sed 's/../\\x&/g' <<<"$digits")" >&7
    timeout 10 head -c "$2" <&7 | od -An -v -tx4 --endian=big | tr -d '\n'
}

# GETPORT of a program, version 3, without its record mark: the xid, and the numbers of program and protocol.
getport="00000000 00000002 000186a0 00000002 00000003 00000000 00000000 00000000 00000000"
mount_over_tcp="00000001 $getport 000186a5 00000003 00000006 00000000"
nfs_over_tcp="00000002 $getport 000186a3 00000003 00000006 00000000"
nfs_over_udp="00000003 $getport 000186a3 00000003 00000011 00000000"

# The server is its own port mapper. After its answer for NFS the connection is closed, and the six calls of a put are
# answered over the next one.
try_a_port_mapper() {
    local reply shown
    shown=$(printf '%08x' "$port")
    printf 'file /a 6869\n' >"$work/schedule"
    serve 8 "$work/schedule"
    exec 7<>"/dev/tcp/127.0.0.1/$port"
    reply=$(ask "80000038 $mount_over_tcp" 32)
    [ "$reply" = " 8000001c 00000001 00000001 00000000 00000000 00000000 00000000 $shown" ]
    count $? "the port of MOUNT is told: $reply"
    reply=$(ask "80000038 $nfs_over_tcp" 32)
    [ "$reply" = " 8000001c 00000002 00000001 00000000 00000000 00000000 00000000 $shown" ]
    count $? "the port of NFS is told: $reply"
    timeout 10 cat <&7 >/dev/null
    count $? "the connection is closed after it: $?"
    session '1 put /a 0 6a6b6c' '1 1 ok' 0
    exec 7>&-
    ended 0
}

# Each datagram is answered to whoever sent it: GETPORT, a record that is no call, which isn't, and the NULL call of NFS.
try_datagrams() {
    local reply shown
    shown=$(printf '%08x' "$port")
    serve --udp 2
    exec 7<>"/dev/udp/127.0.0.1/$port"
    reply=$(ask "$nfs_over_udp" 28)
    [ "$reply" = " 00000003 00000001 00000000 00000000 00000000 00000000 $shown" ]
    count $? "the port of NFS is told over UDP: $reply"
    exec 7>&-
    exec 7<>"/dev/udp/127.0.0.1/$port"
    printf 'no call' >&7
    reply=$(ask '00000001 00000000 00000002 000186a3 00000003 00000000 00000000 00000000 00000000 00000000' 24)
    [ "$reply" = ' 00000001 00000001 00000000 00000000 00000000 00000000' ]
    count $? "a call over UDP is answered: $reply"
    exec 7>&-
    ended 0
}

# A server that isn't there yet is waited for: its first connects are refused. Over UDP nothing is refused, and the call goes
# again after 15 seconds.
try_a_late_server() {
    printf 'file /a 6869\n' >"$work/schedule"
    printf '1 put /a 0 6a6b6c' >"$work/script"
    "$nfs3" run 127.0.0.1 /srv --mount-port "$port" --nfs-port "$port" <"$work/script" >"$work/said" 2>&1 &
    client=$!
    sleep 3
    start_server 6 "$work/schedule"
    wait "$client"
    comes_to 0 '1 1 ok' $? 'a put before the server is there'
    ended 0
    "$nfs3" run --udp 127.0.0.1 /srv --mount-port "$port" --nfs-port "$port" <"$work/script" >"$work/said" 2>&1 &
    client=$!
    sleep 3
    start_server --udp 6 "$work/schedule"
    wait "$client"
    comes_to 0 '1 1 ok' $? 'a put over UDP before the server is there'
    client=
    ended 0
}

# Where nothing listens the session is lost, after four connects of 15 seconds. Others are tried in the meantime.
start_without_a_server() {
    local begun=$SECONDS
    (
        printf '1 put /a 0 6a6b6c' | "$nfs3" run 127.0.0.1 /srv --mount-port 1 2>&1
        echo "$? after $(((SECONDS - begun + 5) / 10))0 s"
    ) >"$work/alone" &
    alone=$!
}

end_without_a_server() {
    wait "$alone"
    [ "$(cat "$work/alone")" = $'1 1 lost\nnfs3: link lost\n6 after 60 s' ]
    count $? "a session without a server is lost: $(cat "$work/alone")"
}

# A record that doesn't fit in a datagram isn't sent, and loses the session: the WRITE of a put, after MNT, FSINFO, LOOKUP and
# GETATTR.
try_a_large_datagram() {
    printf 'file /a 6869\n' >"$work/schedule"
    printf '1 put /a 0 %0131072d' 0 >"$work/script"
    serve --udp 5 "$work/schedule"
    "$nfs3" run --udp 127.0.0.1 /srv --wsize 65536 --mount-port "$port" --nfs-port "$port" <"$work/script" >"$work/said" 2>&1
    comes_to 6 $'1 1 lost\nnfs3: link lost' $? 'a put that fits in no datagram'
    kill "$server"
    wait "$server" 2>/dev/null
    server=
}

# What a command says on standard error, and its status.
refused() {
    local answer
    answer=$("$nfs3" export "${@:2}" 2>&1 >/dev/null; echo $?)
    [ "$answer" = "$1" ]
    count $? "export ${*:2} comes to: $answer"
}

try_refusals() {
    refused $'nfs3: usage\n2' 0 5
    refused $'nfs3: usage\n2' "$port" 0
    refused $'nfs3: usage\n2' 65536 5
    refused $'nfs3: usage\n2' "$port" 4294967296
    refused $'nfs3: usage\n2' "+$port" 5
    refused $'nfs3: usage\n2' "$port"
    refused $'nfs3: usage\n2' --udp "$port"
    refused $'nfs3: usage\n2' "$port" --udp 5
    refused $'nfs3: schedule 0\n9' "$port" 5 "$work/missing"
    printf 'dir /d\nfile /none/a 61\n' >"$work/faulty"
    refused $'nfs3: schedule 2\n9' "$port" 5 "$work/faulty"
    serve 1
    refused $'nfs3: link lost\n6' "$port" 5
    kill "$server"
    wait "$server" 2>/dev/null
    server=
}

# What a session of a script that is made says, on both streams, and its status.
makes() {
    "$nfs3" make "${@:3}" >"$work/said" 2>&1 </dev/null
    comes_to "$1" "$2" $? "make ${*:3}"
}

try_made_scripts() {
    makes 0 'lines 33 ok 33 bytes 0' 1 /srv
    makes 0 'lines 38 ok 38 bytes 39' 5 /srv
    makes 0 'lines 1374 ok 1374 bytes 422060' 1000 /srv
    makes 0 'lines 1374 ok 1374 bytes 422060' 1000 /srv
    makes 2 'nfs3: usage' 0 /srv
    makes 2 'nfs3: usage' 10001 /srv
    makes 2 'nfs3: usage' +1 /srv
    makes 2 'nfs3: usage' 1
    makes 2 'nfs3: usage'
    "$nfs3" make 1 /srv 2>"$work/said" >&-
    comes_to 5 'nfs3: write fault' $? 'make without standard output'
}

# What making a file of kept pages says, on both streams, and its status.
formats() {
    "$nfs3" fsc-make "${@:3}" >"$work/said" 2>&1 </dev/null
    comes_to "$1" "$2" $? "fsc-make ${*:3}"
}

# The mode and the length of that file.
is_made() {
    local made
    made=$(stat -c '%a %s' "$work/pages")
    [ "$made" = "$1" ]
    count $? "the file of kept pages has mode and length: $made"
}

# Slots of 4,224 bytes, and the label behind them.
try_page_files() {
    formats 0 '' "$work/pages"
    is_made '600 4329600'
    formats 0 '' "$work/pages" --pages 1500
    is_made '600 6340224'
    printf x >>"$work/pages"
    formats 0 '' "$work/pages" --pages 1024
    is_made '600 4329600'
    flock "$work/pages" "$nfs3" fsc-make "$work/pages" --pages 1500 >"$work/said" 2>&1
    comes_to 9 'nfs3: store' $? 'fsc-make of a file that is in use'
    is_made '600 4329600'
    formats 9 'nfs3: store' "$work/missing/pages"
    formats 9 'nfs3: store' "$work"
    formats 9 'nfs3: store' /dev/full
    formats 2 'nfs3: usage'
    formats 2 'nfs3: usage' "$work/pages" --pages
    formats 2 'nfs3: usage' "$work/pages" --pages 1023
    formats 2 'nfs3: usage' "$work/pages" --pages 65537
    formats 2 'nfs3: usage' "$work/pages" --pages +1024
    formats 2 'nfs3: usage' "$work/pages" 1024
}

# Reads a file in a session that keeps its pages: the counts that are wanted, and words behind the file of pages.
kept_session() {
    printf '1 open 1 r /a\n1 read 1 0 10\n1 close 1' |
        "$nfs3" run --fsc "$work/kept" "${@:2}" 127.0.0.1 /srv --mount-port "$port" --nfs-port "$port" --count >"$work/said" 2>&1
    comes_to 0 $'1 1 ok\n1 2 ok 6869\n1 3 ok\n'"calls $1" $? "a session that keeps its pages ${*:2}"
}

# What a session with nothing to do says of its file of pages, and its status. No server is asked: STATUS TEXT and the words.
refuses_pages() {
    "$nfs3" run --fsc "$work/kept" "${@:3}" >"$work/said" 2>&1 </dev/null
    comes_to "$1" "$2" $? "run --fsc ${*:3}"
}

# The second session makes no READ: MNT, FSINFO, LOOKUP and GETATTR come after the five calls of the first.
try_kept_pages() {
    printf 'file /a 6869\n' >"$work/schedule"
    "$nfs3" fsc-make "$work/kept"
    serve 9 "$work/schedule"
    kept_session '4 getattr 1 lookup 1 read 1 write 0 commit 0'
    kept_session '3 getattr 1 lookup 1 read 0 write 0 commit 0'
    ended 0
    "$nfs3" run --fsc "$work/kept" localhost /srv >"$work/said" 2>&1 </dev/null
    comes_to 9 'nfs3: store' $? 'a file of pages of another host'
    "$nfs3" run --fsc "$work/missing" 127.0.0.1 /srv >"$work/said" 2>&1 </dev/null
    comes_to 9 'nfs3: store' $? 'a file of pages that is not there'
    flock "$work/kept" "$nfs3" run --fsc "$work/kept" 127.0.0.1 /srv >"$work/said" 2>&1 </dev/null
    comes_to 9 'nfs3: store' $? 'a file of pages that is in use'
    "$nfs3" run --fsc "$work/kept" 127.0.0.1 /srv --rsize x >"$work/said" 2>&1 </dev/null
    comes_to 2 'nfs3: usage' $? 'words of no known form'
    refuses_pages 9 'nfs3: store' --pages 1025 127.0.0.1 /srv
    refuses_pages 2 'nfs3: usage' --pages 1023 127.0.0.1 /srv
    refuses_pages 2 'nfs3: usage' --pages 65537 127.0.0.1 /srv
    refuses_pages 2 'nfs3: usage' --pages +1024 127.0.0.1 /srv
    refuses_pages 2 'nfs3: usage' --pages 1024
    refuses_pages 2 'nfs3: usage' --pages
}

# Files for another number of pages: one number, in each session.
try_kept_pages_sized() {
    "$nfs3" fsc-make "$work/kept" --pages 1500
    refuses_pages 9 'nfs3: store' 127.0.0.1 /srv
    serve 9 "$work/schedule"
    kept_session '4 getattr 1 lookup 1 read 1 write 0 commit 0' --pages 1500
    kept_session '3 getattr 1 lookup 1 read 0 write 0 commit 0' --pages 1500
    ended 0
    refuses_pages 9 'nfs3: store' 127.0.0.1 /srv
    refuses_pages 9 'nfs3: store' --pages 1499 127.0.0.1 /srv
    refuses_pages 9 'nfs3: store' --pages 1501 127.0.0.1 /srv
    refuses_pages 9 'nfs3: store' --pages 1500 localhost /srv
    # without pages in the first 1,024 slots, and with the label alone
    dd if=/dev/zero of="$work/kept" bs=4224 count=1500 conv=notrunc status=none
    refuses_pages 9 'nfs3: store' 127.0.0.1 /srv
    refuses_pages 9 'nfs3: store' --pages 1501 127.0.0.1 /srv
}

trap end_all EXIT
"$nfs3" >"$work/build.log" 2>&1
[ $? -eq 2 ] || {
    echo "session: nfs3 can't be built: $(tail -1 "$work/build.log")"
    exit 1
}
choose_port
start_without_a_server
try_a_put
try_a_read
try_an_empty_export
try_a_silent_connection
try_closed_streams
try_stopped_processes
try_a_port_mapper
try_other_ways
try_datagrams
try_a_large_datagram
try_a_late_server
try_refusals
try_made_scripts
try_page_files
try_kept_pages
try_kept_pages_sized
for part in launcher examples batches callers copy fetch; do
    "$here/$part.sh"
    count $? "$part.sh"
done
end_without_a_server
sum_up
