# A server that crashes, and connections that are cut or go silent: source it after sizes.sh. Between the client and the server
# stands proxy.py, which knows when to cut. Where the server is away for some seconds nothing stands between them.

proxy_port=22051

# Starts the proxy with these words, and waits until it listens. The client connects to it from then on.
start_proxy() {
    coproc proxy { exec python3 "$here/proxy.py" "$proxy_port" "$nfs_port" "$@"; }
    proxy_process=$!
    exec {from_proxy}<&"${proxy[0]}" {to_proxy}>&"${proxy[1]}"
    started+=("$proxy_process")
    read -r -t 30 <&"$from_proxy"
    client_port=$proxy_port
}

end_proxy() {
    exec {from_proxy}<&- {to_proxy}>&-
    end "$proxy_process"
    client_port=$nfs_port
}

# Ends the server by force. nfs-ganesha hands unstable bytes to the system at once, so the end of its process loses none of
# them. So that they are lost as in a crash of the machine, the file becomes what it was when it was last committed: NAME,
# and the file that has those bytes.
crash() {
    kill -9 "$server"
    wait "$server" 2>/dev/null
    dd if="$2" of="$work/served/$1" bs=64K conv=notrunc status=none
    truncate -s "$(stat -c %s "$2")" "$work/served/$1"
    # The verifier is the second in which the server starts.
    sleep 1.1
    start_server
    count $? 'the server starts again'
}

# Runs the script through the proxy, and lets the server crash in place of the N-th call of a procedure, with what was
# committed by then: NAME PROC N COMMITTED.
run_with_a_crash() {
    start_proxy at "$2" "$3"
    run_program --count &
    local client=$! held
    read -r -t 60 held <&"$from_proxy"
    [ "$held" = held ]
    count $? "call $3 of procedure $2 comes: $held"
    crash "$1" "$4"
    echo >&"$to_proxy"
    wait "$client"
    status=$?
    end_proxy
}

# Writes pieces of 65,536 bytes into a file that is open: from the first to the last, of the file of random bytes.
write_pieces() {
    local piece
    for piece in $(seq "$1" "$2"); do
        line "write 1 $((piece * 65536)) $(hex "$bytes" $((piece * 65536)) 65536)"
    done
}

# A line of counts at the end, in which calls that are sent again count once.
counts() {
    echo "calls $1" >>"$work/wanted"
}

# The first COMMIT meets a server that lost all that was written, and the second one a server that lost what came after
# the first. What was lost goes again, in as many WRITEs.
try_lost_commits() {
    : >"$work/nothing"
    head -c 262144 "$bytes" >"$expected"
    new_script
    line 'open 1 x /first_commit'
    write_pieces 0 3
    line 'sync 1'
    line 'close 1'
    counts '12 getattr 1 lookup 0 read 0 write 8 commit 1'
    run_with_a_crash first_commit 21 1 "$work/nothing"
    is_answered 'a sync that loses its writes' "$status"
    same_file first_commit

    head -c 131072 "$bytes" >"$work/committed"
    new_script
    line 'open 1 x /second_commit'
    write_pieces 0 1
    line 'sync 1'
    write_pieces 2 3
    line 'sync 1'
    line 'close 1'
    counts '11 getattr 1 lookup 0 read 0 write 6 commit 2'
    run_with_a_crash second_commit 21 2 "$work/committed"
    is_answered 'a second sync that loses its writes' "$status"
    same_file second_commit
}

# The crash comes between the WRITEs of a sync, and in a sync that makes room for more than 4,194,304 dirty bytes.
try_lost_writes() {
    local million
    head -c 262144 "$bytes" >"$expected"
    new_script
    line 'open 1 x /third_write'
    write_pieces 0 3
    line 'close 1'
    run_with_a_crash third_write 7 3 "$work/nothing"
    is_without_counts 'a sync with a crash between its writes'
    same_file third_write

    : >"$expected"
    new_script
    line 'open 1 x /room'
    for million in 0 1 2 3 4; do
        line "fill 1 $((million * 1048576)) 1048576 6$million"
        equal_bytes 1048576 "6$million" >>"$expected"
    done
    line 'close 1'
    run_with_a_crash room 21 1 "$work/nothing"
    is_without_counts 'a sync for room that loses its writes'
    same_file room
}

# The answers are as wanted, whatever the calls were.
is_without_counts() {
    sed -i '/^calls /d' "$work/said"
    is_answered "$1" "$status"
}

# After a crash a file that was synced is read, and a put is made.
try_after_a_crash() {
    head -c 65536 "$bytes" >"$expected"
    cp "$expected" "$work/committed"
    new_script
    line 'open 1 x /read_after'
    write_pieces 0 0
    line 'sync 1'
    read_line 0 65536
    line 'put /read_after 10 7a7a'
    line 'close 1'
    run_with_a_crash read_after 6 1 "$work/committed"
    is_without_counts 'a read after a crash'
    printf zz >"$work/filled"
    lay_over "$work/filled" 0 2 10
    same_file read_after
}

# Connections are cut after so many bytes in a direction, each on its turn: up or down, and the numbers of bytes. The
# file is there before, since a CREATE that is sent again may find what it made.
try_a_cut() {
    local name=cut_$1 piece
    head -c 300 "$bytes" >"$work/served/$name"
    head -c 458752 "$bytes" >"$expected"
    new_script
    line "open 1 rw /$name"
    write_pieces 0 6
    line 'sync 1'
    for piece in $(seq 0 6); do
        read_line $((piece * 65536)) 65536
    done
    line "access /$name 1" 'ok 1'
    line 'list /odd' "$(names_in odd)"
    line 'close 1'
    start_proxy "$@"
    run_script "a session with connections that are cut $*"
    end_proxy
    same_file "$name"
}

# A connection takes no more after half a reply, and stays open: after two waits of 15 seconds the client leaves it.
try_half_a_record() {
    local begun=$SECONDS
    head -c 300 "$bytes" >"$work/served/half"
    head -c 65536 "$bytes" >"$expected"
    new_script
    line 'open 1 rw /half'
    write_pieces 0 0
    line 'sync 1'
    read_line 0 65536
    line 'close 1'
    start_proxy stall 40000
    run_script 'a session with half a record and silence'
    end_proxy
    same_file half
    [ $((SECONDS - begun)) -lt 45 ]
    count $? "a silent connection is left after two waits: $((SECONDS - begun)) s"
}

# The files of so many lanes, which share 48 MiB of equal bytes: their script, in pieces that each file is synced after.
write_lanes() {
    local lane piece pieces=$((48 / $1))
    new_script
    for lane in $(seq "$1"); do
        : >"$work/served/lane$lane"
        lane_line "$lane" "open 1 rw /lane$lane"
    done
    for piece in $(seq 0 $((pieces - 1))); do
        for lane in $(seq "$1"); do
            lane_line "$lane" "fill 1 $((piece * 1048576)) 1048576 $(printf %02x $((lane + piece)))"
            lane_line "$lane" 'sync 1'
        done
    done
    for lane in $(seq "$1"); do
        lane_line "$lane" 'close 1'
    done
}

# Whether each lane's file has its bytes, in the server's folder.
are_lanes_written() {
    local lane piece pieces=$((48 / $1))
    for lane in $(seq "$1"); do
        for piece in $(seq 0 $((pieces - 1))); do
            equal_bytes 1048576 "$(printf %02x $((lane + piece)))"
        done | cmp -s - "$work/served/lane$lane" || return 1
    done
}

# Whether more than 2,000,000 bytes lie in the lanes' files.
are_lanes_begun() {
    stat -c %s "$work"/served/lane* | awk '{ sum += $1 } END { exit sum <= 2000000 }'
}

# The server ends by force while so many lanes write, and is away for so many seconds: LANES SECONDS.
try_a_restart() {
    local client
    write_lanes "$1"
    run_program &
    client=$!
    until are_lanes_begun || ! kill -0 "$client" 2>/dev/null; do
        sleep 0.01
    done
    kill -9 "$server"
    wait "$server" 2>/dev/null
    kill -0 "$client" 2>/dev/null
    count $? "the session isn't over when the server ends"
    sleep "$2"
    start_server
    count $? 'the server starts again'
    wait "$client"
    status=$?
    sort_answers
    is_answered "a restart after $2 s in $1 lanes" "$status"
    are_lanes_written "$1"
    count $? "after a restart of $2 s the files of $1 lanes have their bytes"
    rm -f -- "$work"/served/lane*
}

try_restarts() {
    local lanes seconds
    for lanes in 1 16; do
        for seconds in 1 4 12; do
            try_a_restart "$lanes" "$seconds"
        done
    done
}

try_failures() {
    mkdir -p -- "$work/served/odd"
    try_lost_commits
    try_lost_writes
    try_after_a_crash
    try_a_cut up 3 150000 300000
    try_a_cut down 2 500 200000 100001
    try_half_a_record
    try_restarts
}
