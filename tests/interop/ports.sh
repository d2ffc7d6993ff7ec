# The server's ports by its port mapper, and the server over UDP: source it after sizes.sh.

# Sizes around those of a READ and a WRITE over UDP, where no word gives them.
datagram_sizes=(1 8191 8192 8193 65536 65537)

# What the capture is to show: all that goes to the port mapper, and over UDP to the servers.
start_ports_capture() {
    dumpcap -q -B 64 -i lo -w "$work/ports.pcapng" \
        -f "port 111 or udp port $nfs_port or udp port $mount_port" >"$work/dumpcap.log" 2>&1 &
    capture=$!
    started+=("$capture")
    await captures_ports
}

captures_ports() {
    rpcinfo -p 127.0.0.1 && [ -n "$(port_packets rpc frame.number)" ]
}

# A field of the packets of that capture that a filter lets through.
port_packets() {
    tshark -r "$work/ports.pcapng" -d "udp.port==$nfs_port,rpc" -d "udp.port==$mount_port,rpc" \
        -Y "$1" -T fields -e "$2" 2>/dev/null
}

# Each session asks for two ports over TCP, under the xids 1 and 2.
try_found_ports() {
    local size
    sessions=0
    portmap=111
    for size in 1 4097 65537; do
        try_write "found_$size" "$size"
        try_read "found_$size" "$size"
        sessions=$((sessions + 2))
    done
    portmap=
}

try_datagrams() {
    local size
    host=(--udp 127.0.0.1)
    for size in "${datagram_sizes[@]}"; do
        try_write "datagrams_$size" "$size"
        try_read "datagrams_$size" "$size"
        try_write "large_datagrams_$size" "$size" --wsize 32768
        try_read "large_datagrams_$size" "$size" --rsize 32768
    done
    host=(127.0.0.1)
}

# Writes 4 MiB in so many lanes over UDP, in less than two seconds: a repeat of what is lost would wait for 15. LANES, and words.
try_four_mebibytes() {
    local lane piece size=$((4194304 / $1)) count begun took
    count=$((size < 1048576 ? size : 1048576))
    rm -f -- "$work"/served/paced*
    equal_bytes "$size" 5a >"$expected"
    new_script
    for lane in $(seq "$1"); do
        lane_line "$lane" "open 1 c /paced$lane"
        for ((piece = 0; piece < size; piece += count)); do
            lane_line "$lane" "fill 1 $piece $count 5a"
        done
        lane_line "$lane" 'close 1'
    done
    begun=${EPOCHREALTIME/./}
    run_program "${@:2}"
    status=$?
    took=$(((${EPOCHREALTIME/./} - begun) / 1000))
    sort_answers
    is_answered "4 MiB over UDP in $1 lanes ${*:2}" "$status"
    [ "$took" -lt 2000 ]
    count $? "4 MiB over UDP in $1 lanes ${*:2} take $took ms"
    for lane in $(seq "$1"); do
        cmp -s "$expected" "$work/served/paced$lane" || break
    done
    count $? "4 MiB over UDP in $1 lanes ${*:2} lie in the server's folder"
}

try_paced_datagrams() {
    host=(--udp 127.0.0.1)
    for _ in {1..10}; do
        try_four_mebibytes 1
        try_four_mebibytes 16
        try_four_mebibytes 1 --wsize 32768
        try_four_mebibytes 16 --wsize 32768
    done
    host=(127.0.0.1)
}

# Sends the NULL call of NFS to the export from two addresses, and shows how many bytes come back to each.
ask_from_two() {
    python3 - "$export_port" <<'END'
import socket, struct, sys

call = struct.pack(">10I", 1, 0, 2, 100003, 3, 0, 0, 0, 0, 0)
for address in "127.0.0.2", "127.0.0.1":
    with socket.socket(socket.AF_INET, socket.SOCK_DGRAM) as asking:
        asking.bind((address, 0))
        asking.settimeout(2)
        asking.sendto(call, ("127.0.0.1", int(sys.argv[1])))
        try:
            print(len(asking.recv(100)))
        except TimeoutError:
            print("nothing")
END
}

# Datagrams of another address than that of the export are passed over.
try_another_address() {
    local process came
    "$nfs3" export --udp "$export_port" 1 >"$work/listening" 2>&1 &
    process=$!
    started+=("$process")
    await grep -qx "listening $export_port" "$work/listening"
    came=$(ask_from_two)
    [ "$came" = $'nothing\n24' ]
    count $? "what another address sends isn't answered: $came"
    wait "$process"
    count $? "the export ends after the call of its own address: $?"
}

read_ports_capture() {
    sleep 1
    end "$capture"
    [ -s "$work/ports.pcapng" ] && [ -z "$(port_packets _ws.malformed frame.number)" ]
    count $? "tshark reads no malformed datagram"
    local asked written
    asked=$(port_packets 'rpc.msgtyp == 0 && rpc.program == 100000 && (rpc.xid == 1 || rpc.xid == 2)' frame.number | wc -l)
    [ "$asked" -eq $((2 * sessions)) ]
    count $? "tshark reads two calls of GETPORT for each of $sessions sessions: $asked"
    written=$(port_packets 'udp && rpc.msgtyp == 0 && nfs.procedure_v3 == 7' frame.number | wc -l)
    [ "$written" -gt 0 ]
    count $? "tshark reads WRITEs over UDP: $written"
}

# What a run says of ports that can't be found, or that are named twice.
try_missing_ports() {
    local answer
    rpcinfo -d 100003 3
    answer=$(said 'missing 0 00' 127.0.0.1 /srv --portmap 111)
    [ "$answer" = 'portmap 100003 none nfs3: no port 10' ]
    count $? "a program that isn't registered has no port: $answer"
    # rpcbind tells the port of another version where there is one.
    rpcinfo -d 100005 1
    rpcinfo -d 100005 3
    answer=$(said 'missing 0 00' 127.0.0.1 /srv --portmap 111)
    [ "$answer" = 'portmap 100005 none nfs3: no port 10' ]
    count $? "MOUNT is asked for first: $answer"
    answer=$(said 'missing 0 00' 127.0.0.1 /srv --portmap "$nfs_port")
    [ "$answer" = 'portmap 100005 rpc 1 nfs3: no port 10' ]
    count $? "a server that is no port mapper refuses: $answer"
    answer=$(said 'missing 0 00' 127.0.0.1 /srv --portmap 1)
    [ "$answer" = 'nfs3: link lost 6' ]
    count $? "a port without a port mapper is lost: $answer"
    answer=$(said 'missing 0 00' 127.0.0.1 /srv --portmap 111 --nfs-port=2049)
    [ "$answer" = 'nfs3: usage 2' ]
    count $? "a port beside the port mapper is refused: $answer"
    answer=$(said 'missing 0 00' --udp 127.0.0.1 /srv --portmap 111)
    [ "$answer" = 'nfs3: usage 2' ]
    count $? "a port mapper over UDP is refused: $answer"
}

try_ports() {
    start_ports_capture || stop "the loopback can't be captured: $(tail -1 "$work/dumpcap.log")"
    try_found_ports
    try_datagrams
    read_ports_capture
    try_paced_datagrams
    try_another_address
    try_missing_ports
}
