#!/usr/bin/env bash
# Tries nfs3 with programs of others, on this machine alone: it lets every command of a script work on the server nfs-ganesha
# and compares the files with what lies in the server's folder and with what libnfs reads; it lets nfs-ls and nfs-cat read what
# `nfs3 export` serves; it lets tshark read what went over the wire; it asks rpcbind for the server's ports, and works over UDP;
# it keeps pages in a file from one session to the next; then the server crashes and connections are cut; `nfs3 check` judges
# what is captured of clients; and `nfs3 copy` copies trees both ways. Run it as root on Debian 12: it installs what is missing. The
# words are the parts that are tried, of wire, names, sizes, ports, kept, failures, captures and copies; without words all are. The
# last line is 'N passed, M failed', and the status is 0 where nothing failed.
set -u

here=$(dirname -- "$(readlink -f -- "${BASH_SOURCE[0]}")")
nfs3=${NFS3:-$here/../../bin/nfs3}
export_port=22050

sizes=(1 2 3 511 513 4095 4097 65535 65536)
offsets=(0 1 1000000)
limits=(512 65536)

writes=0
work=$(mktemp -d -t nfs3-interop.XXXXXX)
chmod 755 "$work"
mkdir "$work/served"

. "$here/../lib.sh"
. "$here/../ganesha.sh"
. "$here/scripts.sh"
. "$here/sizes.sh"
. "$here/names.sh"
. "$here/ports.sh"
. "$here/failures.sh"
. "$here/kept.sh"
. "$here/captures.sh"
. "$here/copies.sh"

# What the capture is to show: packets of the servers' ports on the loopback.
start_capture() {
    dumpcap -q -B 64 -i lo -w "$work/wire.pcapng" \
        -f "tcp port $nfs_port or tcp port $mount_port or tcp port $export_port" >"$work/dumpcap.log" 2>&1 &
    capture=$!
    started+=("$capture")
    await captures
}

# Whether a packet was captured. The capture says that it begins before it does.
captures() {
    nfs-ls "$(server_url '')" && [ -n "$(packets rpc frame.number)" ]
}

export_url() {
    echo "nfs://127.0.0.1/srv$1?version=3&nfsport=$export_port&mountport=$export_port"
}

# Puts so many bytes at an offset of a file that is there, in pieces of a greatest size: SIZE OFFSET LIMIT.
put() {
    local name=put_$1_$2_$3 words=()
    [ "$3" -lt 65536 ] && words=(--wsize "$3")
    cp "$work/before" "$work/served/$name"
    cp "$work/before" "$expected"
    lay_over "$bytes" 0 "$1" "$2"
    writes=$((writes + ($1 + $3 - 1) / $3))
    new_script
    line "put /$name $2 $(hex "$bytes" 0 "$1")"
    run_script "$name" "${words[@]}"
    same_file "$name"
}

try_puts() {
    local size offset limit
    head -c 40000 /dev/urandom >"$work/before"
    for size in "${sizes[@]}"; do
        for offset in "${offsets[@]}"; do
            for limit in "${limits[@]}"; do
                put "$size" "$offset" "$limit"
            done
        done
    done
}

# Runs a script of one put with these words. What it says, on standard output and then on standard error, and its status.
said() {
    local status
    printf '1 put /%s' "$1" | "$nfs3" run "${@:2}" >"$work/said" 2>"$work/warned"
    status=$?
    cat "$work/said" "$work/warned" | tr '\n' ' '
    echo "$status"
}

# What is refused, and what is lost.
try_refusals() {
    local words=(--nfs-port "$nfs_port" --mount-port "$mount_port") answer
    answer=$(said 'missing 0 00' 127.0.0.1 /srv "${words[@]}")
    [ "$answer" = '1 1 nfs 2 1' ]
    count $? "a missing file is refused: $answer"
    answer=$(said 'missing 0 00' 127.0.0.1 /missing "${words[@]}")
    [ "$answer" = 'mount 13 nfs3: mount refused 8' ]
    count $? "a missing export is refused: $answer"
    answer=$(said 'missing 0 00' 127.0.0.1 /srv --mount-port 1)
    [ "$answer" = '1 1 lost nfs3: link lost 6' ]
    count $? "a port without a server is lost: $answer"
    answer=$(said 'missing 0 00' 'no host has this name' /srv)
    [ "$answer" = '1 1 lost nfs3: link lost 6' ]
    count $? "a host that isn't there is lost: $answer"
}

# A host by its name, and standard streams that fail.
try_streams() {
    local words=(/srv --nfs-port "$nfs_port" --mount-port "$mount_port") answer
    answer=$(said 'missing 0 00' localhost "${words[@]}")
    [ "$answer" = '1 1 nfs 2 1' ]
    count $? "a host is found by its name: $answer"
    answer=$(printf '1 put /missing 0 00' | "$nfs3" run 127.0.0.1 "${words[@]}" 2>&1 >/dev/full; echo $?)
    [ "$answer" = $'nfs3: write fault\n5' ]
    count $? "a full standard output is a write fault: $answer"
    answer=$("$nfs3" run 127.0.0.1 "${words[@]}" 2>&1 <"$work"; echo $?)
    [ "$answer" = $'nfs3: read fault\n4' ]
    count $? "a folder as standard input is a read fault: $answer"
}

# Starts `nfs3 export` over a file of two bytes.
start_export() {
    printf 'file /a 6869\n' >"$work/schedule"
    "$nfs3" export "$export_port" 1000 "$work/schedule" >"$work/listening" 2>"$work/export.log" &
    served_export=$!
    started+=("$served_export")
    for _ in $(seq 300); do
        grep -qx "listening $export_port" "$work/listening" 2>/dev/null && return 0
        kill -0 "$served_export" 2>/dev/null || return 1
        sleep 0.1
    done
    return 1
}

try_export() {
    start_export
    count $? "nfs3 export listens"
    nfs-ls "$(export_url '')" 2>/dev/null | grep -q ' a$'
    count $? "nfs-ls lists what nfs3 export serves"
    [ "$(nfs-cat "$(export_url /a)" 2>/dev/null)" = hi ]
    count $? "nfs-cat reads what nfs3 export serves"
    # Another part serves on the same port.
    end "$served_export"
}

# A field of the packets of the capture that a filter lets through. The servers' ports are named, since the clients' are
# any, and may be those of another protocol.
packets() {
    tshark -r "$work/wire.pcapng" -d "tcp.port==$nfs_port,rpc" -d "tcp.port==$mount_port,rpc" \
        -d "tcp.port==$export_port,rpc" -Y "$1" -T fields -e "$2" 2>/dev/null
}

# How many calls (0) or replies (1) tshark reads.
messages() {
    packets rpc rpc.msgtyp | tr ',' '\n' | grep -cx "$1"
}

read_capture() {
    sleep 1
    end "$capture"
    [ -s "$work/wire.pcapng" ] && [ -z "$(packets _ws.malformed frame.number)" ]
    count $? "tshark reads no malformed packet"
    local calls replies written
    calls=$(messages 0)
    replies=$(messages 1)
    [ "$calls" -gt 0 ] && [ "$calls" -eq "$replies" ]
    count $? "tshark reads a reply to each call: $calls calls, $replies replies"
    written=$(packets 'nfs.procedure_v3 == 7 && rpc.msgtyp == 0' nfs.count3 | tr ',' '\n' | wc -l)
    [ "$written" -eq "$writes" ]
    count $? "tshark reads $writes WRITEs: $written"
}

# Builds the program where it isn't built. Without words it says how it is used, with the status 2.
build_program() {
    "$nfs3" >"$work/build.log" 2>&1
    [ $? -eq 2 ]
}

# Prepares what the parts stand on.
prepare() {
    build_program || stop "nfs3 can't be built: $(tail -1 "$work/build.log")"
    have ganesha.nfsd rpcbind rpcinfo nfs-ls nfs-cat nfs-cp tshark dumpcap python3 ||
        install nfs-ganesha nfs-ganesha-vfs rpcbind libnfs-utils tshark python3
    start_all
    head -c 2000000 /dev/urandom >"$bytes"
}

try_wire() {
    start_capture || stop "the loopback can't be captured: $(tail -1 "$work/dumpcap.log")"
    try_puts
    try_refusals
    try_streams
    try_export
    read_capture
}

main() {
    local part parts=(wire names sizes ports kept failures captures copies)
    [ $# -gt 0 ] && parts=("$@")
    trap end_all EXIT
    prepare
    for part in "${parts[@]}"; do
        "try_$part"
    done
    sum_up
}

main "$@"
