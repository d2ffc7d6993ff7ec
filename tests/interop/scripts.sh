# Scripts in the making, for the tests with other programs: source it after ganesha.sh.

# What the server's files are compared with, and the bytes that are written.
expected=$work/expected
bytes=$work/bytes

# The words for the server's host, the port of NFS that the client is told, or that of the port mapper where it isn't, and the
# number of its user and group.
host=(127.0.0.1)
client_port=$nfs_port
portmap=
user=0

# Begins a script, and the answers and the status that are wanted.
new_script() {
    : >"$work/script"
    : >"$work/wanted"
    number=0
    wanted_status=0
}

# Adds a line of lane 1, without the lane, and what its answer says: `ok` where none is given.
line() {
    lane_line 1 "$@"
}

# The same for a lane: LANE LINE, and what its answer says.
lane_line() {
    number=$((number + 1))
    printf '%s %s\n' "$1" "$2" >>"$work/script"
    printf '%s %s %s\n' "$1" "$number" "${3-ok}" >>"$work/wanted"
    case ${3-ok} in
        ok | 'ok '*) ;;
        *) wanted_status=1 ;;
    esac
}

# Lines of several lanes are answered in any order.
sort_answers() {
    sort -o "$work/said" "$work/said"
    sort -o "$work/wanted" "$work/wanted"
}

# Runs the script against the server, with these words besides. What it says is in the file `said`.
run_program() {
    local ports=(--mount-port "$mount_port" --nfs-port "$client_port")
    [ -n "$portmap" ] && ports=(--portmap "$portmap")
    "$nfs3" run "${host[@]}" /srv --uid "$user" --gid "$user" "${ports[@]}" "$@" <"$work/script" >"$work/said" 2>&1
}

# The script got the answers that are wanted, and ended with the status that goes with them: what was tried, and the status.
is_answered() {
    diff "$work/wanted" "$work/said" >"$work/differs" && [ "$2" -eq "$wanted_status" ]
    count $? "$1 is answered: status $2, $(head -c 300 "$work/differs")"
}

# Runs the script: what is tried, and words.
run_script() {
    run_program "${@:2}"
    is_answered "$1" $?
}

# The file of that name is the expected one, as it lies in the server's folder and as nfs-cat reads it.
same_file() {
    cmp -s "$work/served/$1" "$expected"
    count $? "$1 lies in the server's folder"
    nfs-cat "$(server_url "/$1")" 2>/dev/null | cmp -s - "$expected"
    count $? "$1 is read by nfs-cat"
}

# Bytes of a file as hex digits: FILE OFFSET COUNT.
hex() {
    tail -c "+$(($2 + 1))" "$1" | head -c "$3" | od -An -v -tx1 | tr -d ' \n'
}

# Lays bytes of one file over the expected one: FILE OFFSET COUNT, and the offset that they go to.
lay_over() {
    tail -c "+$(($2 + 1))" "$1" | head -c "$3" |
        dd of="$expected" bs=64K seek="$4" oflag=seek_bytes conv=notrunc status=none
}

# So many equal bytes: COUNT, and the byte as two hex digits.
equal_bytes() {
    head -c "$1" /dev/zero | tr '\0' "\\$(printf '%03o' "0x$2")"
}
