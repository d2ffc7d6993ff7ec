# Captures of clients over `nfs3 export`, judged by `nfs3 check`: source it after scripts.sh.

# What goes to and from the export on the loopback, into a file of that name.
start_export_capture() {
    dumpcap -q -B 64 -i lo -w "$work/$1.pcapng" -f "tcp port $export_port" >"$work/dumpcap.log" 2>&1 &
    capture=$!
    started+=("$capture")
    await captures_export "$1"
}

# Whether a packet was captured: that of a connection on which nothing is sent.
captures_export() {
    (exec 7<>"/dev/tcp/127.0.0.1/$export_port") 2>/dev/null
    [ -n "$(tshark -r "$work/$1.pcapng" -c 1 -T fields -e frame.number 2>/dev/null)" ]
}

# Serves a file and a folder to as many calls as come.
start_captured_export() {
    printf 'dir /d\nfile /a 6869\nfile /d/b 62\n' >"$work/schedule"
    "$nfs3" export "$export_port" 100000 "$work/schedule" >"$work/listening" 2>"$work/export.log" &
    captured_export=$!
    started+=("$captured_export")
    await grep -qx "listening $export_port" "$work/listening"
}

# The verdict on the capture of that name.
verdict() {
    python3 "$here/capture_trace.py" "$work/$1.pcapng" "$export_port" >"$work/$1.trace" && "$nfs3" check "$work/$1.trace"
}

# Captures what a command does, and judges it: NAME COMMAND..
judge() {
    local name=$1 answer
    shift
    start_export_capture "$name"
    "$@" >"$work/$name.out" 2>&1
    count $? "the client of the capture $name succeeds: $(tail -1 "$work/$name.out")"
    sleep 1
    end "$capture"
    answer=$(verdict "$name" 2>&1)
    [ "$answer" = yes ]
    count $? "the capture $name is judged right: $answer"
}

# Changes the first of these bytes where they come last in a capture: FROM TO HEX.
damage() {
    python3 - "$work/$1.pcapng" "$work/$2.pcapng" "$3" <<'END'
import sys
source, target, wanted = sys.argv[1], sys.argv[2], bytes.fromhex(sys.argv[3])
data = bytearray(open(source, 'rb').read())
data[data.rindex(wanted)] ^= 1
open(target, 'wb').write(data)
END
}

# How many entries a trace has up to the execution of the call whose reply holds these bytes: NAME HEX.
entries_to() {
    awk -v wanted="$2" '
        $1 !~ /^(root|lives|noac|nocto|verf|obj|gone|name|unname)$/ { entries++ }
        $1 == "executed" && index($3, wanted) { print entries; exit }' "$work/$1.trace"
}

# The reply of the last READ that shows these bytes, with one of them changed, is no lawful one: NAME HEX.
judge_damaged() {
    local answer wrong
    damage "$1" "damaged_$1" "$2"
    wrong=$(printf '%02x' $((0x${2:0:2} ^ 1)))${2:2}
    answer=$(verdict "damaged_$1" 2>&1)
    [ "$answer" = "no lawful $(entries_to "damaged_$1" "$wrong")" ]
    count $? "the capture $1 with one byte changed is refused at that reply: $answer"
}

# Copies a file to the export and reads it back.
copy_and_read() {
    nfs-cp "$work/copied" "$(export_url /copied)" && nfs-cat "$(export_url /copied)" | cmp - "$work/copied"
}

# Runs each kind of command of a script in one session, and reads in another what the first wrote.
run_commands() {
    local words=(127.0.0.1 /srv --nfs-port "$export_port" --mount-port "$export_port") answers
    answers=$("$nfs3" run "${words[@]}" <"$work/commands") && answers+=$'\n'$("$nfs3" run "${words[@]}" <"$work/readings")
    echo "$answers"
    ! grep -v ' ok' <<<"$answers"
}

try_captures() {
    local word=6e6565646c65
    start_captured_export
    count $? "nfs3 export listens"
    head -c 5000 /dev/urandom >"$work/copied"
    cat >"$work/commands" <<END
1 mkdir /n
1 open 1 c /n/f
1 write 1 0 $word
1 sync 1
1 write 1 6 616263
1 close 1
1 open 2 rw /n/f
1 write 2 8 646566
1 truncate 2 10
1 close 2
1 stat /n/f
1 access /n/f 63
1 link /n/f /h
1 rename /n/f /n/g
1 symlink /s /n/g
1 readlink /s
1 list /n
1 remove /h
END
    cat >"$work/readings" <<END
1 open 1 r /n/g
1 read 1 0 100
1 close 1
1 list /
1 remove /n/g
1 rmdir /n
1 remove /s
END
    judge listed nfs-ls "$(export_url '')"
    judge read nfs-cat "$(export_url /a)"
    judge copied copy_and_read
    judge run run_commands
    judge_damaged copied "$(head -c 8 "$work/copied" | od -An -tx1 | tr -d ' \n')"
    judge_damaged run "$word"
    end "$captured_export"
}
