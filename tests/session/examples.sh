#!/usr/bin/env bash
# Runs the folder examples: each schedule with its script has to print what the file of the same name expects, and to end
# with the status that the schedule names; and a folder that is backed up to a server comes back as it was. What is expected
# of schedules was worked out by hand or by an independent model, and not taken from this program.
set -u

here=$(dirname -- "$(readlink -f -- "${BASH_SOURCE[0]}")")
nfs3=${NFS3:-$here/../../bin/nfs3}
examples=$here/../../examples
. "$here/../lib.sh"
choose_port
server=

work=$(mktemp -d -t nfs3-examples.XXXXXX)

# Ends what is still running, and removes the files.
end_all() {
    [ -n "$server" ] && end "$server"
    rm -rf -- "$work"
}
trap end_all EXIT

# What the comment of a schedule says under this name.
named() {
    sed -n "s/^# $1: //p" "$2"
}

try_a_triple() {
    local name=$1 wanted status
    local -a arguments
    read -ra arguments < <(named arguments "$examples/$name.schedule")
    wanted=$(named status "$examples/$name.schedule")
    "$nfs3" replay "$examples/$name.schedule" "${arguments[@]}" <"$examples/$name.script" >"$work/said" 2>/dev/null
    status=$?
    [ "$status" = "$wanted" ] && cmp -s "$work/said" "$examples/$name.expected"
    count $? "$name: status $status, $(cat "$work/said")"
}

# The trace of the same run ends with the same status, and is judged right. That of `listing`, whose file has 204,800 bytes, is
# past the limits.
try_a_trace() {
    local name=$1 wanted status verdict
    local -a arguments
    read -ra arguments < <(named arguments "$examples/$name.schedule")
    wanted=$(named status "$examples/$name.schedule")
    "$nfs3" trace "$examples/$name.schedule" "${arguments[@]}" <"$examples/$name.script" >"$work/trace" 2>"$work/said"
    status=$?
    if [ "$name" = listing ]; then
        [ "$status" -eq 9 ] && [ ! -s "$work/trace" ] && [ "$(cat "$work/said")" = 'nfs3: trace 0' ]
        count $? "the trace of $name: status $status, $(cat "$work/said")"
        return
    fi
    verdict=$("$nfs3" check "$work/trace")
    [ "$status" = "$wanted" ] && [ "$verdict" = yes ]
    count $? "the trace of $name: status $status, $verdict"
}

try_all_triples() {
    local schedule
    for schedule in "$examples"/*.schedule; do
        try_a_triple "$(basename "$schedule" .schedule)"
        try_a_trace "$(basename "$schedule" .schedule)"
    done
}

# Two clients of one server: their scripts stand in a folder of their own.
try_a_pair() {
    local folder=$examples/pair status
    "$nfs3" pair "$folder/schedule" "$folder/script_b" <"$folder/script_a" >"$work/said" 2>/dev/null
    status=$?
    [ "$status" = "$(named status "$folder/schedule")" ] && cmp -s "$work/said" "$folder/expected"
    count $? "pair: status $status, $(cat "$work/said")"
}

# A folder with folders, an empty file, one that takes several scripts, all bytes, and names with other bytes than letters.
make_a_folder() {
    mkdir -p "$work/there/b c/d" "$work/there/%41"
    : >"$work/there/empty"
    printf 'a line\n' >"$work/there/b c/é%"
    head -c 65536 /dev/zero >"$work/there/b c/d/zeros"
    seq 90000 | head -c 460001 >"$work/there/long"
    LC_ALL=C awk 'BEGIN { for (i = 0; i < 256; i++) printf "%c", i }' >"$work/there/bytes"
}

# The server is ended once both are done: CALLS is more than they make.
try_a_backup() {
    local -a at=(127.0.0.1 /srv --mount-port "$port" --nfs-port "$port")
    mkfifo "$work/listening"
    "$nfs3" export "$port" 1000000 >"$work/listening" 2>/dev/null &
    server=$!
    read -r -t 30 <"$work/listening"
    make_a_folder
    "$examples/backup.sh" "$work/there" /kept "${at[@]}" >"$work/said" 2>&1
    count $? "a backup: $(cat "$work/said")"
    "$examples/backup.sh" "$work/there" /kept "${at[@]}" >"$work/said" 2>&1
    count $? "a backup over the one before: $(cat "$work/said")"
    "$examples/restore.sh" /kept "$work/back" "${at[@]}" >"$work/said" 2>&1
    count $? "a restore: $(cat "$work/said")"
    diff -r "$work/there" "$work/back" >"$work/said" 2>&1
    count $? "what came back differs: $(head -5 "$work/said")"
    printf '1 remove /kept/long\n' | "$nfs3" run "${at[@]}" >/dev/null 2>&1
    "$examples/restore.sh" /kept/long "$work/none" "${at[@]}" >"$work/said" 2>&1
    [ $? -ne 0 ]
    count $? "a restore of what isn't there fails: $(cat "$work/said")"
    end "$server"
    server=
}

# A backup to a port at which no one listens, which takes a minute to fail.
start_without_a_server() {
    mkdir "$work/alone"
    "$examples/backup.sh" "$work/alone" /kept 127.0.0.1 /srv --mount-port 1 --nfs-port 1 >"$work/refused" 2>&1 &
    alone=$!
}

end_without_a_server() {
    wait "$alone"
    [ $? -ne 0 ]
    count $? "a backup without a server fails: $(cat "$work/refused")"
}

start_without_a_server
try_all_triples
try_a_pair
try_a_backup
end_without_a_server
sum_up
