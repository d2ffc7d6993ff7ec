#!/usr/bin/env bash
# Takes the time of sessions that read a file through nfs-ganesha on this machine, whose files lie in memory: without `--fsc`; with a new file of
# pages; and with the file of pages that the session before left. Each run has one of each. A line for each row has the medians of seven runs, or of
# as many as RUNS says, their ratio to the session without, and what they took of the processor, which tells more where other programs run beside.
# Run it as root on Debian 12: it installs what is missing. The program is the one that bin/nfs3 --prove built, or the one that NFS3 names. The file of
# pages lies in memory, or in the folder that FOLDER names, so that its syncs are measured too. The words are the rows that are wanted, of small, large,
# driven and far; without words all are. The status is 0 where all work was done, with the answers and the READs that belong to it.
set -u

here=$(dirname -- "$(readlink -f -- "${BASH_SOURCE[0]}")")
nfs3=${NFS3:-$here/../../crates/nfs3/out/nfs3}
runs=${RUNS:-7}
work=$(mktemp -d -p /dev/shm nfs3-kept.XXXXXX)
chmod 755 "$work"
mkdir "$work/served"

. "$here/../lib.sh"
. "$here/../ganesha.sh"
store=${FOLDER:-$work}/nfs3_pages.$$

# The port of NFS that the sessions are told, and that of a proxy which holds back what comes for 1 ms in either direction.
session_port=$nfs_port
far_port=22051

prepare() {
    [ -x "$nfs3" ] || stop "$nfs3 isn't built: bin/nfs3 --prove builds it"
    have ganesha.nfsd rpcbind rpcinfo nfs-ls python3 || install nfs-ganesha nfs-ganesha-vfs rpcbind libnfs-utils python3
    start_all
}

# A script that reads a file in pieces of 65,536 bytes: its name, and its bytes.
write_script() {
    local at
    echo "1 open 1 r /$1"
    for ((at = 0; at < $2; at += 65536)); do
        echo "1 read 1 $at 65536"
    done
    echo '1 close 1'
}

# A session with these words before the host, with memory kept as bin/nfs3 keeps it.
session() (
    . "$here/../../bin/heap.sh"
    exec "$nfs3" run "$@" 127.0.0.1 /srv --uid 0 --gid 0 --mount-port "$mount_port" --nfs-port "$session_port" --count <"$work/script"
)

# Takes the seconds of a command, and those of the processor: whose they are, and the command. Its answers go to the file of that name.
take_time() {
    local TIMEFORMAT='%R %U %S'
    { time "${@:2}" >"$work/said_$1" 2>"$work/told"; } 2>>"$work/times_$1" || stop "${*:2} ended with the status $?: $(tail -1 "$work/told")"
}

# The median of what was taken: whose, and an expression of awk over a line's fields.
median() {
    awk "{ print $2 }" "$work/times_$1" | sort -g | sed -n "$(((runs + 1) / 2))p"
}

# The answers of a session, without the counts of its calls.
answers() {
    grep -v '^calls ' "$work/said_$1"
}

# Compares the sessions: what the row is, the file's name and its bytes, how many pages there is room for, and how many READs a session with the pages of
# the one before makes.
compare() {
    local run
    rm -f -- "$work"/times_*
    head -c "$3" /dev/urandom >"$work/served/$2"
    write_script "$2" "$3" >"$work/script"
    session >/dev/null 2>&1
    for run in $(seq "$runs"); do
        take_time none session
        rm -f -- "$store"
        "$nfs3" fsc-make "$store" --pages "$4" || stop 'the file of pages is not made'
        take_time first session --fsc "$store" --pages "$4"
        take_time next session --fsc "$store" --pages "$4"
    done
    cmp -s <(answers none) <(answers first) && cmp -s <(answers none) <(answers next) || stop 'the sessions gave other answers'
    [ "$(grep -o ' read [0-9]*' "$work/said_next")" = " read $5" ] || stop "the session with pages made other READs: $(grep '^calls ' "$work/said_next")"
    tell "$1"
    rm -f -- "$store"
}

# A row of what was taken.
tell() {
    local whose seconds line=$1
    for whose in none first next; do
        seconds=$(awk -v own="$(median $whose '$1')" -v none="$(median none '$1')" -v work="$(median $whose '$2 + $3')" \
            'BEGIN { printf "%.3f s (%.2f; of the processor %.3f s)", own, own / none, work }')
        line="$line, $whose $seconds"
    done
    echo "$line"
}

# The same work with a server that is far away.
compare_far() {
    "$here/delay.py" "$far_port" "$nfs_port" 0.001 >"$work/far" 2>"$work/far.log" &
    started+=($!)
    await grep -q listening "$work/far" || stop "the proxy doesn't start: $(tail -1 "$work/far.log")"
    session_port=$far_port
    compare "$@"
    session_port=$nfs_port
}

# The row of a name.
row() {
    case $1 in
        small) compare '4 MiB, 1,024 pages' small 4194304 1024 0 ;;
        large) compare '64 MiB, 16,384 pages' large 67108864 16384 0 ;;
        driven) compare '64 MiB, 1,024 pages' large 67108864 1024 1024 ;;
        far) compare_far '64 MiB, 16,384 pages, a server 2 ms away' far 67108864 16384 0 ;;
        *) stop "there is no row $1" ;;
    esac
}

end_kept() {
    rm -f -- "$store"
    end_all
}

main() {
    local it rows=(small large driven far)
    [ $# -gt 0 ] && rows=("$@")
    trap end_kept EXIT
    prepare
    for it in "${rows[@]}"; do
        row "$it"
    done
}

main "$@"
