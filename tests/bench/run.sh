#!/usr/bin/env bash
# Takes the time of the same work through `nfs3 run` and through libnfs, on one nfs-ganesha on this machine whose files lie in
# memory: alternating runs, each a process that mounts, works and ends. A line for each kind of work has the medians of seven
# runs, or of as many as RUNS says, and their ratio, and what the two took of the processor, which tells more where other
# programs run beside. Run it as root on Debian 12: it installs what is missing. The program is the one that bin/nfs3 built,
# or the one that NFS3 names; a build without a proof isn't optimised, and its times tell nothing. The words are the rows that
# are wanted, of write, read, read4, read16, wide16, show, show4, show16, small, small16, list and list10; without words all are.
# The status is 0 where all work was done.
#
# nfs3 writes what it read as hex digits on its answer lines. In the rows `read` and `wide` libnfs throws the bytes away, and in
# `wide` it reads a MiB with each call; in the rows `show` libnfs_work writes the same lines.
set -u

here=$(dirname -- "$(readlink -f -- "${BASH_SOURCE[0]}")")
nfs3=${NFS3:-$here/../../crates/nfs3/out/nfs3}
runs=${RUNS:-7}
work=$(mktemp -d -p /dev/shm nfs3-bench.XXXXXX)
chmod 755 "$work"
mkdir "$work/served" "$work/served/small" "$work/served/names" "$work/served/many"

. "$here/../lib.sh"
. "$here/../ganesha.sh"

prepare() {
    [ -x "$nfs3" ] || stop "$nfs3 isn't built: bin/nfs3 --prove builds it"
    have ganesha.nfsd rpcbind rpcinfo nfs-ls gcc && [ -e /usr/include/nfsc/libnfs.h ] ||
        install nfs-ganesha nfs-ganesha-vfs rpcbind libnfs-utils libnfs-dev gcc libc6-dev
    gcc -O2 -o "$work/libnfs_work" "$here/libnfs_work.c" -lnfs || stop "libnfs_work can't be built"
    start_all
    head -c 67108864 /dev/urandom >"$work/served/read"
    (cd -- "$work/served/names" && seq -f 'name_%04g' 1000 | xargs touch)
    (cd -- "$work/served/many" && seq -f 'name_%05g' 10000 | xargs touch)
}

# The scripts of nfs3, each by the path that libnfs_work gets too. With a number of lanes the work is shared out among them.
script_of_write() {
    local at
    echo "1 open 1 x $1"
    for ((at = 0; at < 67108864; at += 1048576)); do
        echo "1 fill 1 $at 1048576 61"
    done
    echo '1 close 1'
}

script_of_read() {
    local lane lanes=${2-1} piece
    for lane in $(seq "$lanes"); do
        echo "$lane open 1 r $1"
    done
    for piece in {0..1023}; do
        echo "$((piece % lanes + 1)) read 1 $((piece * 65536)) 65536"
    done
}

script_of_wide() {
    script_of_read "$@"
}

script_of_show() {
    script_of_read "$@"
}

script_of_small() {
    local lane lanes=${2-1} file digits
    printf -v digits '61%.0s' {1..100}
    for file in {0..999}; do
        lane=$((file % lanes + 1))
        printf '%s\n' "$lane open 1 c $1$file" "$lane write 1 0 $digits" "$lane close 1"
    done
}

script_of_list() {
    echo "1 list $1"
}

# With memory kept as bin/nfs3 keeps it.
through_nfs3() (
    . "$here/../../bin/heap.sh"
    exec "$nfs3" run 127.0.0.1 /srv --uid 0 --gid 0 --mount-port "$mount_port" --nfs-port "$nfs_port" <"$work/script"
)

through_libnfs() {
    "$work/libnfs_work" "$(server_url '')" "$@"
}

# Takes the seconds that a command takes, and those of the processor: whose they are, and the command.
take_time() {
    local TIMEFORMAT='%R %U %S'
    { time "${@:2}" >/dev/null 2>"$work/told"; } 2>>"$work/times_$1" || stop "${*:2} ended with the status $?: $(tail -1 "$work/told")"
}

# The median of what was taken: whose, and an expression of awk over a line's fields.
median() {
    awk "{ print $2 }" "$work/times_$1" | sort -g | sed -n "$(((runs + 1) / 2))p"
}

# Compares one kind of work: what it is, the kind, the path, how many pieces, files or names, and lanes. A path that is made
# ends in another number at each run.
compare() {
    local run path=$3
    rm -f -- "$work"/times_*
    for run in $(seq "$runs"); do
        "script_of_$2" "${path/%-/_nfs3_$run-}" "${@:5}" >"$work/script"
        take_time nfs3 through_nfs3
        take_time libnfs through_libnfs "$2" "${path/%-/_libnfs_$run-}" "${@:4}"
        truncate -s 0 "$work/served"/written* 2>/dev/null
    done
    awk -v what="$1" -v ours="$(median nfs3 '$1')" -v theirs="$(median libnfs '$1')" \
        -v our_work="$(median nfs3 '$2 + $3')" -v their_work="$(median libnfs '$2 + $3')" 'BEGIN {
            printf "%s: nfs3 %.3f s, libnfs %.3f s, ratio %.2f", what, ours, theirs, ours / theirs
            printf "; of the processor %.3f s and %.3f s\n", our_work, their_work }'
}

# Makes sure that libnfs_work writes the lines that nfs3 does, where one lane reads.
check_lines() {
    script_of_show /read >"$work/script"
    cmp <(through_nfs3) <(through_libnfs show /read 1024) || stop "the two don't write the same lines"
}

# The row of a name.
row() {
    case $1 in
        write) compare 'write 64 MiB and sync' write /written- 1024 ;;
        read) compare 'read 64 MiB, libnfs throws it away' read /read 1024 ;;
        read4) compare 'read 64 MiB, nfs3 in 4 lanes, libnfs throws it away' read /read 1024 4 ;;
        read16) compare 'read 64 MiB, nfs3 in 16 lanes, libnfs throws it away' read /read 1024 16 ;;
        wide16) compare 'read 64 MiB, nfs3 in 16 lanes, libnfs in calls of 1 MiB' wide /read 1024 16 ;;
        show) check_lines && compare 'read 64 MiB, libnfs writes the same lines' show /read 1024 ;;
        show4) compare 'read 64 MiB, nfs3 in 4 lanes, libnfs writes the same lines' show /read 1024 4 ;;
        show16) compare 'read 64 MiB, nfs3 in 16 lanes, libnfs writes the same lines' show /read 1024 16 ;;
        small) compare '1,000 small files' small "/small/lane$$-" 1000 ;;
        small16) compare '1,000 small files, nfs3 in 16 lanes' small "/small/lanes$$-" 1000 16 ;;
        list) compare 'list of 1,000 names' list /names 1000 ;;
        list10) compare 'list of 10,000 names' list /many 10000 ;;
        *) stop "there is no row $1" ;;
    esac
}

main() {
    local it rows=(write read read4 read16 wide16 show show4 show16 small small16 list list10)
    [ $# -gt 0 ] && rows=("$@")
    trap end_all EXIT
    prepare
    for it in "${rows[@]}"; do
        row "$it"
    done
}

main "$@"
