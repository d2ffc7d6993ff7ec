#!/usr/bin/env bash
# Counts what `nfs3 run` takes against an nfs-ganesha on this machine: instructions, by valgrind's callgrind, and the greatest
# resident size. Instructions of one call are the difference of a script of N and one of 2N; what grows is told by the
# instructions of 2N operations over those of N. Run it as root on Debian 12: it installs what is missing. The program is the
# one that bin/nfs3 built, or the one that NFS3 names; callgrind can't run a build without a proof, which checks its addresses.
# Memory is kept as bin/nfs3 keeps it.
# The words are the parts that are counted, of calls, growth, size and many; without words all but `many` are, which makes
# 1,000,000 calls.
set -u

here=$(dirname -- "$(readlink -f -- "${BASH_SOURCE[0]}")")
nfs3=${NFS3:-$here/../../crates/nfs3/out/nfs3}
work=$(mktemp -d -p /dev/shm nfs3-counts.XXXXXX)
chmod 755 "$work"
mkdir "$work/served"

. "$here/../lib.sh"
. "$here/../ganesha.sh"

prepare() {
    [ -x "$nfs3" ] || stop "$nfs3 isn't built: bin/nfs3 --prove builds it"
    have ganesha.nfsd rpcbind rpcinfo nfs-ls valgrind /usr/bin/time ||
        install nfs-ganesha nfs-ganesha-vfs rpcbind libnfs-utils valgrind time
    start_all
    head -c 16777216 /dev/urandom >"$work/served/read"
    : >"$work/served/written"
    mkdir "$work/served/tree"
}

# The program over the script that is made by this command: the command.
session() {
    . "$here/../../bin/heap.sh"
    "$@" >"$work/script"
    "${runner[@]}" "$nfs3" run 127.0.0.1 /srv --uid 0 --gid 0 --mount-port "$mount_port" --nfs-port "$nfs_port" \
        --calls 2000000 "${words[@]}" <"$work/script" >"$work/said" 2>"$work/told" || stop "$* ended with the status $?"
}

# How many instructions the program takes over the script of this command. glibc copies and fills by vectors here: by `rep movsb`,
# which it else takes for large pieces, valgrind counts an instruction for each byte.
instructions() {
    local -x GLIBC_TUNABLES=glibc.cpu.x86_rep_movsb_threshold=100000000:glibc.cpu.x86_rep_stosb_threshold=100000000
    runner=(valgrind --tool=callgrind "--callgrind-out-file=$work/callgrind")
    session "$@"
    sed -n 's/^.*Collected : \([0-9]*\)$/\1/p' "$work/told"
}

# The greatest resident size in KiB of the program over the script of this command.
resident() {
    runner=(/usr/bin/time -f 'resident %M')
    session "$@"
    sed -n 's/^resident //p' "$work/told"
}

# So many ACCESS calls, one a line.
accesses() {
    local at lanes=${2-1}
    for ((at = 0; at < $1; at++)); do
        echo "$((at % lanes + 1)) access / 1"
    done
}

# The same in sixteen lanes.
lane_accesses() {
    accesses "$1" 16
}

# So many files of 100 bytes, each stable before the next line of its lane.
small_files() {
    local at lane lanes=${2-1} digits
    printf -v digits '61%.0s' {1..100}
    for ((at = 0; at < $1; at++)); do
        lane=$((at % lanes + 1))
        printf '%s\n' "$lane open 1 c /tree/small_${lanes}_$1_$at" "$lane write 1 0 $digits" "$lane close 1"
    done
}

# The same in sixteen lanes.
lane_small_files() {
    small_files "$1" 16
}

# So many WRITEs of 65,536 bytes, in one sync.
writes() {
    local at
    echo '1 open 1 w /written'
    for ((at = 0; at < $1; at++)); do
        echo "1 fill 1 $((at * 65536)) 65536 61"
    done
    echo '1 sync 1'
}

# So many WRITEs of 65,536 bytes, each of which a line has in hex: at most seven.
hex_writes() {
    local at digits
    printf -v digits '61%.0s' {1..65536}
    echo '1 open 1 w /written'
    for ((at = 0; at < $1; at++)); do
        echo "1 write 1 $((at * 65536)) $digits"
    done
    echo '1 sync 1'
}

# So many READs of 65,536 bytes, each of which a line shows in hex.
reads() {
    local at
    echo '1 open 1 r /read'
    for ((at = 0; at < $1; at++)); do
        echo "1 read 1 $((at * 65536)) 65536"
    done
}

# So many segments of 512 bytes with as many between, sent by one sync.
segments() {
    local at
    echo '1 open 1 w /written'
    for ((at = 0; at < $1; at++)); do
        echo "1 fill 1 $((at * 1024)) 512 61"
    done
    echo '1 sync 1'
}

# A directory of so many names is listed.
names() {
    echo "1 list /names_$1"
}

# So many files are made, in sixteen lanes.
files() {
    local at
    for ((at = 0; at < $1; at++)); do
        printf '%s\n' "$((at % 16 + 1)) open 1 c /tree/$1_$at" "$((at % 16 + 1)) close 1"
    done
}

# The instructions of one more operation: what it is, how many, and the command that makes a script of so many.
one_more() {
    local fewer more
    fewer=$(instructions "$3" "$2") || exit
    more=$(instructions "$3" $(($2 * 2))) || exit
    echo "$1: $(((more - fewer) / $2)) instructions"
}

# The instructions of N, 2N and 4N operations, without those of none, and by what they grow.
growth() {
    local none before=0 now many
    none=$(instructions "$3" 0) || exit
    for many in "$2" $(($2 * 2)) $(($2 * 4)); do
        now=$(($(instructions "$3" "$many") - none))
        awk -v what="$1" -v many="$many" -v now="$now" -v before="$before" 'BEGIN {
            printf "%s, %d: %d instructions%s\n", what, many, now, before ? sprintf(", %.2f times the line above", now / before) : "" }'
        before=$now
    done
}

count_calls() {
    one_more 'a call of ACCESS' 500 accesses
    one_more 'a call of ACCESS in 16 lanes' 512 lane_accesses
    one_more 'a small file' 160 small_files
    one_more 'a small file in 16 lanes' 160 lane_small_files
    one_more 'a WRITE of 65,536 bytes from a fill' 20 writes
    one_more 'a WRITE of 65,536 bytes from hex' 3 hex_writes
    one_more 'a READ of 65,536 bytes' 20 reads
}

count_growth() {
    local many
    growth 'lines with a call each' 4096 accesses
    growth 'segments' 500 segments
    for many in 0 500 1000 2000; do
        mkdir "$work/served/names_$many"
        (cd -- "$work/served/names_$many" && seq -f 'name_%04g' "$many" | xargs -r touch)
    done
    growth 'names' 500 names
    growth 'files in 16 lanes' 500 files
}

# 4,194,304 bytes that wait, 1,024 pages, and as many lines of usual paths as a script may have.
largest() {
    local at
    echo '1 open 1 r /read'
    echo '1 open 2 w /written'
    for ((at = 0; at < 64; at++)); do
        echo "1 read 1 $((at * 65536)) 65536"
    done
    for at in 0 1 2 3; do
        echo "1 fill 2 $((at * 1048576)) 1048576 61"
    done
    for ((at = 0; at < 16310; at++)); do
        echo "$((at % 15 + 2)) stat /tree/project_$((at / 100))/src/module_$((at % 100)).txt"
    done
}

count_size() {
    local at
    for ((at = 0; at < 164; at++)); do
        mkdir -p "$work/served/tree/project_$at/src"
        (cd -- "$work/served/tree/project_$at/src" && seq -f 'module_%g.txt' 0 99 | xargs touch)
    done
    echo "no lines: $(resident accesses 1) KiB"
    echo "4 MiB that wait, 1,024 pages, 16,384 lines: $(resident largest) KiB"
}

# So many thousand READs of 512 bytes: 128 of each 65,536 bytes, over more pages than are kept. The script has as many lines
# whatever the number is: those that are left make no call.
many_reads() {
    local at
    echo '1 open 1 r /read'
    for ((at = 0; at < 7812; at++)); do
        echo "1 read 1 $((at % 256 * 65536)) $((at < $1 * 1000 / 128 ? 65536 : 0))"
    done
}

count_many() {
    local many words=(--rsize 512 --count)
    for many in 1 100 1000; do
        echo "$(resident many_reads "$many") KiB after $(tail -1 "$work/said")"
    done
}

main() {
    local part parts=(calls growth size)
    [ $# -gt 0 ] && parts=("$@")
    words=()
    trap end_all EXIT
    prepare
    for part in "${parts[@]}"; do
        "count_$part"
    done
}

main "$@"
