#!/usr/bin/env bash
# Takes the time in which a tree of 3,295 files and 290 MiB, and a file of 2 GiB, are copied to one nfs-ganesha on this machine whose files lie in
# memory, and back: by examples/backup.py and restore.py, which is one session of `nfs3 run --batches`; by `nfs3 copy`; and, to compare, by `cp -a`
# into the server's folder and by libnfs's nfs-cp. A line for each row has the medians of three runs, or of as many as RUNS says, and their ratio. Each
# copy is compared with what it is a copy of. Run it as root on Debian 12: it installs what is missing. The program is the one that bin/nfs3 --prove
# built, or the one that NFS3 names. The words are the rows that are wanted, of python, copy, large and memory; without words all are. The status is 0
# where all work was done.
set -u

here=$(dirname -- "$(readlink -f -- "${BASH_SOURCE[0]}")")
export NFS3=${NFS3:-$here/../../crates/nfs3/out/nfs3}
examples=$here/../../examples
runs=${RUNS:-3}
work=$(mktemp -d -p /dev/shm nfs3-trees.XXXXXX)
chmod 755 "$work"
mkdir "$work/served"

. "$here/../lib.sh"
. "$here/../ganesha.sh"
at=(127.0.0.1 /srv --uid 0 --gid 0 --mount-port "$mount_port" --nfs-port "$nfs_port")

prepare() {
    [ -x "$NFS3" ] || stop "$NFS3 isn't built: bin/nfs3 --prove builds it"
    have ganesha.nfsd rpcbind rpcinfo nfs-cp python3 || install nfs-ganesha nfs-ganesha-vfs rpcbind libnfs-utils python3
    start_all
    python3 "$here/make_tree.py" "$work/tree" || stop 'the tree is not made'
}

# Takes the seconds of a command: whose they are, and the command.
take_time() {
    local TIMEFORMAT=%R
    { time "${@:2}" >/dev/null 2>"$work/told"; } 2>>"$work/times_$1" || stop "${*:2} ended with the status $?: $(tail -1 "$work/told")"
}

# Two folders or files are the same.
same() {
    diff -r --no-dereference "$1" "$2" >"$work/told" 2>&1 || stop "$1 and $2 differ: $(head -1 "$work/told")"
}

# The median of what was taken of a command.
median() {
    sort -g "$work/times_$1" | sed -n "$(((runs + 1) / 2))p"
}

# A row: what it is, whose times they are, and those of what it is compared with, by its name.
tell() {
    awk -v what="$1" -v ours="$(median "$2")" -v other="$3" -v theirs="$(median "$4")" \
        'BEGIN { printf "%s: %.2f s, %s %.2f s, ratio %.2f\n", what, ours, other, theirs, ours / theirs }'
}

# Copies the tree up and down so many times: by a command that gets where from, where to and the arguments of `run`, and by cp.
compare_trees() {
    local run
    rm -f -- "$work"/times_*
    for run in $(seq "$runs"); do
        take_time up "$2" "$work/tree" /up
        same "$work/tree" "$work/served/up"
        take_time down "$3" /up "$work/down"
        same "$work/tree" "$work/down"
        take_time cp_up cp -a "$work/tree" "$work/served/cp"
        take_time cp_down cp -a "$work/served/cp" "$work/cp"
        rm -rf -- "$work/served/up" "$work/down" "$work/served/cp" "$work/cp"
    done
    tell "290 MiB to the server by $1" up 'cp -a' cp_up
    tell "290 MiB from the server by $1" down 'cp -a' cp_down
}

python_up() {
    "$examples/backup.py" "$1" "$2" "${at[@]}"
}

python_down() {
    "$examples/restore.py" "$1" "$2" "${at[@]}"
}

# With memory kept as bin/nfs3 keeps it.
copy() (
    . "$here/../../bin/heap.sh"
    exec "$NFS3" copy 127.0.0.1 /srv "$1" "$2" "${at[@]:2}"
)

copy_up() {
    copy "$1" ":$2"
}

copy_down() {
    copy ":$1" "$2"
}

# Copies a file of 2 GiB up and down so many times, by nfs3 copy and by nfs-cp.
compare_large_files() {
    local run
    head -c 2147483648 /dev/urandom >"$work/large"
    rm -f -- "$work"/times_*
    for run in $(seq "$runs"); do
        take_time copy_up copy "$work/large" :/large
        same "$work/large" "$work/served/large"
        take_time copy_down copy :/large "$work/back"
        same "$work/large" "$work/back"
        rm -f -- "$work/served/large" "$work/back"
        take_time nfs_cp_up nfs-cp "$work/large" "$(server_url /large)"
        take_time nfs_cp_down nfs-cp "$(server_url /large)" "$work/back"
        rm -f -- "$work/served/large" "$work/back"
    done
    rm -f -- "$work/large"
    tell '2 GiB to the server by nfs3 copy' copy_up nfs-cp nfs_cp_up
    tell '2 GiB from the server by nfs3 copy' copy_down nfs-cp nfs_cp_down
}

# The most KiB that a command held at a time.
greatest() {
    python3 -c 'import resource, subprocess, sys
subprocess.run(sys.argv[1:], check=True, stdout=subprocess.DEVNULL)
print(resource.getrusage(resource.RUSAGE_CHILDREN).ru_maxrss)' "$@"
}

# What the program holds at most while it copies the tree, either way.
tell_memory_of_copies() {
    local up down
    up=$(greatest "$NFS3" copy 127.0.0.1 /srv "$work/tree" :/memory_tree "${at[@]:2}") || stop 'the tree is not copied'
    down=$(greatest "$NFS3" copy 127.0.0.1 /srv :/memory_tree "$work/down" "${at[@]:2}") || stop 'the tree is not copied back'
    rm -rf -- "$work/served/memory_tree" "$work/down"
    echo "resident at most in a copy of the tree: $up KiB, back: $down KiB"
}

# What the program holds after one batch of some 900 KiB, and after a thousand.
compare_memory() {
    tell_memory_of_copies
    python3 - "$examples" "${at[@]}" <<'END'
import sys

sys.path.insert(0, sys.argv[1])
from nfs3_session import Session

def resident(session, what):
    with open("/proc/%d/status" % session.process.pid) as status:
        return int(next(line for line in status if line.startswith(what)).split()[1])

with Session(*sys.argv[2:]) as session:
    batch = ["1 open 1 c /memory"] + ["1 write 1 %d %s" % (at * 65536, "61" * 65536) for at in range(7)] + ["1 close 1"]
    session.run(batch)
    first = resident(session, "VmRSS")
    for _ in range(1000):
        session.run(batch)
    print("resident after a batch of 900 KiB: %d KiB, after 1,001: %d KiB, at most: %d KiB" % (first, resident(session, "VmRSS"), resident(session, "VmHWM")))
END
}

# The row of a name.
row() {
    case $1 in
        python) compare_trees 'the Python class' python_up python_down ;;
        copy) compare_trees 'nfs3 copy' copy_up copy_down ;;
        large) compare_large_files ;;
        memory) compare_memory ;;
        *) stop "there is no row $1" ;;
    esac
}

main() {
    local it rows=(python copy large memory)
    [ $# -gt 0 ] && rows=("$@")
    trap end_all EXIT
    prepare
    for it in "${rows[@]}"; do
        row "$it"
    done
}

main "$@"
