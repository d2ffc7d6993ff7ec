# Copies of trees to the server and from it: source it after failures.sh. The server's folder is looked at beside.

# Runs a copy. The words before the host are given as one.
copy() {
    local early=$1
    shift
    # shellcheck disable=SC2086
    "$nfs3" copy $early 127.0.0.1 /srv "$@" --uid 0 --gid 0 --mount-port "$mount_port" --nfs-port "$client_port" \
        >"$work/said" 2>"$work/warned"
}

# Whether a copy ended with this status, and standard error has these lines, in any order.
ended() {
    [ "$1 $(LC_ALL=C sort "$work/warned")$(cat "$work/said")" = "$2 $3" ]
    count $? "copy $4: $1, $(head -5 "$work/said" "$work/warned")"
}

# Runs a copy: its status, what standard error is to say, and the words.
copies() {
    copy "${@:3}"
    ended $? "$1" "$2" "${*:3}"
}

# Two folders or files are the same, and nothing is left of files that weren't whole.
same_trees() {
    diff -r --no-dereference "$1" "$2" >"$work/said" 2>&1
    count $? "$1 differs from $2: $(head -3 "$work/said")"
    [ -z "$(find "$work" -name '.nfs3-copy-*')" ]
    count $? 'nothing is left beside'
}

# Folders, one of them empty, files about the sizes of pieces and of scripts, links, and a name with other bytes than letters.
make_a_tree() {
    local number size
    mkdir -p "$1/a/b c/d" "$1/empty folder"
    for number in $(seq 300); do head -c $((number * 37)) /dev/urandom >"$1/a/$number"; done
    for size in 0 1 65535 65536 65537 4194304 9000001; do head -c "$size" /dev/urandom >"$1/a/b c/d/$size"; done
    printf x >"$1/a/b c/é%"
    ln -s a/1 "$1/link"
    ln -s /nowhere "$1/a/dangling"
}

# Up and down, twice each, and compared both ways.
try_trees() {
    local there=$work/served/copied
    make_a_tree "$work/tree"
    copies 0 '' '' "$work/tree" :/copied
    same_trees "$work/tree" "$there"
    copies 0 '' '' "$work/tree" :/copied
    same_trees "$work/tree" "$there"
    copies 0 '' --check "$work/tree" :/copied
    copies 0 '' '' :/copied "$work/back"
    same_trees "$work/tree" "$work/back"
    copies 0 '' '' :/copied "$work/back"
    same_trees "$work/tree" "$work/back"
    copies 0 '' --check :/copied "$work/back"
    printf y >>"$work/back/a/7"
    mkdir "$work/back/more"
    ln -sfn elsewhere "$work/back/link"
    copies 1 $'nfs3: /copied/a/7: differs\nnfs3: /copied/link: differs\nnfs3: /copied/more: isn\'t on the server' --check :/copied "$work/back"
    copies 0 '' --size-only :/copied/a "$work/back/a"
    cmp -s "$work/back/a/7" "$there/a/7"
    count $? 'a file of another size is copied again'
}

# So many MiB of a path have come.
has_come() {
    local size
    size=$(du -sm "$1" 2>/dev/null | cut -f 1)
    [ "${size:-0}" -ge "$2" ]
}

# Ends the server by force once so many MiB of a path have come, and starts it again after two seconds: the copy waits for it.
restart_at() {
    for _ in $(seq 600); do
        has_come "$1" "$2" && break
        sleep 0.01
    done
    kill -9 "$server"
    wait "$server" 2>/dev/null
    has_come "$1" "$3" && echo 'the copy had ended already' >"$work/late"
    sleep 2
    start_server
}

# The server is ended by force in the midst of a copy, either way.
try_copies_over_restarts() {
    local size=64
    head -c $((size * 1048576)) /dev/urandom >"$work/tree/large"
    rm -f -- "$work/late"
    copy '' "$work/tree" :/copied2 &
    local client=$!
    restart_at "$work/served/copied2" 16 "$size"
    wait "$client"
    ended $? 0 '' 'over a restart'
    same_trees "$work/tree" "$work/served/copied2"
    copy '' :/copied2 "$work/back2" &
    client=$!
    restart_at "$work/back2" 16 "$size"
    wait "$client"
    ended $? 0 '' 'back over a restart'
    same_trees "$work/tree" "$work/back2"
    [ ! -e "$work/late" ]
    count $? 'the server ends in the midst'
    rm -f -- "$work/tree/large" "$work/served/copied2/large" "$work/back2/large"
}

# Each file that isn't named, with an error of the server, is there whole: FROM TO.
named_or_whole() {
    local file name wrong=0 named=0
    while read -r file; do
        name=${file#"$1/"}
        if grep -q "/$name: nfs 28\$" "$work/warned"; then
            named=$((named + 1))
        else
            cmp -s "$file" "$2/$name" || wrong=$((wrong + 1))
        fi
    done < <(find "$1" -type f)
    [ "$wrong" -eq 0 ] && [ "$named" -gt 0 ] && [ "$named" -eq "$(wc -l <"$work/warned")" ]
}

# A server without room names the files that didn't fit, once each, and takes the rest.
try_full_server() {
    mkdir "$work/much"
    for number in $(seq 9); do head -c 1000000 /dev/urandom >"$work/much/$number"; done
    for number in $(seq 10 20); do head -c 1000 /dev/urandom >"$work/much/$number"; done
    end "$server"
    if ! mount -t tmpfs -o size=6m none "$work/served" 2>/dev/null; then
        start_server
        return
    fi
    start_server
    copy '' "$work/much" :/much
    [ $? -eq 1 ] && named_or_whole "$work/much" "$work/served/much"
    count $? "a full server: $(head -5 "$work/warned")"
    end "$server"
    umount "$work/served"
    start_server
    count $? 'the server starts again'
}

# A target without room names the files that don't fit, and leaves nothing of them.
try_full_target() {
    mkdir "$work/little" "$work/served/much"
    cp "$work/much"/* "$work/served/much"
    mount -t tmpfs -o size=6m none "$work/little" 2>/dev/null || return 0
    copy '' :/much "$work/little/much"
    [ $? -eq 1 ]
    count $? "a full target: $(head -5 "$work/warned")"
    sed -i 's/: the system refused it$/: nfs 28/' "$work/warned"
    named_or_whole "$work/much" "$work/little/much"
    count $? "what doesn't fit is named: $(head -5 "$work/warned")"
    [ "$(find "$work/little/much" -type f | wc -l)" -eq "$((20 - $(wc -l <"$work/warned")))" ]
    count $? 'nothing stands there of what was refused'
    umount "$work/little"
}

# Holds the N-th call of a procedure, runs a command meanwhile, and then lets the copy go on: PROC N COMMAND STATUS LINES WORDS.
while_held() {
    local proc=$1 number=$2 command=$3
    shift 3
    start_proxy at "$proc" "$number"
    copy '' "${@:3}" &
    local client=$! held
    read -r -t 60 held <&"$from_proxy"
    [ "$held" = held ]
    count $? "call $number of procedure $proc comes: $held"
    "$command"
    echo >&"$to_proxy"
    wait "$client"
    ended $? "$1" "$2" "${*:3}"
    end_proxy
}

remove_one() {
    rm "$work/served/forty/40"
}

# The first READ comes when fifteen files are open at most. So a file that is taken away then vanishes between the look at it and its open.
try_a_file_that_vanishes() {
    local number
    mkdir "$work/served/forty"
    for number in $(seq 10 49); do echo "$number" >"$work/served/forty/$number"; done
    while_held 6 1 remove_one 1 'nfs3: /forty/40: nfs 2' :/forty "$work/forty"
    same_trees "$work/served/forty" "$work/forty"
}

# What can't be copied is named, one line each, and all else is copied.
try_unreadable_objects() {
    mkdir -p "$work/served/some/b" "$work/own/b"
    echo a >"$work/served/some/a"
    echo c >"$work/served/some/b/c"
    echo x >"$work/served/some/"$'\xff'
    mkfifo "$work/served/some/pipe"
    copies 1 $'nfs3: /some/%ff: its name can\'t be used here\nnfs3: /some/pipe: neither a file, a folder nor a link' '' :/some "$work/some"
    [ "$(cd "$work/some" && find . -type f | LC_ALL=C sort | tr '\n' ' ')" = './a ./b/c ' ]
    count $? 'all else is copied from the server'
    echo a >"$work/own/a"
    echo c >"$work/own/b/c"
    echo x >"$work/own/"$'\xff'
    echo y >"$work/own/closed"
    chmod 0 "$work/own/closed"
    setpriv --inh-caps=-all --bounding-set=-all "$nfs3" copy 127.0.0.1 /srv "$work/own" :/own --uid 0 --gid 0 \
        --mount-port "$mount_port" --nfs-port "$nfs_port" >"$work/said" 2>"$work/warned"
    ended $? 1 $'nfs3: /own/%ff: can\'t be read\nnfs3: /own/closed: can\'t be read' 'without rights'
    [ "$(cd "$work/served/own" && find . -type f | LC_ALL=C sort | tr '\n' ' ')" = './a ./b/c ' ]
    count $? 'all else is copied to the server'
    chmod 600 "$work/served/some/a"
    rm "$work/served/some/"$'\xff' "$work/served/some/pipe"
    "$nfs3" copy 127.0.0.1 /srv :/some "$work/some2" --uid 65534 --gid 65534 --mount-port "$mount_port" --nfs-port "$nfs_port" \
        >"$work/said" 2>"$work/warned"
    ended $? 1 'nfs3: /some/a: nfs 13' 'of another user'
    [ "$(cat "$work/some2/b/c")" = c ]
    count $? 'all else is copied for another user'
}

# A link from the server that leads out is made as it is. Nothing is written through it, also if a folder stands in its place on the server later.
try_a_link_that_leads_out() {
    local there=$work/served/out
    mkdir "$work/outside" "$there"
    ln -s "$work/outside" "$there/a"
    echo ab >"$there/b"
    copies 0 '' '' :/out "$work/out"
    [ "$(readlink "$work/out/a")" = "$work/outside" ]
    count $? 'a link that leads out'
    rm "$there/a"
    mkdir "$there/a"
    echo ab >"$there/a/file"
    ln -sfn "$work/outside/b" "$work/out/b"
    copies 1 'nfs3: /out/a: something of another kind is here' '' :/out "$work/out"
    [ -z "$(ls -A "$work/outside")" ] && [ ! -L "$work/out/b" ] && cmp -s "$work/out/b" "$there/b"
    count $? 'nothing is written through a link'
}

try_copies() {
    client_port=$nfs_port
    try_trees
    try_copies_over_restarts
    try_full_server
    try_full_target
    try_a_file_that_vanishes
    try_unreadable_objects
    try_a_link_that_leads_out
}
