# Pages that are kept in a file from one session to the next: source it after sizes.sh.

store=$work/store

# Words behind the file of pages, for another number of pages than 1,024.
room=()

# Makes a new file of pages.
new_store() {
    local said
    rm -f -- "$store"
    said=$("$nfs3" fsc-make "$store" "${room[@]}" 2>&1)
    count $? "a file of pages is made: $said"
}

# A script that reads a file in pieces of 65,536 bytes: NAME, its bytes, and the counts that are wanted, if they are known.
read_script() {
    local piece pieces
    mapfile -t pieces < <(od -An -v -tx1 "$2" | tr -d ' \n' | fold -w 131072)
    new_script
    line "open 1 r /$1"
    for piece in "${!pieces[@]}"; do
        line "read 1 $((piece * 65536)) 65536" "ok ${pieces[piece]}"
    done
    line 'close 1'
    [ -z "${3-}" ] || counts "$3"
}

# Runs the script with the file of pages, and counts its calls.
run_kept() {
    host=(--fsc "$store" "${room[@]}" 127.0.0.1)
    run_program --count
    status=$?
    host=(127.0.0.1)
}

# What a session says of its file of pages, with nothing to do, and its status.
said_of() {
    local said
    said=$("$nfs3" run --fsc "$1" "${room[@]}" "${2-127.0.0.1}" /srv --nfs-port "$nfs_port" --mount-port "$mount_port" 2>&1 </dev/null)
    echo "$said $?"
}

# A session reads a file; the next one makes no READ; one after a change of the file reads it again.
try_second_session() {
    new_store
    head -c 300000 "$bytes" >"$work/served/kept"
    read_script kept "$work/served/kept" '8 getattr 1 lookup 1 read 5 write 0 commit 0'
    run_kept
    is_answered 'a session that keeps its pages' "$status"
    read_script kept "$work/served/kept" '3 getattr 1 lookup 1 read 0 write 0 commit 0'
    run_kept
    is_answered 'the next session makes no READ, and' "$status"
    sleep 0.02
    printf changed | dd of="$work/served/kept" bs=64K seek=70000 oflag=seek_bytes conv=notrunc status=none
    read_script kept "$work/served/kept" '8 getattr 1 lookup 1 read 5 write 0 commit 0'
    run_kept
    is_answered 'a session after a change of the file reads it again, and' "$status"
    read_script kept "$work/served/kept" '3 getattr 1 lookup 1 read 0 write 0 commit 0'
    run_kept
    is_answered 'and the one after that makes no READ, and' "$status"
}

# Another file that was read meanwhile takes the place of pages, as far as there is no room for both.
try_more_than_room() {
    head -c 4194304 /dev/urandom >"$work/served/large"
    read_script large "$work/served/large" '67 getattr 1 lookup 1 read 64 write 0 commit 0'
    run_kept
    is_answered 'a session that reads 1,024 pages' "$status"
    read_script large "$work/served/large" '3 getattr 1 lookup 1 read 0 write 0 commit 0'
    run_kept
    is_answered 'the next session makes no READ of 1,024 pages, and' "$status"
    read_script kept "$work/served/kept" '8 getattr 1 lookup 1 read 5 write 0 commit 0'
    run_kept
    is_answered 'a session that reads what was driven out' "$status"
}

# With room for 2,000 pages a file of 1,500 pages beside one of 74 is read once. A session for another number of pages is refused.
try_more_pages() {
    local answer pages
    room=(--pages 2000)
    new_store
    head -c 6144000 /dev/urandom >"$work/served/larger"
    read_script larger "$work/served/larger" '97 getattr 1 lookup 1 read 94 write 0 commit 0'
    run_kept
    is_answered 'a session that reads 1,500 pages' "$status"
    read_script kept "$work/served/kept" '8 getattr 1 lookup 1 read 5 write 0 commit 0'
    run_kept
    is_answered 'a session that reads 74 pages more' "$status"
    read_script larger "$work/served/larger" '3 getattr 1 lookup 1 read 0 write 0 commit 0'
    run_kept
    is_answered 'the next session makes no READ of 1,500 pages, and' "$status"
    read_script kept "$work/served/kept" '3 getattr 1 lookup 1 read 0 write 0 commit 0'
    run_kept
    is_answered 'nor of 74 more, and' "$status"
    for pages in 1024 1999 2001 65536; do
        room=(--pages "$pages")
        answer=$(said_of "$store")
        [ "$answer" = 'nfs3: store 9' ]
        count $? "a file for 2,000 pages as one for $pages: $answer"
    done
    room=()
    answer=$(said_of "$store")
    [ "$answer" = 'nfs3: store 9' ]
    count $? "a file for 2,000 pages without their number: $answer"
    rm -f -- "$work/served/larger"
}

# Starts the session, and ends it by force so many milliseconds after the file of pages begins to change. It says whether the session was still there.
kill_in_a_store() {
    python3 "$here/kill_in_store.py" "$store" "$1" "$nfs3" run --fsc "$store" 127.0.0.1 /srv --uid "$user" --gid "$user" \
        --mount-port "$mount_port" --nfs-port "$client_port" <"$work/script"
}

# A session ends by force at twenty places of its store; the next one reads the file as it is. The store takes some 20 ms and more, so at least ten are ended in it.
try_kills() {
    local place ended=0
    for place in $(seq 0 19); do
        sleep 0.02
        head -c 4194304 /dev/urandom >"$work/served/large"
        read_script large "$work/served/large"
        [ "$(kill_in_a_store "$place")" = killed ] && ended=$((ended + 1))
        run_kept
        is_without_counts "a session after one that was ended $place ms into its store"
    done
    [ "$ended" -ge 10 ]
    count $? "sessions that were ended in their store: $ended of 20"
}

# Files of another length. What lies past the end counts as zeros: without its label a file is refused if it has pages. What lies behind the label is left alone.
try_lengths() {
    local size answer
    for size in 4325375 1000000 4224; do
        new_store
        read_script kept "$work/served/kept"
        run_kept
        truncate -s "$size" "$store"
        answer=$(said_of "$store")
        [ "$answer" = 'nfs3: store 9' ]
        count $? "a file of pages that was cut to $size bytes: $answer"
    done
    for size in 3 0; do
        truncate -s "$size" "$store"
        read_script kept "$work/served/kept" '8 getattr 1 lookup 1 read 5 write 0 commit 0'
        run_kept
        is_answered "a session over a file that was cut to $size bytes" "$status"
        read_script kept "$work/served/kept" '3 getattr 1 lookup 1 read 0 write 0 commit 0'
        run_kept
        is_answered "the next session after a cut to $size bytes makes no READ, and" "$status"
    done
    new_store
    printf behind >>"$store"
    read_script kept "$work/served/kept"
    run_kept
    is_without_counts 'a session over a longer file'
    [ "$(tail -c 6 "$store")" = behind ]
    count $? 'what lies behind the label of a file stays'
}

# A disk without room ends no session: its pages aren't kept.
try_full_disk() {
    local answer
    answer=$(said_of /dev/full)
    [ "$answer" = 'nfs3: store 9' ]
    count $? "a device that takes no bytes: $answer"
    mkdir -p "$work/small"
    mount -t tmpfs -o size=64k none "$work/small" 2>/dev/null || return 0
    answer=$("$nfs3" fsc-make "$work/small/store" 2>&1; echo $?)
    [ "$answer" = $'nfs3: store\n9' ]
    count $? "a file of pages on a full disk: $answer"
    : >"$work/small/store"
    head -c 65536 /dev/zero >"$work/small/rest" 2>/dev/null
    store=$work/small/store
    for _ in 1 2; do
        read_script kept "$work/served/kept" '8 getattr 1 lookup 1 read 5 write 0 commit 0'
        run_kept
        is_answered 'a session whose pages find no room' "$status"
    done
    store=$work/store
    umount "$work/small"
}

# A file that can only be read, since its file system is.
try_read_only() {
    local answer
    mkdir -p "$work/fixed"
    mount -t tmpfs -o size=8m none "$work/fixed" 2>/dev/null || return 0
    "$nfs3" fsc-make "$work/fixed/store"
    mount -o remount,ro "$work/fixed"
    answer=$(said_of "$work/fixed/store")
    [ "$answer" = 'nfs3: store 9' ]
    count $? "a file of pages that can only be read: $answer"
    umount "$work/fixed"
}

# Files that can't be used end in a line and a status.
try_refused_stores() {
    local answer process
    answer=$(said_of "$work/no_such_store")
    [ "$answer" = 'nfs3: store 9' ]
    count $? "a file of pages that isn't there: $answer"
    answer=$(said_of "$work")
    [ "$answer" = 'nfs3: store 9' ]
    count $? "a folder as a file of pages: $answer"
    new_store
    read_script kept "$work/served/kept"
    run_kept
    answer=$(said_of "$store" localhost)
    [ "$answer" = 'nfs3: store 9' ]
    count $? "a file of pages of another host: $answer"
    chattr +i "$store" 2>/dev/null && {
        answer=$(said_of "$store")
        chattr -i "$store"
        [ "$answer" = 'nfs3: store 9' ]
        count $? "a file of pages that can't be written: $answer"
    }
    mkfifo "$work/later"
    "$nfs3" run --fsc "$store" 127.0.0.1 /srv --nfs-port "$nfs_port" --mount-port "$mount_port" <"$work/later" >"$work/said" 2>&1 &
    process=$!
    exec {later}>"$work/later"
    sleep 0.5
    answer=$(said_of "$store")
    [ "$answer" = 'nfs3: store 9' ]
    count $? "a file of pages that another session uses: $answer"
    exec {later}>&-
    wait "$process"
    count $? "the session that uses the file ends well: $(cat "$work/said")"
    answer=$(said_of "$store")
    [ "$answer" = ' 0' ]
    count $? "the file can be used again: $answer"
}

try_kept() {
    try_second_session
    try_more_than_room
    try_more_pages
    new_store
    try_kills
    try_lengths
    try_full_disk
    try_read_only
    try_refused_stores
}
