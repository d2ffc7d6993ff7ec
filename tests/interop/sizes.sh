# Every command that has bytes, with each size and each limit of READ and WRITE: source it after scripts.sh.

# Sizes around those of a small WRITE, a page, a large WRITE and a long fill.
around=(511 512 513 4095 4096 4097 65535 65536 65537 1048575 1048576 1048577)
transfers=('' '--rsize 512' '--wsize 512')

# A script has at most 1,048,576 bytes, and so seven lines of 65,536 bytes in hex.
longest=65536
lines_each=7

# Adds a line that reads so many bytes at an offset, and the bytes of the expected file as its answer.
read_line() {
    local digits
    digits=$(hex "$expected" "$1" "$2")
    line "read 1 $1 $2" "ok${digits:+ $digits}"
}

# Makes a file of random bytes by lines of `write`, in as many sessions as it takes: NAME SIZE, and words.
try_write() {
    local name=$1 size=$2 offset=0 count mode=x
    head -c "$size" "$bytes" >"$expected"
    while [ "$offset" -lt "$size" ]; do
        new_script
        line "open 1 $mode /$name"
        while [ "$offset" -lt "$size" ] && [ "$number" -le "$lines_each" ]; do
            count=$((size - offset < longest ? size - offset : longest))
            line "write 1 $offset $(hex "$expected" "$offset" "$count")"
            offset=$((offset + count))
        done
        line 'sync 1'
        line 'close 1'
        run_script "write of $name" "${@:3}"
        mode=w
    done
    same_file "$name"
}

# Reads the file to its end and past it, and pieces that no page or READ ends with: NAME SIZE, and words.
try_read() {
    local name=$1 size=$2 offset
    new_script
    line "open 1 r /$name"
    for ((offset = 0; offset <= size; offset += longest)); do
        read_line "$offset" "$longest"
    done
    read_line $((size / 3)) 700
    read_line $((size - 1)) 2
    read_line "$size" 1
    read_line 0 0
    line 'close 1'
    run_script "read of $name" "${@:3}"
}

# Writes over the file's end and middle, and reads what isn't sent yet: NAME SIZE, and words.
try_overwrite() {
    local name=$1 size=$2 middle=$(($2 / 2)) end=$(($2 - 100))
    new_script
    line "open 1 rw /$name"
    line "write 1 $end $(hex "$bytes" 7 612)"
    lay_over "$bytes" 7 612 "$end"
    line "fill 1 $middle 200 7a"
    equal_bytes 200 7a >"$work/filled"
    lay_over "$work/filled" 0 200 "$middle"
    read_line "$end" 1000
    read_line $((middle - 5)) 300
    line 'sync 1'
    read_line "$end" 1000
    line "put /$name 3 $(hex "$bytes" 11 100)"
    lay_over "$bytes" 11 100 3
    read_line 0 200
    line 'close 1'
    run_script "overwriting of $name" "${@:3}"
    same_file "$name"
}

# Cuts the file in its middle, and makes it longer by a hole: NAME SIZE, and words.
try_truncate() {
    local name=$1 size=$2 middle=$(($2 / 2 + 1))
    new_script
    line "open 1 rw /$name"
    read_line $((middle - 9)) 20
    line "truncate 1 $middle"
    truncate -s "$middle" "$expected"
    read_line $((middle - 9)) 20
    line "truncate 1 $size"
    truncate -s "$size" "$expected"
    read_line $((middle - 9)) 20
    line 'close 1'
    run_script "truncation of $name" "${@:3}"
    same_file "$name"
}

# Makes a file of equal bytes, which takes a second line past 1,048,576: NAME SIZE, and words.
try_fill() {
    local name=$1 size=$2 first=$(($2 < 1048576 ? $2 : 1048576))
    equal_bytes "$size" a5 >"$expected"
    new_script
    line "open 1 c /$name"
    line "fill 1 0 $first a5"
    [ "$size" -gt "$first" ] && line "fill 1 $first $((size - first)) A5"
    line 'close 1'
    run_script "fill of $name" "${@:3}"
    same_file "$name"
}

# Puts bytes, at most 65,536 of them, so that the file ends at its size: NAME SIZE, and words.
try_put() {
    local name=$1 size=$2 count=$(($2 < longest ? $2 : longest))
    new_script
    line "open 1 x /$name"
    line "put /$name $((size - count)) $(hex "$bytes" 0 "$count")"
    line 'close 1'
    : >"$expected"
    lay_over "$bytes" 0 "$count" $((size - count))
    run_script "put of $name" "${@:3}"
    same_file "$name"
}

# What `stat` shows of a file of the server's folder: NAME KIND.
attributes() {
    local mode rest
    read -r mode rest < <(stat -c '%a %h %u %g %s %i %Y' "$work/served/$1")
    printf 'ok %s %04d %s' "$2" "$mode" "$rest"
}

# Shows the file's attributes by its path, and reads a file that libnfs wrote: NAME SIZE, and words.
try_a_file_of_libnfs() {
    local name=$1 size=$2
    tail -c "$size" "$bytes" >"$expected"
    nfs-cp "$expected" "$(server_url "/$name")" >"$work/copied" 2>&1
    count $? "$name is written by nfs-cp: $(tail -1 "$work/copied")"
    new_script
    line "stat /$name" "$(attributes "$name" 1)"
    run_script "stat of $name" "${@:3}"
    try_read "$@"
}

try_sizes() {
    local size transfer words name
    for transfer in "${transfers[@]}"; do
        read -ra words <<<"$transfer"
        for size in "${around[@]}"; do
            name=${size}_${transfer//[^a-z0-9]/}
            try_write "written_$name" "$size" "${words[@]}"
            try_read "written_$name" "$size" "${words[@]}"
            try_overwrite "written_$name" "$size" "${words[@]}"
            try_truncate "written_$name" "$size" "${words[@]}"
            try_fill "filled_$name" "$size" "${words[@]}"
            try_put "put_$name" "$size" "${words[@]}"
            try_a_file_of_libnfs "copied_$name" "$size" "${words[@]}"
        done
    done
}
