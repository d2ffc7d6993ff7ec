# Commands on names, attributes and directories: source it after sizes.sh.

# What `list` shows of a folder of the server's: the names in the order of their bytes, and bytes that aren't plain in hex.
names_in() {
    printf ok
    (cd -- "$work/served/$1" && find . -mindepth 1 -maxdepth 1 -printf '%f\0') | LC_ALL=C sort -z |
        od -An -v -tu1 -w1 | awk -v parted=1 '
            $1 == 0 { parted = 1; next }
            parted { printf " "; parted = 0 }
            { printf($1 < 33 || $1 > 126 || $1 == 37 ? "%%%02x" : "%c", $1) }'
}

try_directories() {
    new_script
    line 'mkdir /tree'
    line 'mkdir /tree' 'nfs 17'
    line 'mkdir /tree/low'
    line 'mkdir /none/low' 'nfs 2'
    line 'list /tree' 'ok low'
    line 'rmdir /tree' 'nfs 66'
    line 'open 1 x /tree/low/leaf'
    line 'open 2 r /tree/low' type
    line 'mkdir /tree/low/leaf/deep' 'nfs 20'
    line 'rmdir /tree/low/leaf' 'nfs 20'
    line 'close 1'
    line 'mkdir /tree/gone'
    line 'rmdir /tree/gone'
    line 'stat /tree/gone' 'nfs 2'
    run_script 'making of directories'
    new_script
    line 'list /tree' "$(names_in tree)"
    line 'stat /tree' "$(attributes tree 2)"
    line 'stat /tree/low/leaf' "$(attributes tree/low/leaf 1)"
    run_script 'showing of directories'
    [ "$(stat -c %a "$work/served/tree") $(stat -c %a "$work/served/tree/low/leaf")" = '755 644' ]
    count $? 'directories and files get their modes'
}

try_renames() {
    new_script
    line 'mkdir /from'
    line 'mkdir /to'
    line 'put /from/a 0 61' 'nfs 2'
    line 'open 1 c /from/a'
    line 'write 1 0 6161'
    line 'close 1'
    line 'open 1 c /to/b'
    line 'write 1 0 6262'
    line 'close 1'
    line 'rename /from/a /from/c'
    line 'rename /from/a /from/c' 'nfs 2'
    line 'rename /from/c /to/b'
    line 'list /from'
    line 'list /to' 'ok b'
    line 'rename /from /to/b' 'nfs 20'
    line 'rename /to/b /from' 'nfs 21'
    line 'rename /from /to/d'
    line 'list /to' 'ok b d'
    run_script 'renaming'
    printf aa >"$expected"
    same_file to/b
}

try_links() {
    new_script
    line 'open 1 x /one'
    line 'write 1 0 6f6e65'
    line 'close 1'
    line 'link /one /two'
    line 'link /one /two' 'nfs 17'
    line 'link /none /three' 'nfs 2'
    run_script 'linking'
    printf one >"$expected"
    same_file two
    new_script
    line 'stat /one' "$(attributes one 1)"
    line 'remove /one'
    line 'remove /one' 'nfs 2'
    run_script 'showing of links'
    [ "$(stat -c %h "$work/served/two")" = 1 ] && [ ! -e "$work/served/one" ]
    count $? 'one name of two is removed'
}

# Links with texts of each length, and one whose text isn't plain.
try_symbolic_links() {
    local length text
    for length in 1 511 512 513 1023 1024; do
        text=$(equal_bytes "$length" 74)
        new_script
        line "symlink /text_$length $text"
        line "readlink /text_$length" "ok $text"
        run_script "link of $length bytes"
        [ "$(readlink "$work/served/text_$length")" = "$text" ]
        count $? "a link of $length bytes lies in the server's folder"
    done
    ln -s '../a b%c' "$work/served/odd_link"
    new_script
    line 'readlink /odd_link' 'ok ../a%20b%25c'
    line 'stat /odd_link' "$(attributes odd_link 5)"
    line 'readlink /two' 'nfs 22'
    line 'symlink /odd_link x' 'nfs 17'
    run_script 'link of a text that is not plain'
}

# A name of every byte that a name may have, in names of at most 200 bytes.
try_odd_names() {
    local code name='' path='' number_of_name=0
    mkdir "$work/served/odd"
    for code in $(seq 1 255); do
        [ "$code" -eq 47 ] && continue
        printf -v path '%s%%%02X' "$path" "$code"
        if [ $((code % 50)) -eq 0 ] || [ "$code" -eq 255 ]; then
            new_script
            line "open 1 x /odd/$path"
            line 'close 1'
            run_script "making of a name up to the byte $code"
            printf -v name '%b' "${path//%/\\x}"
            [ -f "$work/served/odd/$name" ]
            count $? "a name up to the byte $code lies in the server's folder"
            path=
        fi
    done
}

# Directories of each number of names, which libnfs lists too.
try_lists() {
    local many listed
    for many in 0 1 511 512 513 4096; do
        mkdir "$work/served/many_$many"
        [ "$many" -eq 0 ] || (cd -- "$work/served/many_$many" && seq -f 'name %g' "$many" | tr ' ' _ | xargs touch)
        new_script
        line "list /many_$many" "$(names_in "many_$many")"
        run_script "list of $many names"
        listed=$(nfs-ls "$(server_url "/many_$many")" 2>/dev/null | awk '{ print $NF }' | LC_ALL=C sort | sed 's/^/ /' | tr -d '\n')
        [ "1 1 ok$listed" = "$(cat "$work/said")" ]
        count $? "nfs-ls lists the same $many names"
    done
}

# An open file that is removed keeps its bytes until its last close.
try_an_open_file() {
    mkdir "$work/served/open"
    new_script
    line 'open 1 x /open/a'
    line 'open 2 r /open/a'
    line 'write 1 0 6869'
    line 'remove /open/a'
    line 'list /open' 'ok .nfs00000000'
    line 'close 1'
    line 'read 2 0 9' 'ok 6869'
    line 'close 2'
    line 'list /open'
    run_script 'removal of an open file'
    [ -z "$(ls -A "$work/served/open")" ]
    count $? 'an open file that was removed is gone after its last close'
}

# What an open and its slot allow, and what the server allows to users.
try_refused_files() {
    printf hidden >"$work/served/hidden"
    chmod 600 "$work/served/hidden"
    printf shown >"$work/served/shown"
    chmod 644 "$work/served/shown"
    new_script
    line 'open 1 r /shown'
    line 'open 1 r /shown' slot
    line 'write 1 0 61' mode
    line 'read 2 0 1' slot
    line 'open 2 x /shown' 'nfs 17'
    line 'open 2 w /shown'
    line 'read 2 0 1' mode
    line 'open 3 r /missing' 'nfs 2'
    line 'access /shown 63' 'ok 13'
    line 'access / 63' 'ok 31'
    run_script 'refusals by an open'
    new_script
    line 'open 1 rw /hidden'
    line 'read 1 0 1' 'nfs 13'
    line 'write 1 0 61'
    line 'sync 1' 'nfs 13'
    line 'access /hidden 63' 'ok 0'
    line 'access /shown 63' 'ok 1'
    line 'mkdir /forbidden' 'nfs 13'
    line 'remove /shown' 'nfs 13'
    line 'close 1' 'nfs 13'
    user=1234
    run_script 'refusals by the server'
    user=0
    printf hidden >"$expected"
    same_file hidden
}

# Sixteen lanes make a file each side by side, and read it.
try_lanes() {
    local lane status
    new_script
    for lane in $(seq 16); do
        printf '%s\n' "$lane open 1 x /lane_$lane" "$lane fill 1 0 100000 $(printf '%02x' "$lane")" "$lane close 1" \
            "$lane open 1 r /lane_$lane" "$lane read 1 99999 9" >>"$work/script"
        for number in 4 3 2 1; do
            echo "$lane $((lane * 5 - number)) ok"
        done
        echo "$lane $((lane * 5)) ok $(printf '%02x' "$lane")"
    done >"$work/wanted"
    run_program
    status=$?
    sort -n -k 2,2 -o "$work/said" "$work/said"
    is_answered 'a script of sixteen lanes' "$status"
    for lane in $(seq 16); do
        equal_bytes 100000 "$(printf '%02x' "$lane")" >"$expected"
        same_file "lane_$lane"
    done
}

try_names() {
    try_directories
    try_renames
    try_links
    try_symbolic_links
    try_odd_names
    try_lists
    try_an_open_file
    try_refused_files
    try_lanes
}
