#!/usr/bin/env bash
# Tries the launcher bin/nfs3 by itself, in a copy of the folders that it looks at, with stand-ins for the program and for
# the toolchain: which program it runs, when it builds one, what it says, and that words, streams and status pass through.
# It needs no toolchain and no port, and takes some seconds.
set -u

here=$(dirname -- "$(readlink -f -- "${BASH_SOURCE[0]}")")
real=$here/../..
. "$here/../lib.sh"
unset NFS3_QUIET

work=$(mktemp -d -t nfs3-launcher.XXXXXX)
trap 'rm -rf -- "$work"' EXIT
top=$work/top
out=$top/crates/nfs3/out

# The folders of a checkout that the launcher looks at, with one source for each program.
make_checkout() {
    mkdir -p "$top/bin" "$top/docs" "$top/crates/nfs3/src" "$top/crates/nfs3/specs" "$top/crates/nfs3/proofs" "$top/crates/nfs3_session/src"
    cp "$real/bin/nfs3" "$real/bin/heap.sh" "$top/bin/"
    cp "$real/docs/CLI.md" "$top/docs/"
    cp "$real/VERSION" "$top/"
    echo 'nfs3:' >"$top/crates.txt"
    echo 'fn main() {}' >"$top/crates/nfs3/src/main.rt"
    echo 'fn main() {}' >"$top/crates/nfs3_session/src/main.rt"
}

# A folder with the commands that the launcher needs, and no toolchain.
make_commands() {
    mkdir "$work/commands"
    local name
    for name in awk bash cat chmod cp env find flock grep mkdir mkfifo mktemp mv readlink rm sleep touch; do
        ln -s "$(type -P "$name")" "$work/commands/$name"
    done
}

# A stand-in for the toolchain, which notes each call and the crate that it is for: `rt run` builds the proved program, `rt try`
# compiles one into a folder of TMPDIR and runs it, so that it opens the schedule's pipe. While the file `broken` is there, both fail.
make_toolchain() {
    mkdir "$work/toolchain"
    cat >"$work/toolchain/rt" <<'RT'
#!/usr/bin/env bash
work=${BASH_SOURCE[0]%/*/*}
echo "$1 ${PWD##*/}" >>"$work/calls"
[ ! -e "$work/broken" ] || exit 1
program() {
    printf '%s\n' '#!/usr/bin/env bash' "echo \"$1 \$# \$* \$MALLOC_TOP_PAD_\"" 'cat' 'echo told >&2' 'exit 3' >"$2"
    chmod 755 "$2"
}
case $1 in
run)
    program proved out/nfs3
    echo 'nfs3: usage'
    ;;
try)
    mkdir "$TMPDIR/a"
    program "${PWD##*/}" "$TMPDIR/a/program"
    exec cat "$6"
    ;;
esac
RT
    chmod 755 "$work/toolchain/rt"
    : >"$work/calls"
}

# Starts the launcher with these words, and keeps what it says in the files `said` and `warned`. `start` finds the toolchain,
# `start_bare` doesn't.
start() {
    PATH=$work/toolchain:$work/commands "$top/bin/nfs3" "$@" >"$work/said" 2>"$work/warned" <<<'standard input'
    status=$?
}

start_bare() {
    PATH=$work/commands "$top/bin/nfs3" "$@" >"$work/said" 2>"$work/warned" <<<'standard input'
    status=$?
}

# The last start ran this program with the words `a` and `b c`, or with these two others, and its streams and status came through.
ran() {
    [ "$status" = 3 ] && [ "$(cat "$work/said")" = "$1 2 ${3:-a b c} 16777216"$'\n''standard input' ] &&
        [ "$(tail -1 "$work/warned")" = told ]
    count $? "$2: status $status, $(cat "$work/said" "$work/warned")"
}

# The last start said so many lines before the program did.
warned() {
    [ "$(wc -l <"$work/warned")" = $(($1 + 1)) ]
    count $? "$2: $(cat "$work/warned")"
}

# The toolchain was called so, all in all.
called() {
    [ "$(tr '\n' ' ' <"$work/calls")" = "$1" ]
    count $? "$2: $(tr '\n' ' ' <"$work/calls")"
}

# The last start ended with 70, said this as its last line, and ran nothing.
gave_up() {
    [ "$status" = 70 ] && [ ! -s "$work/said" ] && [[ $(tail -1 "$work/warned") == "nfs3: $1"* ]]
    count $? "$2: status $status, $(cat "$work/said" "$work/warned")"
}

try_own_words() {
    start_bare --version
    [ "$status $(cat "$work/said")" = "0 nfs3 $(cat "$real/VERSION")" ]
    count $? "the version is printed: $status $(cat "$work/said")"
    start_bare --help
    [ "$status" = 0 ] && [ "$(wc -l <"$work/said")" -ge 5 ] && ! grep -qv '^nfs3 ' "$work/said"
    count $? "the synopsis is printed: $status $(cat "$work/said")"
    while read -r line; do
        grep -qxF "    $line" "$real/docs/CLI.md"
        count $? "a line of the synopsis is one of CLI.md: $line"
    done <"$work/said"
}

try_without_a_toolchain() {
    start_bare a 'b c'
    gave_up "the program isn't built, and rt" 'without a program and a toolchain'
    start_bare --prove
    gave_up "the program isn't built, and rt" '--prove without a toolchain'
}

try_the_unproved_program() {
    touch "$work/broken"
    start a 'b c'
    gave_up "the program couldn't be compiled" 'a toolchain that fails'
    rm "$work/broken"
    ln -s "$(type -P false)" "$work/toolchain/cp"
    start a 'b c'
    gave_up "the program couldn't be compiled" 'a program that cannot be copied'
    rm "$work/toolchain/cp"
    : >"$work/calls"
    start a 'b c'
    ran nfs3 'the first start'
    warned 2 'the first start says that it compiles, and what it runs'
    start a 'b c'
    ran nfs3 'the second start'
    warned 1 'the second start says what it runs'
    NFS3_QUIET=1 start a 'b c'
    ran nfs3 'a quiet start'
    warned 0 'a quiet start says nothing'
    called 'try nfs3 ' 'the program was compiled once'
    start_bare a 'b c'
    ran nfs3 'a start that finds no toolchain'
    ln -s "$top/bin/nfs3" "$work/link"
    (cd / && PATH=$work/commands "$work/link" a 'b c' >"$work/said" 2>"$work/warned" <<<'standard input'; exit $?)
    status=$?
    ran nfs3 'a start by a symbolic link'
    [ -z "$(find "$out/quick" -name 'room.*')" ]
    count $? 'no folder of the compiler is left'
}

# A source that is newer than the program makes it stale. Two starts at once wait for one build.
try_a_changed_source() {
    local first second
    : >"$work/calls"
    touch "$top/crates/nfs3/src/main.rt"
    PATH=$work/toolchain:$work/commands "$top/bin/nfs3" a 'b c' >"$work/first" 2>/dev/null <<<'one' &
    first=$!
    PATH=$work/toolchain:$work/commands "$top/bin/nfs3" a 'b c' >"$work/second" 2>/dev/null <<<'two' &
    second=$!
    wait "$first"
    first=$?
    wait "$second"
    second=$?
    [ "$first $second $(tail -1 "$work/first") $(tail -1 "$work/second")" = '3 3 one two' ]
    count $? "two starts at once: $first $second"
    called 'try nfs3 ' 'they compile once'
}

# `replay`, and `run` without kept pages, are compiled by themselves, unless the whole program is there.
try_the_small_program() {
    local small=$top/crates/nfs3_session/out/quick
    : >"$work/calls"
    touch "$top/crates/nfs3/src/main.rt" "$work/broken"
    start replay 'b c'
    gave_up "the program couldn't be compiled; see $small/log" 'a replay, and a toolchain that fails'
    rm "$work/broken"
    : >"$work/calls"
    start replay 'b c'
    ran nfs3_session 'a replay' 'replay b c'
    warned 2 'a replay says that it compiles, and what it runs'
    start run --udp
    ran nfs3_session 'a run' 'run --udp'
    warned 1 'a run says what it runs'
    called 'try nfs3_session ' 'the small program was compiled once'
    start run --fsc
    ran nfs3 'a run with kept pages' 'run --fsc'
    start check 'b c'
    ran nfs3 'another command' 'check b c'
    start replay 'b c'
    ran nfs3 'a replay by the whole program' 'replay b c'
    touch "$top/crates/nfs3_session/src/main.rt"
    start replay 'b c'
    ran nfs3_session 'a replay after a source changed' 'replay b c'
    called 'try nfs3_session try nfs3 try nfs3_session ' 'each program was compiled when it was asked for'
    [ -z "$(find "$small" -name 'room.*')" ]
    count $? 'no folder of the compiler is left of the small program'
}

try_the_proved_program() {
    : >"$work/calls"
    touch "$work/broken"
    start --prove
    gave_up "the program couldn't be proved and built" 'a proof that fails'
    rm "$work/broken"
    : >"$work/calls"
    start --prove
    [ "$status" = 0 ] && [ ! -s "$work/said" ] && [[ $(tail -1 "$work/warned") == "nfs3: proved and built: "* ]]
    count $? "--prove: $status $(cat "$work/warned")"
    start --prove
    [ "$status" = 0 ]
    count $? "--prove again: $status"
    called 'run nfs3 ' 'it is proved once'
    start_bare a 'b c'
    ran proved 'a start after the proof'
    warned 0 'the proved program is run without a word'
    start_bare replay 'b c'
    ran proved 'a replay after the proof' 'replay b c'
    touch "$top/crates/nfs3/src/main.rt"
    start a 'b c'
    ran nfs3 'a start after a source changed'
    warned 2 'it says that it compiles, and what it runs'
    called 'run nfs3 try nfs3 ' 'it is compiled, and not proved'
}

make_checkout
make_commands
make_toolchain
try_own_words
try_without_a_toolchain
try_the_unproved_program
try_a_changed_source
try_the_small_program
try_the_proved_program
sum_up
