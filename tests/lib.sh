# Parts that the test scripts share: source it. It counts checks in `passed` and `failed`.

# bin/nfs3 says nothing of its own where it runs a build without a proof.
export NFS3_QUIET=1

passed=0
failed=0

# Counts a check: the status that the command before it ended with, and its name. (The status comes first: a name that
# asks a command would change it.)
count() {
    if [ "$1" -eq 0 ]; then
        passed=$((passed + 1))
    else
        failed=$((failed + 1))
        echo "failed: $2"
    fi
}

# Says how many checks passed and failed; the status is 0 where none failed.
sum_up() {
    echo "$passed passed, $failed failed"
    [ "$failed" -eq 0 ]
}

# Ends a process that the script started, by force where it hasn't ended after ten seconds.
end() {
    kill "$1" 2>/dev/null
    for _ in $(seq 100); do
        kill -0 "$1" 2>/dev/null || break
        sleep 0.1
    done
    kill -9 "$1" 2>/dev/null
    wait "$1" 2>/dev/null
}

# Waits at most 30 seconds until the command succeeds.
await() {
    for _ in $(seq 300); do
        "$@" >/dev/null 2>&1 && return 0
        sleep 0.1
    done
    return 1
}

# Chooses a port below those that the system gives to connections, at which no one listens over TCP.
choose_port() {
    for _ in $(seq 100); do
        port=$((20000 + RANDOM % 10000))
        (exec 7<>"/dev/tcp/127.0.0.1/$port") 2>/dev/null || return 0
    done
}
