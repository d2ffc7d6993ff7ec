# The server nfs-ganesha for the test scripts: source it after lib.sh. It serves the folder `$work/served` as /srv, on ports of
# the loopback alone. The script has a folder `work`, and says `trap end_all EXIT`.

nfs_port=22049
mount_port=22048
server=
started=()

# Ends what was started, puts back what the server took of rpcbind's entries, and removes the files.
end_all() {
    for process in "${started[@]}"; do
        end "$process"
    done
    [ ! -s "$work/entries" ] || python3 "$here/../rpcbind.py" restore "$work/entries"
    rm -rf -- "$work"
}

# Gives up: what is tried can't be tried here.
stop() {
    echo "$(basename -- "$0"): $1" >&2
    exit 1
}

# Whether all these programs are there.
have() {
    local program
    for program in "$@"; do
        command -v "$program" >/dev/null || return 1
    done
}

# Installs packages of Debian, and tells its lines to `install.log`.
install() {
    { apt-get update && DEBIAN_FRONTEND=noninteractive apt-get install -y --no-install-recommends "$@"; } >"$work/install.log" 2>&1 ||
        stop "the programs can't be installed: $(tail -1 "$work/install.log")"
}

# nfs-ganesha registers its ports, and doesn't start where it can't. Where rpcbind runs already its entries are kept.
start_rpcbind() {
    if rpcinfo -p 127.0.0.1 >/dev/null 2>&1; then
        python3 "$here/../rpcbind.py" save "$work/entries"
        return
    fi
    rpcbind -f >"$work/rpcbind.log" 2>&1 &
    started+=($!)
    await rpcinfo -p 127.0.0.1
}

# The server believes no attributes, since the tests change files in its folder, and answers at once after a restart.
write_server_settings() {
    cat >"$work/ganesha.conf" <<END
NFS_CORE_PARAM {
    Protocols = 3;
    Bind_addr = 127.0.0.1;
    NFS_Port = $nfs_port;
    MNT_Port = $mount_port;
    Enable_NLM = false;
    Enable_RQUOTA = false;
    mount_path_pseudo = true;
}
NFSV4 { Graceless = true; }
EXPORT {
    Export_Id = 1;
    Path = $work/served;
    Pseudo = /srv;
    Access_Type = RW;
    Squash = No_Root_Squash;
    SecType = none, sys;
    PrivilegedPort = false;
    Attr_Expiration_Time = 0;
    FSAL { Name = VFS; }
}
END
}

# Starts the server, also after a crash, and waits until it answers.
start_server() {
    ganesha.nfsd -F -f "$work/ganesha.conf" -L "$work/ganesha.log" -p "$work/ganesha.pid" >"$work/ganesha.out" 2>&1 &
    server=$!
    started+=("$server")
    await nfs-ls "$(server_url '')"
}

server_url() {
    echo "nfs://127.0.0.1/srv$1?version=3&nfsport=$nfs_port&mountport=$mount_port"
}

# Starts the server and what it needs.
start_all() {
    start_rpcbind || stop "rpcbind doesn't start: $(tail -1 "$work/rpcbind.log")"
    write_server_settings
    start_server || stop "nfs-ganesha doesn't start: $(tail -1 "$work/ganesha.log")"
}
