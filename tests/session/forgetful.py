#!/usr/bin/env python3
"""A way to a server on this machine that forgets connections, as a firewall or a NAT does that was silent for too long.

    forgetful.py PORT SERVER_PORT

It listens at PORT of 127.0.0.1 and passes each connection on to SERVER_PORT, in both directions, and prints `listening PORT`. At SIGUSR1 it forgets
the connections that stand: what is sent over them then is thrown away, and neither end is told. Connections that are made later are passed on.
"""

import signal
import socket
import sys
import threading

lock = threading.Lock()
age = 0  # how often it has forgotten


def forget(*_):
    global age
    with lock:
        age += 1


def pass_on(source, target, born):
    """Passes bytes on as long as the connection isn't forgotten. One that is forgotten stays open."""
    while True:
        try:
            data = source.recv(65536)
        except OSError:
            data = b""
        with lock:
            forgotten = age != born
        if not data:
            if not forgotten:
                target.close()
            return
        if not forgotten:
            try:
                target.sendall(data)
            except OSError:
                return


def main(port, server_port):
    signal.signal(signal.SIGUSR1, forget)
    listener = socket.socket()
    listener.setsockopt(socket.SOL_SOCKET, socket.SO_REUSEADDR, 1)
    listener.bind(("127.0.0.1", port))
    listener.listen()
    print("listening %d" % port, flush=True)
    kept = []
    while True:
        near, _ = listener.accept()
        far = socket.create_connection(("127.0.0.1", server_port))
        kept.append((near, far))
        with lock:
            born = age
        for ends in ((near, far), (far, near)):
            threading.Thread(target=pass_on, args=(*ends, born), daemon=True).start()


if __name__ == "__main__":
    main(int(sys.argv[1]), int(sys.argv[2]))
