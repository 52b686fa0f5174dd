#!/usr/bin/env python3
"""behind_socket.py FRAMES [--listen HOST:PORT or PATH] [--drain SECONDS]: serves `frames` over a socket, one process a connection.

Without --listen, standard input is the connection, as inetd or a systemd unit with Accept=yes hands it over. With --listen it takes
connections itself, and prints the address. FRAMES reads and writes the connection itself, and one sheet is one connection's."""
import argparse
import os
import socket
import subprocess
import sys
import threading
import time


def serve(frames, connection, seconds):
    """`frames` on a connection until it ends. After a refusal 3 it leaves bytes unread, and a close on these would send a reset, which
    can destroy answers on their way. So the answers are ended first, and what the peer still sends is read and dropped."""
    subprocess.run([frames], stdin=connection, stdout=connection)
    try:
        connection.shutdown(socket.SHUT_WR)
        until = time.monotonic() + seconds
        while (left := until - time.monotonic()) > 0:
            connection.settimeout(left)
            if not connection.recv(65536):
                break
    except OSError:
        pass  # the peer has gone, or has not ended within the limit
    connection.close()


def listener(address):
    if '/' in address:
        s = socket.socket(socket.AF_UNIX)
        s.bind(address)
    else:
        host, port = address.rsplit(':', 1)
        s = socket.create_server((host, int(port)))
    s.listen(1024)
    return s


def listen(frames, address, seconds):
    with listener(address) as s:
        name = s.getsockname()
        print(name if isinstance(name, str) else '%s:%d' % name[:2], flush=True)
        while True:
            connection, _ = s.accept()
            threading.Thread(target=serve, args=(frames, connection, seconds), daemon=True).start()


def main():
    words = argparse.ArgumentParser(usage=__doc__)
    words.add_argument('frames')
    words.add_argument('--listen')
    words.add_argument('--drain', type=float, default=30)
    given = words.parse_args()
    if given.listen:
        listen(given.frames, given.listen, given.drain)
    serve(given.frames, socket.socket(fileno=os.dup(0)), given.drain)


if __name__ == '__main__':
    sys.exit(main())
