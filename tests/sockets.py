#!/usr/bin/env python3
"""sockets.py BINARY [WORD..]: the service on a socket, and behind the server of behind_socket.py, whose clients lose no answer after a
refusal 3. Exit status 1 where that fails."""
import array
import concurrent.futures
import contextlib
import fcntl
import os
import shutil
import socket
import struct
import subprocess
import sys
import tempfile
import termios
import time
import checks
from checks import CUT, HERE, LONG, P2, PIPE, Failed, agrees, due, ended, expect, holds, repeated, rest, same, started, take
from model import D, W, caps, effects, f

CLIENTS = 400
FURTHER = bytes(300000)  # what a client still sends after the length of 60,001
SOON = 5  # seconds


def all_of(s):
    """All that the other side sends until its end."""
    got = b''
    while piece := s.recv(65536):
        got += piece
    return got


# The service on a socket of its own.

def half_closed(binary, stream, answers):
    mine, other = socket.socketpair()
    with mine, other, started(binary, stdin=other, stdout=other) as p:
        other.close()
        mine.settimeout(checks.LIMIT)
        mine.sendall(stream)
        mine.shutdown(socket.SHUT_WR)
        agrees(rest(p, all_of(mine)), answers)


@holds('a peer that half-closes: all answers, then the end')
def half_close(binary):
    half_closed(binary, *repeated(100))


@holds('a peer that half-closes in the middle of a field: all answers and a 3')
def half_close_cut(binary):
    stream, want = repeated(100)
    half_closed(binary, stream + b'\x01\x00\x03\x01', want + CUT)


@holds('after a 3 the service ends at once, with its input still open')
def ends_at_three(binary):
    with started(binary) as p:
        p.stdin.write(P2 + LONG)
        got = take(p.stdout, len(due(P2)) + 4, SOON)
        ended(p, SOON)
        agrees(rest(p, got), due(P2) + CUT)


@holds('after a 3 the service leaves what it has not read')
def leaves_the_rest(binary):
    reader, writer = os.pipe()
    try:
        fcntl.fcntl(writer, fcntl.F_SETPIPE_SZ, 1 << 20)
        stream = P2 + LONG + FURTHER
        os.write(writer, stream)
        with started(binary, stdin=reader) as p:
            agrees(rest(p), due(P2) + CUT)
        left = array.array('i', [0])
        fcntl.ioctl(reader, termios.FIONREAD, left)
        expect(left[0] >= len(FURTHER) // 2, '%d bytes of %d left' % (left[0], len(stream)))
    finally:
        os.close(reader)
        os.close(writer)


# The service behind behind_socket.py.

def connect(address, receive=None, send=None):
    """A connection, with buffers of these sizes where they are given, which count from before the connection."""
    unix = '/' in address
    s = socket.socket(socket.AF_UNIX if unix else socket.AF_INET)
    s.settimeout(checks.LIMIT)
    for option, size in ((socket.SO_RCVBUF, receive), (socket.SO_SNDBUF, send)):
        if size:
            s.setsockopt(socket.SOL_SOCKET, option, size)
    host, _, port = address.rpartition(':')
    s.connect(address if unix else (host, int(port)))
    return s


@contextlib.contextmanager
def serving(binary, address, *words, **how):
    """The address of a server that runs."""
    p = subprocess.Popen([sys.executable, os.path.join(HERE, 'behind_socket.py'), binary, '--listen', address, *words], stdout=PIPE, **how)
    try:
        yield p.stdout.readline().decode().strip()
    finally:
        p.kill()
        p.wait()
        p.stdout.close()


@contextlib.contextmanager
def serving_unix(binary, *words):
    with tempfile.TemporaryDirectory() as place, serving(binary, os.path.join(place, 'socket'), *words) as address:
        yield address


def exchange(address):
    """P2, each field after the answer to the one before; then the end of what is sent, and the end of the answers."""
    with connect(address) as s:
        at, got = 0, b''
        while at < len(P2):
            end = at + 3 + int.from_bytes(P2[at + 1:at + 3], 'big')
            s.sendall(P2[at:end])
            got += take(s, len(due(P2[:end])) - len(got), SOON)
            at = end
        s.shutdown(socket.SHUT_WR)
        same(got + all_of(s), due(P2))


@holds('behind a TCP socket: each field is answered, and the connection ends after the peer\'s end')
def tcp(binary):
    with serving(binary, '127.0.0.1:0') as address:
        exchange(address)


@holds('behind a unix socket: each field is answered, and the connection ends after the peer\'s end')
def unix(binary):
    with serving_unix(binary) as address:
        exchange(address)


@holds('behind a socket: each connection has a sheet of its own')
def own_sheets(binary):
    one = f(1, 1, 0, 0) + f(2, 0, D) + f(3, 0, 0, effects(100, 0, 0)) + f(6, 0, 0)
    two = f(1, 2, 0, 0) + f(2, 0, W) + f(3, 0, 0, effects(70, 3, 0)) + f(5, 0, caps(9, 9, 9)) + f(7, 0)
    with serving(binary, '127.0.0.1:0') as address, connect(address) as a, connect(address) as b:
        a.sendall(one[:-5])
        b.sendall(two[:-4])
        take(a, 9, SOON)
        take(b, 12, SOON)
        a.sendall(one[-5:])
        b.sendall(two[-4:])
        a.shutdown(socket.SHUT_WR)
        b.shutdown(socket.SHUT_WR)
        same(all_of(a), due(one)[9:])
        same(all_of(b), due(two)[12:])


def client(address, number):
    """Why this client did not get all of its answers, or nothing. It sends a length of 60,001 in the middle of much else, and reads
    when it has sent all. Every second one has small buffers, so that answers still stand in the server's when `frames` ends."""
    stream, want = repeated(150)
    try:
        with connect(address, *((4096, 65536) if number % 2 else ())) as s:
            s.sendall(stream + LONG + FURTHER)
            s.shutdown(socket.SHUT_WR)
            same(all_of(s), want + CUT)
    except (OSError, Failed) as why:
        return repr(why)


def every_client(address, clients=CLIENTS):
    with concurrent.futures.ThreadPoolExecutor(100) as pool:
        lost = [why for why in pool.map(lambda k: client(address, k), range(clients)) if why]
    expect(not lost, '%d of %d clients: %s' % (len(lost), clients, lost[:1]))


@holds('behind a TCP socket: 400 clients with a length of 60,001 amid much else each get all of their answers')
def many_tcp(binary):
    with serving(binary, '127.0.0.1:0') as address:
        every_client(address)


@holds('behind a unix socket: 400 clients with a length of 60,001 amid much else each get all of their answers')
def many_unix(binary):
    with serving_unix(binary) as address:
        every_client(address)


@holds('behind a socket: a peer that goes without a word leaves the server as it was')
def peer_goes(binary):
    with serving(binary, '127.0.0.1:0', stderr=subprocess.DEVNULL) as address:  # the service says there that its peer has gone
        for _ in range(5):
            with connect(address) as s:
                s.sendall(repeated(50)[0])
                s.setsockopt(socket.SOL_SOCKET, socket.SO_LINGER, struct.pack('ii', 1, 0))
        exchange(address)


@holds('behind a socket: a peer that never ends after its 3 is left after the limit')
def never_ends(binary):
    with serving(binary, '127.0.0.1:0', '--drain', '1') as address, connect(address) as s:
        s.sendall(P2 + LONG)
        same(all_of(s), due(P2) + CUT)  # the answers have ended, the connection has not
        time.sleep(0.3)
        s.sendall(FURTHER)
        until = time.monotonic() + 10
        while time.monotonic() < until:
            try:
                s.sendall(bytes(1000))
            except OSError:
                return
            time.sleep(0.1)
        raise Failed('still open after 10 s')


def wait_for(address):
    """Until connections are taken there."""
    until = time.monotonic() + SOON
    while time.monotonic() < until:
        with contextlib.suppress(OSError):
            return connect(address).close()
        time.sleep(0.02)
    raise Failed('no connection is taken')


if shutil.which('systemd-socket-activate'):
    @holds('behind systemd with a process a connection: an exchange, and 40 clients with a length of 60,001 amid much else')
    def activated(binary):
        with tempfile.TemporaryDirectory() as place:
            address = os.path.join(place, 'socket')
            p = subprocess.Popen(['systemd-socket-activate', '--accept', '--inetd', '-l', address, sys.executable,
                                  os.path.join(HERE, 'behind_socket.py'), binary], stderr=PIPE)
            try:
                wait_for(address)
                exchange(address)
                every_client(address, 40)
            finally:
                p.kill()
                p.wait()
                p.stderr.close()


if __name__ == '__main__':
    checks.main(__doc__)
