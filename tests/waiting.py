#!/usr/bin/env python3
"""waiting.py BINARY [WORD..]: calls that are made again. Where a call would block the service waits, with little processor time; a call
that is interrupted or moves less than asked loses and doubles nothing. Exit status 1 where that fails."""
import contextlib
import errno
import fcntl
import functools
import os
import random
import signal
import socket
import threading
import time
import checks
from checks import CUT, LONG, P2, TESTS, Outcome, agrees, due, ended, faults, holds, idle, line, repeated, rest, run, started, take

SMALL = 4096  # bytes of a pipe that is soon full
SOON = 0.5  # seconds within which a field is answered after a wait: sleeps of some milliseconds, and a busy machine
SETTLE = 0.3  # seconds until a service has started and waits


@contextlib.contextmanager
def pipe(reader_waits=True, writer_waits=True):
    """A pipe as two open files; an end that does not wait has O_NONBLOCK."""
    r, w = os.pipe()
    os.set_blocking(r, reader_waits)
    os.set_blocking(w, writer_waits)
    with contextlib.ExitStack() as stack:
        reader, writer = os.fdopen(r, 'rb', 0), os.fdopen(w, 'wb', 0)
        stack.callback(reader.close)
        stack.callback(writer.close)
        yield reader, writer


@contextlib.contextmanager
def on_full_output(binary, stream, **how):
    """The service on this stream, with an output that would block, and the reader of its answers."""
    with pipe(writer_waits=False) as (reader, writer):
        fcntl.fcntl(writer, fcntl.F_SETPIPE_SZ, SMALL)
        with started(binary, stdout=writer, **how) as p:
            writer.close()
            feeder = threading.Thread(target=feed, args=(p.stdin, stream))
            feeder.start()
            try:
                yield p, reader
            finally:
                p.kill()
                feeder.join()


def feed(end, stream, last=True):
    try:
        while stream:
            stream = stream[end.write(stream):]
        if last:
            end.close()
    except (BrokenPipeError, ValueError):
        pass  # the service has ended


def slowly(reader, count):
    """The answers taken by a slow reader: first in single bytes, then in small pieces."""
    got = take(reader, min(count, 500), most=1)
    for size in (100, 5000, 20000):
        time.sleep(0.02)
        got += take(reader, min(count - len(got), size), most=700)
    return got + take(reader, count - len(got), most=3000)


# Real O_NONBLOCK.

@holds('an input that would block: the service waits, answers soon after each wait, and uses little processor time')
def input_blocks(binary):
    with pipe(reader_waits=False) as (reader, writer), started(binary, stdin=reader) as p:
        time.sleep(SETTLE)
        got, at = b'', 0
        for end, wait in ((6, 1.0), (37, 0.2), (len(P2), 2.2)):  # each ends a field
            idle(p, wait)
            writer.write(P2[at:end])
            got += take(p.stdout, len(due(P2[:end])) - len(got), SOON)
            at = end
        idle(p, 0.5)
        writer.close()
        agrees(rest(p, got), due(P2))


@holds('an input that would block in the middle of a field: the service waits for the rest of it')
def input_blocks_in_a_field(binary):
    with pipe(reader_waits=False) as (reader, writer), started(binary, stdin=reader) as p:
        for at in range(len(P2)):
            writer.write(P2[at:at + 1])
            time.sleep(0.005)
        writer.close()
        agrees(rest(p), due(P2))


@holds('an input that would block, and ends in the middle of a field: a 3, and nothing is said')
def input_blocks_and_ends(binary):
    with pipe(reader_waits=False) as (reader, writer), started(binary, stdin=reader) as p:
        writer.write(P2 + b'\x06\x00')
        got = take(p.stdout, len(due(P2)))
        idle(p, 0.3)
        writer.close()
        agrees(rest(p, got), due(P2) + CUT)


@holds('an input that would block and never had a byte: no answer at its end, and nothing is said')
def input_blocks_and_is_empty(binary):
    with pipe(reader_waits=False) as (reader, writer), started(binary, stdin=reader) as p:
        time.sleep(SETTLE)
        idle(p, 0.3)
        writer.close()
        agrees(rest(p), b'')


@holds('O_NONBLOCK set from outside while the service waits in a read: it answers on')
def set_from_outside(binary):
    with pipe() as (reader, writer), started(binary, stdin=reader) as p:
        time.sleep(SETTLE)
        os.set_blocking(reader.fileno(), False)  # the open file is shared with the service
        writer.write(P2[:40])
        got = take(p.stdout, len(due(P2[:37])))
        idle(p, 0.5)
        writer.write(P2[40:])
        got += take(p.stdout, len(due(P2)) - len(got))
        os.set_blocking(reader.fileno(), True)
        writer.write(P2)
        writer.close()
        agrees(rest(p, got), due(P2) * 2)


@holds('an output that would block: the service waits with little processor time, and nothing is lost or doubled')
def output_blocks(binary):
    stream, want = repeated(2000)
    with on_full_output(binary, stream) as (p, reader):
        time.sleep(SETTLE)
        idle(p, 1.0)
        got = slowly(reader, len(want))
        status = ended(p)
        agrees(Outcome(got + reader.read(), p.stderr.read(), status), want)


@holds('an output that would block when a length of 60,001 is refused: all answers and the 3 are written')
def output_blocks_at_three(binary):
    stream, want = repeated(300)
    with on_full_output(binary, stream + LONG + P2) as (p, reader):
        time.sleep(SETTLE)
        idle(p, 0.5)
        got = slowly(reader, len(want) + 4)
        status = ended(p)
        agrees(Outcome(got + reader.read(), p.stderr.read(), status), want + CUT)


@holds('an output that would block when reads fail: the answers due are all written, then one line')
def output_blocks_at_failure(binary):
    stream, want = repeated(300)
    with faults(read_end=(len(stream) + 2, errno.EIO)) as env, on_full_output(binary, stream + P2, env=env) as (p, reader):
        time.sleep(SETTLE)
        idle(p, 0.5)
        got = slowly(reader, len(want))
        status = ended(p)
        agrees(Outcome(got + reader.read(), p.stderr.read(), status), want, line('read', errno.EIO))


def reader_goes(binary, **how):
    with on_full_output(binary, repeated(2000)[0], **how) as (p, reader):
        time.sleep(SETTLE)
        idle(p, 0.3)
        reader.close()
        return rest(p)


@holds('the reader goes while the service waits for it, SIGPIPE ignored: "frames: write: Broken pipe"')
def reader_goes_ignored(binary):
    agrees(reader_goes(binary, restore_signals=False), b'', line('write', errno.EPIPE))


@holds('the reader goes while the service waits for it, SIGPIPE at its default: the same')
def reader_goes_signal(binary):
    agrees(reader_goes(binary), b'', line('write', errno.EPIPE))


@holds('one socket with O_NONBLOCK as input and output: all answers, and little processor time in waits')
def one_socket(binary):
    stream, want = repeated(5000)
    mine, other = socket.socketpair()
    other.setblocking(False)
    with mine, other, started(binary, stdin=other, stdout=other) as p:
        other.close()
        time.sleep(SETTLE)
        idle(p, 0.5)
        feeder = threading.Thread(target=lambda: (mine.sendall(stream), mine.shutdown(socket.SHUT_WR)))
        feeder.start()
        time.sleep(SETTLE)
        idle(p, 0.5)  # the answers fill the socket
        got = slowly(mine, len(want))
        feeder.join()
        status = ended(p)
        agrees(Outcome(got + mine.recv(100), p.stderr.read(), status), want)


def switching(ends, until):
    """Sets and clears O_NONBLOCK on open files that the service shares, some thousand times a second."""
    r = random.Random(7)
    while not until.is_set():
        os.set_blocking(r.choice(ends).fileno(), r.random() < 0.5)
        time.sleep(0.0005)


def feed_slowly_first(end, stream):
    """The first fifth in small pieces with pauses, so that the service waits for input, and then the rest, so that it waits for room."""
    for at in range(0, len(stream) // 5, 150):
        feed(end, stream[at:at + 150], False)
        time.sleep(0.0005)
    feed(end, stream[at + 150:])


@holds('O_NONBLOCK set and cleared on both ends at random: nothing is lost or doubled')
def flags_at_random(binary):
    stream, want = repeated(6000)
    stop = threading.Event()
    with pipe() as (reader, writer), pipe() as (answers, out):
        for end in (writer, out):
            fcntl.fcntl(end, fcntl.F_SETPIPE_SZ, SMALL)
        with started(binary, stdin=reader, stdout=out) as p:
            threads = [threading.Thread(target=switching, args=((reader, out), stop)),
                       threading.Thread(target=feed_slowly_first, args=(writer, stream))]
            for t in threads:
                t.start()
            try:
                got = b''
                while len(got) < len(want):
                    got += take(answers, min(1500, len(want) - len(got)))
                    time.sleep(0.001)
                status = ended(p)
            finally:
                p.kill()
                stop.set()
                reader.close()
                for t in threads:
                    t.join()
            out.close()
            agrees(Outcome(got + answers.read(), p.stderr.read(), status), want)


# A slow reader and a stopped service.

@holds('a slow reader on a pipe that waits: nothing is lost or doubled')
def slow_reader(binary):
    stream, want = repeated(2000)
    with started(binary) as p:
        feeder = threading.Thread(target=feed, args=(p.stdin, stream))
        feeder.start()
        try:
            got = slowly(p.stdout, len(want))
            agrees(rest(p, got), want)
        finally:
            p.kill()
            feeder.join()


@holds('stopped and continued in a wait: it answers on')
def stopped(binary):
    with pipe(reader_waits=False) as (reader, writer), started(binary, stdin=reader) as p:
        got = b''
        for _ in range(5):
            writer.write(P2)
            got += take(p.stdout, len(due(P2)))
            p.send_signal(signal.SIGSTOP)
            time.sleep(0.05)
            p.send_signal(signal.SIGCONT)
            time.sleep(0.05)
        writer.close()
        agrees(rest(p, got), due(P2) * 5)


# Faults by the preloaded library: one entry for each call, and from the first again.

AGAIN, INTERRUPTED = -errno.EAGAIN, -errno.EINTR
CYCLES = {
    'each read is interrupted once': ((INTERRUPTED, 0), ()),
    'each write is interrupted once': ((), (INTERRUPTED, 0)),
    'reads and writes are interrupted many times': ((INTERRUPTED,) * 50 + (0,), (INTERRUPTED,) * 50 + (0,)),
    'reads of one byte': ((1,), ()),
    'writes of one byte': ((), (1,)),
    'reads of 7 bytes and writes of 5': ((7,), (5,)),
    'each read would block once': ((AGAIN, 0), ()),
    'each write would block once': ((), (AGAIN, 0)),
    'reads and writes would block many times': ((AGAIN,) * 40 + (0,), (AGAIN,) * 40 + (0,)),
    'short writes that would block between': ((), (3, AGAIN, 1, AGAIN, AGAIN, 60, INTERRUPTED, AGAIN)),
    'short reads that would block between': ((3, AGAIN, 1, AGAIN, AGAIN, 60, INTERRUPTED, AGAIN), ()),
    'all of these at once': ((INTERRUPTED, 2, AGAIN, 1, 40, AGAIN, INTERRUPTED, 0),
                             (4, AGAIN, INTERRUPTED, 1, AGAIN, 90, INTERRUPTED, AGAIN, 2)),
}


def made_again(reads, writes, binary):
    stream, want = repeated(10)
    with faults(reads=reads, writes=writes) as env:
        agrees(run(binary, stream + b'\x06\x00', env=env), want + CUT)
    with faults(reads=reads, writes=writes) as env:
        agrees(run(binary, stream + LONG + P2, env=env), want + CUT)


for name, (reads, writes) in CYCLES.items():
    TESTS.append((name + ': the answers are the model\'s', functools.partial(made_again, reads, writes)))


@holds('calls that would block or are interrupted, then reads that fail: the answers due, no 3, one line')
def fails_after_waits(binary):
    stream, want = repeated(10)
    with faults(reads=(AGAIN, INTERRUPTED, 9), writes=(AGAIN, 7, INTERRUPTED), read_end=(len(stream) + 4, errno.EIO)) as env:
        agrees(run(binary, stream + P2, env=env), want, line('read', errno.EIO))


@holds('calls that would block or are interrupted, then writes that fail: the bytes written are the first answers, one line')
def write_fails_after_waits(binary):
    stream, want = repeated(10)
    with faults(reads=(AGAIN, INTERRUPTED, 9), writes=(AGAIN, 7, INTERRUPTED), write_end=(333, errno.ENOSPC)) as env:
        agrees(run(binary, stream, env=env), want[:333], line('write', errno.ENOSPC))


if __name__ == '__main__':
    checks.main(__doc__)
