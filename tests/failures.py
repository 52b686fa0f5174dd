#!/usr/bin/env python3
"""failures.py BINARY [WORD..]: reads and writes that fail. No answer is lost in silence: one line on standard error names the call and
the error, and the service ends. Exit status 1 where that fails."""
import contextlib
import errno
import functools
import os
import pty
import resource
import socket
import struct
import subprocess
import tempfile
import tty
import checks
from checks import CUT, LONG, P2, PIPE, TESTS, Outcome, agrees, due, ended, faults, holds, line, repeated, rest, run, same, started, take
from model import f

FULL = line('write', errno.ENOSPC)


def through_shell(binary, redirection, stream=b'', **how):
    """The service with a descriptor closed or opened otherwise, by the shell."""
    p = subprocess.run(['sh', '-c', 'exec "$1" ' + redirection, 'sh', binary], input=stream, timeout=checks.LIMIT,
                       **{'stdout': PIPE, 'stderr': PIPE, **how})
    return Outcome(p.stdout or b'', p.stderr or b'', p.returncode)


@contextlib.contextmanager
def full_disk():
    with open('/dev/full', 'wb') as disk:
        yield disk


# Writes that fail.

@holds('a full disk: "frames: write: No space left on device", and the service ends with its input still open')
def full_disk_ends(binary):
    with full_disk() as disk, started(binary, stdout=disk) as p:
        p.stdin.write(P2)
        agrees(rest(p), b'', FULL)


@holds('a full disk and much input: one line alone')
def full_disk_one_line(binary):
    with full_disk() as disk:
        agrees(run(binary, repeated(5000)[0], stdout=disk), b'', FULL)


@holds('a full disk and a field that the end of input cuts: the 3 that cannot be written is said')
def full_disk_cut(binary):
    with full_disk() as disk:
        agrees(run(binary, b'\x01', stdout=disk), b'', FULL)


@holds('a full disk and a length of 60,001: the 3 that cannot be written is said')
def full_disk_long(binary):
    with full_disk() as disk:
        agrees(run(binary, LONG + P2, stdout=disk), b'', FULL)


@holds('a full disk and no answer due: nothing is said')
def full_disk_nothing_due(binary):
    with full_disk() as disk:
        agrees(run(binary, b'', stdout=disk), b'')


@holds('a full disk and standard error closed: the service ends with status 0')
def full_disk_nothing_to_say_it_on(binary):
    with full_disk() as disk:
        agrees(through_shell(binary, '2>&-', P2, stdout=disk), b'')


@holds('a closed output: "frames: write: Bad file descriptor"')
def closed_output(binary):
    agrees(through_shell(binary, '>&-', P2), b'', line('write', errno.EBADF))


@holds('a closed output and no answer due: nothing is said')
def closed_output_nothing_due(binary):
    agrees(through_shell(binary, '>&-', b''), b'')


@holds('an output open for reading alone: "frames: write: Bad file descriptor"')
def output_for_reading(binary):
    agrees(through_shell(binary, '1</dev/null', P2), b'', line('write', errno.EBADF))


def reader_gone(binary, **how):
    """The outcome where the reader of the answers has gone before the first."""
    with started(binary, **how) as p:
        p.stdout.close()
        p.stdin.write(P2)
        status = ended(p)
        return Outcome(b'', p.stderr.read(), status)


@holds('a reader that is gone, SIGPIPE ignored: "frames: write: Broken pipe", and the service ends with its input still open')
def reader_gone_ignored(binary):
    # Python ignores SIGPIPE, and so does what it starts with restore_signals=False
    agrees(reader_gone(binary, restore_signals=False), b'', line('write', errno.EPIPE))


@holds('a reader that is gone, SIGPIPE at its default: the same, since the service ignores the signal itself')
def reader_gone_signal(binary):
    agrees(reader_gone(binary), b'', line('write', errno.EPIPE))


@holds('a file at its size limit: it has the answers up to there, and "frames: write: File too large"')
def size_limit(binary):
    stream, want = repeated(1000)
    size = len(want) // 2 + 1
    with tempfile.TemporaryFile() as out:
        limits = lambda: resource.setrlimit(resource.RLIMIT_FSIZE, (size, size))
        got = run(binary, stream, stdout=out, preexec_fn=limits, restore_signals=False)  # SIGXFSZ stays ignored
        out.seek(0)
        agrees(got._replace(answers=out.read()), want[:size], line('write', errno.EFBIG))


def write_fails_after(count, error, binary):
    stream, want = repeated(20)
    with faults(write_end=(count, error)) as env:
        agrees(run(binary, stream, env=env), want[:count], line('write', error))


for count in (0, 1, 3, 66, 500):
    for error in (errno.ENOSPC, errno.EIO, errno.EDQUOT):
        TESTS.append(('writes fail with %s after %d bytes: these are written, and one line said' % (errno.errorcode[error], count),
                      functools.partial(write_fails_after, count, error)))


# Reads that fail.

@holds('a directory as input: "frames: read: Is a directory", and no answer')
def directory(binary):
    descriptor = os.open('/', os.O_RDONLY)
    try:
        agrees(run(binary, stdin=descriptor), b'', line('read', errno.EISDIR))
    finally:
        os.close(descriptor)


@holds('a closed input: "frames: read: Bad file descriptor", and no answer')
def closed_input(binary):
    agrees(through_shell(binary, '<&-'), b'', line('read', errno.EBADF))


@holds('an input open for writing alone: "frames: read: Bad file descriptor", and no answer')
def input_for_writing(binary):
    agrees(through_shell(binary, '0>/dev/null'), b'', line('read', errno.EBADF))


@holds('input and output closed: "frames: read: Bad file descriptor"')
def both_closed(binary):
    agrees(through_shell(binary, '<&- >&-'), b'', line('read', errno.EBADF))


LOOK = f(6, 0, 0)
LONG_FIELD = f(0x7F, bytes(60000))
PLACES = {  # where reads fail: the bytes read before, and the whole fields among them
    'before the first byte': (b'', b''),
    'between two fields': (P2, P2),
    'after a tag': (P2 + LOOK[:1], P2),
    'in a length': (P2 + LOOK[:2], P2),
    'after a header': (P2 + LOOK[:3], P2),
    'before the last byte of a body': (P2 + LOOK[:4], P2),
    'in a body of 60,000': (P2 + LONG_FIELD[:40000], P2),
    'after 300 P2 and a tag': (P2 * 300 + LOOK[:1], P2 * 300),
}


def read_fails(read, whole, error, binary):
    want = due(P2) * (len(whole) // len(P2))
    with faults(read_end=(len(read), error)) as env:
        agrees(run(binary, read + P2, env=env), want, line('read', error))


for place, (read, whole) in PLACES.items():
    TESTS.append(('reads fail with EIO %s: the answers due, no 3, one line' % place, functools.partial(read_fails, read, whole, errno.EIO)))
TESTS.append(('reads fail with ETIMEDOUT in a length: the answers due, no 3, one line',
              functools.partial(read_fails, *PLACES['in a length'], errno.ETIMEDOUT)))


@holds('a terminal whose other side has gone (EIO): the answers due, no 3, "frames: read: Input/output error"')
def terminal_gone(binary):
    master, slave = pty.openpty()
    try:
        tty.setraw(slave)
        with started(binary, stdin=master) as p:
            os.write(slave, P2 + b'\x02')
            got = take(p.stdout, len(due(P2)))  # the service has read these before the other side goes
            os.close(slave)
            slave = None
            agrees(rest(p, got), due(P2), line('read', errno.EIO))
    finally:
        for end in (master, slave):
            if end is not None:
                os.close(end)


@holds('a peer that resets in the middle of a field: the answers due, no 3, "frames: read: Connection reset by peer"')
def peer_resets(binary):
    with socket.create_server(('127.0.0.1', 0)) as listener:
        peer = socket.create_connection(listener.getsockname())
        connection, _ = listener.accept()
    with connection, started(binary, stdin=connection) as p:
        peer.sendall(P2 + b'\x02')
        got = take(p.stdout, len(due(P2)))
        peer.setsockopt(socket.SOL_SOCKET, socket.SO_LINGER, struct.pack('ii', 1, 0))
        peer.close()
        agrees(rest(p, got), due(P2), line('read', errno.ECONNRESET))


@holds('reads fail, and the answers due go to a full disk: the line of the write alone')
def both_fail(binary):
    with full_disk() as disk, faults() as env:
        env['FAULT_READ_END'] = '%d,%d' % (len(P2), errno.EIO)  # perhaps not reached, so not asked of `faults`
        agrees(run(binary, P2, env=env, stdout=disk), b'', FULL)


@holds('reads would fail after a 3: the service has ended before, and says nothing')
def fails_after_three(binary):
    with faults() as env:
        env['FAULT_READ_END'] = '%d,%d' % (len(P2 + LONG), errno.EIO)
        agrees(run(binary, P2 + LONG + P2, env=env), due(P2) + CUT)


@holds('reads fail with standard error closed: the answers due, and status 0')
def read_fails_unsaid(binary):
    with faults(read_end=(len(P2), errno.EIO)) as env:
        agrees(through_shell(binary, '2>&-', P2, env=env), due(P2))


# The line itself.

@holds('the line comes after the answers where both go to one place')
def line_is_last(binary):
    stream, want = repeated(20)
    with faults(read_end=(len(stream) + 1, errno.EIO)) as env:
        agrees(run(binary, stream + P2, env=env, stderr=subprocess.STDOUT), want + line('read', errno.EIO))
    with faults(write_end=(100, errno.ENOSPC)) as env:
        agrees(run(binary, stream, env=env, stderr=subprocess.STDOUT), want[:100] + line('write', errno.ENOSPC))


ERRORS = [e for e in range(1, 135) if e not in (errno.EINTR, errno.EAGAIN)]  # 134 is the first that Linux has no name for


@holds('each error of a read is named by the C library\'s text')
def read_errors_named(binary):
    for error in ERRORS:
        with faults(read_end=(len(P2) + 1, error)) as env:
            agrees(run(binary, P2 + P2, env=env), due(P2), line('read', error))


@holds('each error of a write is named by the C library\'s text')
def write_errors_named(binary):
    for error in ERRORS:
        with faults(write_end=(40, error)) as env:
            agrees(run(binary, P2, env=env), due(P2)[:40], line('write', error))


@holds('a line that cannot be written: the service ends with status 0')
def line_fails(binary):
    with faults(write_end=(40, errno.ENOSPC), say_end=(0, errno.ENOSPC)) as env:
        agrees(run(binary, P2, env=env), due(P2)[:40])


# The true end of input in the middle of a field.

@holds('a file that ends in the middle of a field: a 3, and nothing is said')
def file_ends(binary):
    with tempfile.TemporaryFile() as source:
        source.write(P2 + LOOK[:4])
        source.seek(0)
        agrees(run(binary, stdin=source), due(P2) + CUT)


@holds('a pipe that ends in the middle of a field, long after its bytes: a 3, and nothing is said')
def pipe_ends(binary):
    with started(binary) as p:
        p.stdin.write(P2 + LOOK[:1])
        got = take(p.stdout, len(due(P2)))
        p.stdin.close()
        agrees(rest(p, got), due(P2) + CUT)


@holds('/dev/null as input: no answer, and nothing is said')
def nothing_at_all(binary):
    agrees(run(binary, stdin=subprocess.DEVNULL), b'')


if __name__ == '__main__':
    checks.main(__doc__)
