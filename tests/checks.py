"""What the tests share: the list of tests, a run of the service, faults in its reads and writes, and the comparison with what is due.
Expected answers come from model.py, by make.py."""
import collections
import contextlib
import functools
import os
import random
import select
import struct
import subprocess
import sys
import tempfile
import threading
import time
import make

HERE = os.path.dirname(os.path.abspath(__file__))
TESTS = []  # (name, function of the service's path); the name says what holds
LIMIT = float(os.environ.get('FRAMES_LIMIT', 30))  # seconds within which the service must end
PIPE = subprocess.PIPE
CUT = bytes.fromhex('81000103')
LONG = bytes.fromhex('01EA61')  # a header with a length of 60,001, which a 3 answers at once
P2 = make.P2_IN
Outcome = collections.namedtuple('Outcome', 'answers said status')


class Failed(Exception):
    """Why a test failed."""


def holds(name):
    def add(test):
        TESTS.append((name, test))
        return test
    return add


def expect(ok, why):
    if not ok:
        raise Failed(why)


@functools.cache
def due(stream):
    """The answers to a stream, by the model."""
    return make.run(stream)[0]


def repeated(times):
    """P2 so many times and the answers to it: each P2 starts a fresh sheet."""
    return P2 * times, due(P2) * times


def same(got, want):
    if got == want:
        return
    at = next((k for k, (x, y) in enumerate(zip(got, want)) if x != y), min(len(got), len(want)))
    raise Failed('%d bytes answered, %d due; at byte %d got %s, due %s'
                 % (len(got), len(want), at, got[at:at + 12].hex() or 'none', want[at:at + 12].hex() or 'none'))


def agrees(outcome, answers, said=b'', status=0):
    """The answers, what stands on standard error and the exit status are these."""
    same(outcome.answers, answers)
    expect(outcome.said == said, 'standard error has %r, due %r' % (outcome.said[:200], said))
    expect(outcome.status == status, 'exit status %d, due %d' % (outcome.status, status))


def line(call, error):
    """The line on standard error for a call that fails with this errno."""
    return ('frames: %s: %s\n' % (call, os.strerror(error))).encode()


def run(binary, stream=b'', limit=LIMIT, **how):
    """The service run to its end on a stream, or on `stdin` where that is given."""
    how = {'stdout': PIPE, 'stderr': PIPE, **how}
    if 'stdin' not in how:
        how['input'] = stream
    try:
        p = subprocess.run([binary], timeout=limit, **how)
    except subprocess.TimeoutExpired:
        raise Failed('still running after %g s' % limit) from None
    return Outcome(p.stdout or b'', p.stderr or b'', p.returncode)


@contextlib.contextmanager
def started(binary, **how):
    """The service while it runs; it is ended after the block where it has not ended itself."""
    p = subprocess.Popen([binary], bufsize=0, **{'stdin': PIPE, 'stdout': PIPE, 'stderr': PIPE, **how})
    try:
        yield p
    finally:
        p.kill()
        p.wait()
        for end in (p.stdin, p.stdout, p.stderr):
            if end:
                end.close()


def ended(p, limit=LIMIT):
    """The exit status of a started service, which must come by itself."""
    try:
        return p.wait(limit)
    except subprocess.TimeoutExpired:
        raise Failed('still running after %g s' % limit) from None


def pieces_random(b, seed):
    r, out, i = random.Random(seed), [], 0
    while i < len(b):
        n = min(len(b) - i, r.choice([1, 2, 3, 7, 40, 500, 5000, 65536, 70000]))
        out.append(b[i:i + n])
        i += n
    return out


WAYS = {'whole': lambda b: [b], 'a byte at a time': lambda b: [b[i:i + 1] for i in range(len(b))],
        'in random pieces (1)': lambda b: pieces_random(b, 1), 'in random pieces (2)': lambda b: pieces_random(b, 2)}


def collected(end):
    """A thread that takes all that comes, and the list that holds it afterwards."""
    got = []
    taker = threading.Thread(target=lambda: got.append(end.read()))
    taker.start()
    return taker, got


def feed(binary, pieces, pause):
    """The program run to its end on a stream that comes in these pieces, with a pause after each."""
    with started(binary) as p:
        takers = [collected(p.stdout), collected(p.stderr)]
        try:
            for piece in pieces:
                while piece:
                    piece = piece[p.stdin.write(piece):]
                if pause:
                    time.sleep(pause)
            p.stdin.close()
        except BrokenPipeError:
            pass  # the program stopped before the end, as the service does after a 3
        status = ended(p)
        for taker, _ in takers:
            taker.join()
        return Outcome(takers[0][1][0], takers[1][1][0], status)


def take(end, count, limit=LIMIT, most=65536):
    """So many bytes from an open file or socket, in reads of at most `most`; they must come within the limit."""
    got, until = b'', time.monotonic() + limit
    while len(got) < count:
        ready, _, _ = select.select([end], [], [], max(0, until - time.monotonic()))
        expect(ready, '%d of %d bytes answered within %g s' % (len(got), count, limit))
        piece = os.read(end.fileno(), min(most, count - len(got)))
        expect(piece, '%d of %d bytes answered, then the end' % (len(got), count))
        got += piece
    return got


def rest(p, got=b''):
    """The outcome of a started service that is about to end, after the answers taken so far."""
    status = ended(p)
    return Outcome(got + (p.stdout.read() if p.stdout else b''), p.stderr.read(), status)


def processor_time(p):
    """Seconds of processor time of a process so far, by its clock (clock_getcpuclockid)."""
    return time.clock_gettime((~p.pid << 3) | 2)


def idle(p, seconds):
    """The service waits so long, with under a tenth of a processor."""
    expect(p.poll() is None, 'ended with status %s where it has to wait' % p.returncode)
    before = processor_time(p)
    time.sleep(seconds)
    expect(p.poll() is None, 'ended with status %s where it has to wait' % p.returncode)
    used = processor_time(p) - before
    expect(used < seconds / 10, '%.2f s of processor time in a wait of %.2f s' % (used, seconds))


@functools.cache
def library():
    """The preloaded library, compiled once."""
    place = tempfile.TemporaryDirectory()
    path = os.path.join(place.name, 'faults.so')
    subprocess.run(['gcc', '-shared', '-fPIC', '-O1', '-Wall', '-o', path, os.path.join(HERE, 'faults.c'), '-ldl'], check=True)
    return place, path


@contextlib.contextmanager
def faults(**asked):
    """An environment with these faults: reads, writes, says, read_end, write_end, say_end, each a list of numbers (faults.c has their
    meaning). Fails where one that was asked for never took place."""
    with tempfile.NamedTemporaryFile() as counts:
        counts.write(bytes(24))
        counts.flush()
        env = dict(os.environ, LD_PRELOAD=library()[1], FAULT_COUNTS=counts.name)
        env.update({'FAULT_' + name.upper(): ','.join(map(str, values)) for name, values in asked.items()})
        yield env
        altered = struct.unpack('3l', open(counts.name, 'rb').read())
    for name, values in asked.items():
        expect(altered['rws'.index(name[0])] or not values, 'no call was altered for ' + name)


def attempt(name, test, binary):
    """Whether the test passed, with its line printed."""
    try:
        test(binary)
    except Exception as why:  # an error within a test fails that test alone
        print('FAILED: %s: %s' % (name, why if isinstance(why, Failed) else repr(why)), flush=True)
        return False
    print('ok: ' + name, flush=True)
    return True


def main(usage):
    """Runs the tests of the modules imported so far: BINARY [WORDS], those whose names have one of the words, or all."""
    if len(sys.argv) < 2 or not os.access(sys.argv[1], os.X_OK):
        sys.exit(usage)
    binary, words = os.path.abspath(sys.argv[1]), sys.argv[2:]
    chosen = [(name, test) for name, test in TESTS if not words or any(w in name for w in words)]
    passed = sum(attempt(name, test, binary) for name, test in chosen)
    print('%d passed, %d failed' % (passed, len(chosen) - passed))
    sys.exit(passed < len(chosen) or not chosen)
