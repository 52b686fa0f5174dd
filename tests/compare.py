#!/usr/bin/env python3
"""compare.py BINARY [WORD..]: the answers to each stream of make.py and to the stored input are the model's. Exit status 1 where one
differs."""
import functools
import checks
import make
from checks import TESTS, Failed, agrees, run


@functools.cache
def streams():
    return make.streams()


def difference(stream, got, want):
    """The reading where the answers begin to differ."""
    at = next((k for k, (x, y) in enumerate(zip(got, want)) if x != y), min(len(got), len(want)))
    pos = 0
    for n, (field, a) in enumerate(make.run(stream)[1]):
        if pos + len(a) > at:
            return 'reading %d, %s: due %s, got %s' % (n, field[:16].hex(), a.hex(), got[pos:pos + len(a)].hex())
        pos += len(a)
    return 'after the last answer: %s' % got[pos:pos + 40].hex()


def answers_as_the_model(find, binary):
    stream, want = find()
    got = run(binary, stream)
    if got.answers != want:
        raise Failed(difference(stream, got.answers, want))
    agrees(got, want)


for name in make.NAMES:
    TESTS.append(('the answers are the model\'s: ' + name, functools.partial(answers_as_the_model, lambda name=name: streams()[name])))
TESTS.append(('the answers are the model\'s: the stored input', functools.partial(answers_as_the_model, make.read_stored)))

if __name__ == '__main__':
    checks.main(__doc__)
