#!/usr/bin/env python3
"""both_readers.py BINARY [WORD..]: the service answers a random file as it answers that file without its names, and without any tag 60: the
answers to the other fields are the same bytes (SCOPE 9.7), and each tag 60 has the answer of SCOPE 5.4. The model's answers are not
needed, so a sheet may have all 32 load cases. Exit status 1 where that fails."""
import functools
import itertools
import random
import checks
import model as m
from checks import TESTS, Failed, expect, run
from model import NAME, f
from offices import random_list

FILES = 40
# What a file may end in: nothing, a cut field, a length above 60,000. What follows is no name, whatever it looks like.
ENDS = [b'', b'', b'', b'\x60', b'\x60\0', b'\x60\0\2', b'\x60\0\5\0ABC', b'\x60\0\2\x20', b'\x60\0\1', b'\x03\0\x08\0' + m.name(0, 'A'),
        b'\x60\xEA\x61' + m.name(0, 'A'), b'\x7F\xFF\xFF' + m.name(31, 'B') * 9, b'\x60\xFF\xFF\0' + m.name(31, 'B') * 9 + f(6, 0, 0)]


def random_file(rng, most, count, bad):
    """A list on up to so many load cases of so many kinds with tag 60s between its fields, and some end."""
    fields, _ = random_list(rng, most, count, bad)
    return b''.join(m.with_names(fields, rng)) + rng.choice(ENDS)


def answers_of(binary, file):
    got = run(binary, file)
    expect(got.status == 0 and not got.said, 'status %d, %r on standard error' % (got.status, got.said[:200]))
    return m.fields_of(got.answers)


def keeps_the_law(answers_to, file):
    """How many names a file has, on which SCOPE 5.4 and 9.7 hold."""
    fields = m.answered_fields(file)
    for b, answer in zip(fields, answers_to(file)):
        _, due = m.serve(m.Sheet(), b, None) if b[0] == NAME else (None, answer)  # no sheet has a part in the answer to a tag 60
        expect(answer == due, '%s is answered with %s, due %s, in %s' % (b.hex(), answer.hex(), due.hex(), file.hex()))
    if m.apart_without_names(answers_to, file):
        raise Failed('other answers without the names of %s' % file.hex())
    return len(fields) - len(m.answered_fields(m.without_names(file)))


def every_file_keeps_the_law(most, kinds, binary):
    rng, bad = random.Random(most), itertools.cycle(m.BAD)
    files = [random_file(rng, most, kinds, bad) for _ in range(FILES)]
    names = [keeps_the_law(functools.partial(answers_of, binary), file) for file in files]
    expect(min(names) > 20, 'a file has only %d names' % min(names))


for most, kinds in ((8, 14), (12, 2), (32, 14)):
    TESTS.append(('a file and the file without its names have the same answers: %d files on up to %d load cases of %d kinds'
                  % (FILES, most, kinds), functools.partial(every_file_keeps_the_law, most, kinds)))

if __name__ == '__main__':
    checks.main(__doc__)
