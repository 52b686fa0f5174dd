#!/usr/bin/env python3
"""Makes the stored input and output of `case_names` in crates/case_names; make.py does so too. The program prints the names in a file, read as
SCOPE 9.6 says: for each case that has one, rising, the case in decimal, a space, the name and a line feed. In a name the bytes 00 to 1F, 7F
and 5C are printed as \\xHH. The program is not needed: what is due comes from model.py."""
import os
import random
import model as m
from model import D, W, effects, f, name

HERE = os.path.dirname(os.path.abspath(__file__))
FILES = [os.path.join(HERE, '..', 'crates', 'case_names', kind) for kind in ('stdin', 'stdout')]
UNNAMED = (3, 17, 28)  # cases without a name: only refused tag 60s and what stands within other fields or too late is for them
BEYOND = (32, 200)  # no cases
TEXTS = {  # the last name of each other case
    0: 'Eigengewicht', 1: 'g', 2: 'abcdefghijklmnopqrstuvwx', 4: b'\x00', 5: b'\x1f\x7f\\', 6: 'Schnee \u00b5 = 0,8', 7: '\u96ea',
    8: b'\n', 9: b'two\nlines\r\n', 10: '\\x41', 11: ' spaces at both ends ', 12: b'\xff\xfe\x80\xc3', 13: b'\ttab', 14: '\\' * 24, 15: bytes(24),
    16: '"quoted\'', 18: '~', 19: ' ', 20: '[', 21: ']', 22: b'\x80', 23: '\u00e9' * 12, 24: '16 24', 25: f(4, 25), 26: name(27, 'A'),
    27: b' \x1f!', 29: '%s %d', 30: 'T +15 K', 31: 'last place'}
# The stretches of the file: where it ends, in the middle of a name, the case of that name and how many bytes of its field come before the end;
# the lengths of the long bodies in it; and the other cases whose last name is in it. The first four ends are those of smaller buffers.
STRETCHES = [
    (4096, 2, 12, (), (0, 5, 16)), (8192, 6, 3, (), (1, 9, 18)), (16384, 7, 2, (3000,), (4, 8, 19)), (32768, 10, 4, (10000,), (11, 20, 24)),
    (65536, 14, 10, (25000,), (12, 21, 25)), (131072, 15, 1, (60000,), (13, 22, 26)), (196608, 23, 4, (40000, 12000), (27, 29)),
    (212992, 31, 7, (11000,), (30,)),
]
FIELDS = 40  # of all kinds, in each stretch
WITHIN = m.INNER * (m.LONGEST // len(m.INNER) + 1)  # for long bodies, full of what looks like names


def shown(text):
    return b''.join(b'\\x%02X' % c if c < 0x20 or c in (0x7F, 0x5C) else bytes([c]) for c in text)


def printed(file):
    """What `case_names` prints on a file. One walk finds the names of all cases."""
    names = [file[at + 3:end] for at, end in m.whole_fields(file) if m.is_name(file[at:end])]
    last = {b[0]: b[1:] for b in names}
    return b''.join(b'%d %s\n' % (case, shown(last[case])) for case in sorted(last))


def passed_over(rng):
    """A field that is no name: of another tag, or a tag 60 that is refused, for a case without a name too."""
    case = rng.choice(UNNAMED + (0, 31))
    return rng.choice([
        f(1, 1, 0, 0), f(2, case, D), f(4, case), f(3, case, 0, effects(1, 2, 3)), f(6, 0, 0), f(9, 3, 232),
        f(0x7F, m.INNER), f(0x7F), f(0x3C, case, b'A'), f(0x61, case, b'A'), f(4, name(case, 'within')), f(2, case, W, name(case, 'within')),
        f(m.NAME), f(m.NAME, case), f(m.NAME, case, b'a name of 25 bytes, so no'), f(m.NAME, case, bytes(rng.randint(25, 60))),
        f(m.NAME, case, name(case, 'within') * 20), name(rng.choice(BEYOND), 'no case'), name(rng.choice(BEYOND), 'no case')])


def earlier_name(cases, rng):
    return name(rng.choice(cases), bytes(rng.choice(b'earlier \\\n\x00\xc3') for _ in range(rng.randint(1, 24))))


def filled_up(file, to):
    """The file with one more field, of an unknown tag, that ends at the given byte."""
    length = to - len(file) - 3
    assert 0 <= length <= m.LONGEST, length
    return file + f(0x7E, WITHIN[:length])


def case_file():
    """Names, each replaced several times in its own stretch and in earlier ones, between fields that are no names; then a length above 60,000,
    with names within its body and after it."""
    rng, file = random.Random(60), b''
    for k, (end, case, before, long, cases) in enumerate(STRETCHES):
        later = [c for _, one, _, _, others in STRETCHES[k:] for c in (one,) + others]
        for n in range(FIELDS):
            file += earlier_name(later, rng) if n % 2 else passed_over(rng)
        file += b''.join(f(0x7E, WITHIN[:length]) for length in long)
        file += b''.join(name(c, 'before the last') + name(c, TEXTS[c]) + passed_over(rng) for c in cases)
        file = filled_up(file + name(case, 'before the last'), end - before) + name(case, TEXTS[case])
    file += passed_over(rng)
    late = b''.join(name(c, 'too late') for c in (*UNNAMED, 0, 31))
    return file + b'\x7F\xEA\x61' + (late + WITHIN)[:m.LONGEST + 1] + late


def random_file(rng, fields, longest):
    """So many fields, half of them names, some with long bodies, in a file that ends in a whole field, a cut one or a length above 60,000."""
    out = []
    for _ in range(fields):
        body = WITHIN[:rng.randint(0, longest)]
        out.append(rng.choice([earlier_name(range(32), rng), m.tag_60(rng), m.tag_60(rng), passed_over(rng), f(0x7E, body)]))
    end = rng.choice([b'', b'', out[-1][:-1], f(0x7F, m.INNER)[:-1], b'\x60', b'\x60\0\2', b'\x60\0\2\0', b'\x60\xEA\x61' + m.INNER * 9])
    return b''.join(out) + end


def check(file):
    """What the file is to have, by the model."""
    fields = [file[at:end] for at, end in m.whole_fields(file)]
    assert 200000 < sum(map(len, fields)) and 300 < len(fields), (len(file), len(fields))
    assert {c: m.name_in(file, c) is None for c in range(40)} == {c: c in UNNAMED or c > 31 for c in range(40)}
    spread = []  # for each case, how many pieces of 64 KiB its names start in
    for case, text in TEXTS.items():
        at, length = m.name_in(file, case)
        assert file[at:at + length] == (text if isinstance(text, bytes) else text.encode()), case
        starts = [start for start, end in m.whole_fields(file) if m.names_case(file[start:end], case)]
        assert len(starts) > 1, case
        spread.append(len({start >> 16 for start in starts}))
    assert {1, 2, 3, 4} == set(spread), spread
    assert all(any(b[0] == m.NAME and b[3:4] == bytes([c]) for b in fields) for c in UNNAMED + BEYOND)


def stored():
    file = case_file()
    check(file)
    names = [(case, m.name_in(file, case)) for case in range(32)]
    out = b''.join(b'%d %s\n' % (case, shown(file[at[0]:sum(at)])) for case, at in names if at)
    assert out == printed(file)
    return file, out


def read_stored():
    """The stored files as they stand, which must be the ones made here."""
    files = tuple(open(path, 'rb').read() for path in FILES)
    assert files == stored(), 'crates/case_names/stdin and stdout are not those of drawing.py'
    return files


def main():
    os.makedirs(os.path.dirname(FILES[0]), exist_ok=True)
    for path, b in zip(FILES, stored()):
        with open(path, 'wb') as o:
            o.write(b)
    print([os.path.getsize(path) for path in FILES], 'bytes of case names')


if __name__ == '__main__':
    main()
