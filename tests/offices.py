#!/usr/bin/env python3
"""offices.py BINARY [WORD..]: two random lists that differ only in accepted effects and capacities at stations other than one have the same
answers for that station and to all edits, the combinations named included (SCOPE 9.5). Which fields are accepted is taken from the service
too, so the model's answers are not needed and a sheet may have all 32 load cases. Exit status 1 where that fails."""
import functools
import itertools
import random
import checks
import model as m
from checks import TESTS, Failed, expect, run
from model import f
from pairs import random_sheet

LISTS = 100
STEPS = 12


def random_list(rng, most, count, bad):
    """A sheet of up to so many load cases of so many kinds, edited, with refused fields in between and looks after each step; and a station.
    The stations are next to each other, and many effects are equal, so that the combination named could go by another station."""
    s, station = random_sheet(rng, most, count), rng.randrange(16)
    stations = [station, (station + 1) % 16, (station - 1) % 16]
    s.effect = {(c, st): tuple(m.often_equal(rng) for _ in range(3)) for c in s.kind for st in stations}
    s.cap = {st: tuple(m.capacity(rng) for _ in range(3)) for st in stations}
    out, filled = m.fields_of(s.saved()), dict(s.kind)
    for _ in range(STEPS):
        out += m.edits(rng, filled, rng.choice(stations), bad)
        out += [f(6, st, rng.randrange(3)) for st in stations] + [f(7, st) for st in stations]
    return out + [f(6, st, k) for st in range(16) for k in range(3)], station


def answers_to(binary, lists):
    """The answers to each of the lists, which begin with a tag 01 and go through one process."""
    got = run(binary, b''.join(b for fields in lists for b in fields))
    answers = iter(m.fields_of(got.answers))
    out = [list(itertools.islice(answers, len(fields))) for fields in lists]
    expect(not list(answers) and got.status == 0 and list(map(len, out)) == list(map(len, lists)), 'too few or too many answers')
    return out


def compared(lists, first, second, may_change):
    """The places that differ, for each list; none but those that may."""
    out = []
    for (fields, station), x, y in zip(lists, first, second):
        out.append(m.changed(fields, x, y))
        if not out[-1] <= may_change(station):
            raise Failed('station %d: %s differ in %s' % (station, out[-1], b''.join(fields).hex()))
    return out


def every_pair_keeps_the_law(most, kinds, binary):
    rng, bad = random.Random(most), itertools.cycle(m.BAD)
    lists = [random_list(rng, most, kinds, bad) for _ in range(LISTS)]
    first = answers_to(binary, [fields for fields, _ in lists])
    accepted = [[a == b'\x80\0\0' for a in answers] for answers in first]
    for where in (m.all_but, lambda station: {station}):
        second = [m.varied(fields, ok, where(station), rng) for (fields, station), ok in zip(lists, accepted)]
        places = compared(lists, first, answers_to(binary, second), where)
        expect(sum(map(bool, places)) > LISTS // 2, 'only %d of %d lists have looks that differ' % (sum(map(bool, places)), LISTS))


for most, kinds in ((8, 14), (12, 2), (32, 14)):
    TESTS.append(('other values at other stations, the answers for one station are the same: %d lists on up to %d load cases of %d kinds'
                  % (LISTS, most, kinds), functools.partial(every_pair_keeps_the_law, most, kinds)))

if __name__ == '__main__':
    checks.main(__doc__)
