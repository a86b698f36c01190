#!/usr/bin/env python3
"""A separate calculation of the rules that give ΔP and I (request 5) in 60 digits, with the front of request 6, the width of request 10 and the air
of request 11, written from the papers alone.

  rules.py lines FILE                      the rules of each line of FILE, and the figure by each rule
  rules.py vectors DIRECTORY               the files stdin and stdout of the program known_rules, the same at every run
  rules.py against ARCHIVE COUNT [SEED]    COUNT random cases and as many where two figures cross or touch, through ARCHIVE, each answer checked

An answer is the rule of ΔP, a comma and the rule of I, or R and the refusal's number. The rules: 0 undecided, 1 near-field value, 2 detonation
formula, 3 deflagration formula, 4 deflagration formula at 0.34. A gap is that of two figures, over the smaller.
`against` prints a line for every fault, and last the counts; its exit status is 0 where there is no fault. FILE may be - for standard input.
"""
import collections
import itertools
import os
import subprocess
import sys
import tempfile
from fractions import Fraction

from mpmath import mp, mpf

from reference import (CUBES, LAST_FREE, LIMITS, METHANE, ORDER, PETROL, PROPANE, Q, SPOILED, STANDARD, STEPS, WRONG_AIRS, Source, beside,
                       centimetres, changed, close_cases, cloud, contents, cube_in, cube_of_rx, decide, decide_frame, deflagration, detonation, fields,
                       frame_line, greatest_upper, in_units, least_lower, lines_of, long_line, random_air, random_case, random_fault,
                       random_line, reduced_distance, seeded, written)
from rings import spells

UNDECIDED, NEAR_FIELD, DETONATION, DEFLAGRATION, AT_034 = range(5)
PRESSURE, IMPULSE = 0, 1
NAMES = ('pressure', 'impulse')


# The exact side.

def figures(case, speed, energy, cube):
    """For ΔP and for I: the figure by each rule, in Pa or in Pa s, with the rule's number; the smaller first. Range 1 has one rule."""
    rx = reduced_distance(case, energy)
    px, ix, near = detonation(case[1], cube, rx)
    several = [(in_units(px, ix, case, energy), NEAR_FIELD if near else DETONATION)]
    if speed >= 2:
        px, ix, under = deflagration(case, speed, cube, rx)
        several.append((in_units(px, ix, case, energy), AT_034 if under else DEFLAGRATION))
    return [sorted((wave[figure], rule) for wave, rule in several) for figure in (PRESSURE, IMPULSE)]


def gap(several):
    return mp.inf if len(several) == 1 else several[1][0] / several[0][0] - 1


def can_overlap(several):
    """Whether whole numbers around both figures, each pair within the width rule, can overlap."""
    return len(several) == 2 and greatest_upper(several[0][0]) >= least_lower(several[1][0])


def spelled(verdict):
    """The answer by 60 digits."""
    return 'R%d' % verdict if isinstance(verdict, int) else '%d,%d' % tuple(several[0][1] for several in figures(*verdict))


def show(name):
    for number, line in enumerate(lines_of(contents(name)), start=1):
        verdict = decide(line)
        print(number, spelled(verdict), end='')
        if not isinstance(verdict, int):
            print(' range %d' % verdict[1], end='')
            for title, several in zip(NAMES, figures(*verdict)):
                print(' %s' % title, *('%d: %s' % (rule, mp.nstr(value, 20)) for value, rule in several), end='')
        print()
    return 0


# Where the smaller figure's rule changes.

# Rx at which the detonation figure is least beside the deflagration figure, by state and figure: it comes down to there and goes up from there on.
LEAST = ((Fraction('3.8828'), Fraction('0.3799')), (Fraction(24), Fraction('0.5')))


def case_at(case, r):
    """The case at another distance, with its range, its energy and the cube of Rx."""
    speed, energy = cloud(case)
    moved = changed(case, r=r)
    return moved, speed, energy, cube_of_rx(moved, energy)


def detonates(case, figure, r):
    """Whether the smaller figure at a distance is the detonation's."""
    return figures(*case_at(case, r))[figure][0][1] in (NEAR_FIELD, DETONATION)


def last_alike(alike, low, high):
    """The last whole number from low on that is like low, where high is not and they change once; None where high is like low."""
    first = alike(low)
    if alike(high) == first:
        return None
    while high - low > 1:
        middle = (low + high) // 2
        low, high = (middle, high) if alike(middle) == first else (low, middle)
    return low


def least_place(case, figure):
    return min(LIMITS[4][1], max(1, centimetres(case, LEAST[case[1]][figure])))


def crossings(case, figure):
    """The distances in cm after which another rule's figure is the smaller, of a case in ranges 2 to 6."""
    far = max(1, min(LIMITS[4][1], centimetres(case, 24)))
    ends = 1, min(far, least_place(case, figure)), far
    found = (last_alike(lambda r: detonates(case, figure, r), low, high) for low, high in zip(ends, ends[1:]))
    return [r for r in found if r is not None]


def touching_mass(case, figure):
    """The last mass in grams at which the detonation figure of a case in range 5 or 6 is nowhere the smaller, so that the two touch.

    None where there is none. The front grows with the mass as long as it is not held, so no heavier cloud has a touch: a gas has none for its
    impulse, which takes a front of 215 m/s.
    """
    def alike(mass):
        heavy = changed(case, mass=mass)
        return detonates(heavy, figure, least_place(heavy, figure))
    return last_alike(alike, LIMITS[0][0], LAST_FREE[cloud(case)[0]])


# Holding the library's answers against the exact side.

HERE = os.path.dirname(os.path.abspath(__file__))

# A case's line, where it is from, the figures that are counted there, and the length that is told of its frame, None for its own.
Request = collections.namedtuple('Request', 'line place counted told', defaults=(None,))


def verdict_of(request):
    """What is due for a frame of the length that is told: the line's bytes, and zeros behind them."""
    frame = bytes.fromhex(request.line.decode())
    return decide_frame(frame if request.told is None else frame.ljust(request.told, b'\x00')[:request.told])


def driven(archive, requests):
    """The records of the driver rules.c, linked with the archive."""
    text = b''.join(q.line + (b'\n' if q.told is None else b' %d\n' % q.told) for q in requests)
    with tempfile.TemporaryDirectory() as directory:
        program = os.path.join(directory, 'rules')
        subprocess.run([os.environ.get('CC', 'gcc'), '-std=c11', '-O2', '-Wall', '-Wextra', '-pedantic', '-I' + os.path.join(HERE, '..', 'link'),
                        os.path.join(HERE, 'rules.c'), archive, '-o', program], check=True)
        records = subprocess.run([program], input=text, stdout=subprocess.PIPE, check=True).stdout.decode().split('\n')
    if records.pop() != '' or len(records) != len(requests):
        sys.exit('%d records for %d requests' % (len(records), len(requests)))
    return records


def parsed(word):
    """An answer as a refusal's number or two rules; None for any other word."""
    pressure, comma, impulse = word.partition(',')
    if comma and pressure in ('0', '1', '2', '3', '4') and impulse in ('0', '1', '2', '3', '4'):
        return int(pressure), int(impulse)
    return int(word[1:]) if word[:1] == 'R' and word[1:].isdecimal() else None


class Tally:
    """What the answers were: refusals, rules by figure, undecided figures by place, and the gaps."""

    def __init__(self):
        self.refused, self.rules = collections.Counter(), collections.Counter()
        self.counted, self.undecided = collections.Counter(), collections.Counter()
        self.widest, self.narrowest = mpf(0), mp.inf

    def note(self, request, figure, several, rule):
        self.rules[figure, rule] += 1
        if figure in request.counted and len(several) == 2:
            self.counted[request.place] += 1
            self.undecided[request.place] += rule == UNDECIDED
        if rule == UNDECIDED:
            self.widest = max(self.widest, gap(several))
        else:
            self.narrowest = min(self.narrowest, gap(several))

    def show(self, requests, bad):
        refused = ' '.join('%d:%d' % (n, self.refused[n]) for n in (1, 3, 12, 13, 14, 5, 6, 7))
        print('%d cases, refused %s; %d faults' % (requests, refused, bad))
        for figure in (PRESSURE, IMPULSE):
            print('%s by rule:' % NAMES[figure], ' '.join('%d:%d' % (rule, self.rules[figure, rule]) for rule in range(5)))
        print('undecided:', ', '.join('%d of %d figures %s' % (self.undecided[place], self.counted[place], place) for place in sorted(self.counted)))
        print('gaps: an undecided pair at most %s, a named one at least %s' % (mp.nstr(self.widest, 3), mp.nstr(self.narrowest, 3)))


def rule_faults(figure, several, rule):
    """What is wrong with the rule that is named for a figure."""
    due = several[0][1]
    if rule == due or rule == UNDECIDED and can_overlap(several):
        return []
    return ['%s: %d is due, %d stands, by %s' % (NAMES[figure], due, rule, ' and '.join('%d: %s' % (n, mp.nstr(value, 20)) for value, n in several))]


def faults(number, request, record, tally):
    """What is wrong with one record, as a list of sentences."""
    head, _, word = record.partition(' ')
    stands = parsed(word)
    if stands is None or head != str(number):
        return ['the record is %s' % record]
    verdict = verdict_of(request)
    if isinstance(verdict, int):
        tally.refused[stands if isinstance(stands, int) else 0] += 1
        return [] if stands == verdict else ['R%d is due, %s stands' % (verdict, word)]
    if isinstance(stands, int):
        return ['rules are due, %s stands' % word]
    found = []
    for figure, (several, rule) in enumerate(zip(figures(*verdict), stands)):
        tally.note(request, figure, several, rule)
        found += rule_faults(figure, several, rule)
    return found


def check(requests, records):
    bad, tally = 0, Tally()
    for number, (request, record) in enumerate(zip(requests, records), start=1):
        for fault in faults(number, request, record, tally):
            print('case %d: %s' % (number, fault))
            bad += 1
    tally.show(len(requests), bad)
    return 1 if bad else 0


# Cases to try.

LENGTHS = (0, 1, 10, 21, 22, 23, 23, 24, 25, 43, 44, 45, 48, 64)


def random_edge(source):
    """A case with Rx at 0.2, 0.25, 0.34 or 24 exactly, or one cm beside, or closer than that."""
    step = source.choice(STEPS)
    if source.chance(50):
        case = random_deflagration(source, source.choice((1, 2)))
        return source.choice(beside(changed(case, r=max(1, min(LIMITS[4][1], centimetres(case, step)))), step))
    case, side = cube_in(random_air(source), source.below(len(CUBES)))
    times = 1 + source.below(40)
    return changed(case, mass=case[4] * times**3, r=int(100 * side * times * step) + source.choice((-1, 0, 0, 1)))


def random_spoiled(source):
    """A case with one thing wrong, or two; half of them of a substance without a table heat."""
    case, new = random_case(source), dict(random_fault(source))
    if source.chance(50):
        case[0] = source.choice((0, 25, 47))
    if source.chance(50):
        new.update(random_fault(source))
    return changed(case, **new)


def random_request(source):
    """A random case, one in ten at an edge of Rx or spoiled; a line that spells no frame becomes a frame of another length."""
    line, told = random_line(source), None
    if not spells(line):
        line, told = written(source, random_case(source)), source.choice(LENGTHS)
    elif source.chance(10):
        line = written(source, source.choice((random_edge, random_spoiled))(source))
    return Request(line, 'of random cases', (PRESSURE, IMPULSE), told)


def random_deflagration(source, least=2):
    """A random case in the ranges from `least` on."""
    while True:
        case = random_case(source)
        if cloud(case)[0] >= least:
            return case


def random_crossing(source):
    """A case at the last centimetre before another rule's figure is the smaller, at the first after it, and one cm farther from each."""
    case, figure = random_deflagration(source), source.below(2)
    for r in crossings(case, figure):
        for other in range(max(1, r - 1), r + 3):
            yield Request(frame_line(changed(case, r=min(LIMITS[4][1], other))), 'at a crossing', (figure,))


def random_touch(source):
    """A case whose two figures touch, or almost: the mass within 4 g of it, the distance within 5 thousandths."""
    case, figure = random_deflagration(source, 5), source.below(2)
    mass = touching_mass(case, figure)
    if mass is None:
        return
    for _ in range(4):
        close = changed(case, mass=min(LIMITS[0][1], max(1, mass + source.below(9) - 4)))
        place = least_place(close, figure)
        r = place + source.below(place // 100 + 3) - place // 200 - 1
        yield Request(frame_line(changed(close, r=min(LIMITS[4][1], max(1, r)))), 'at a touch', (figure,))


def random_meetings(source, count):
    """Cases where two figures cross, and one in four where they touch."""
    several = (random_touch if source.chance(25) else random_crossing for _ in itertools.count())
    return list(itertools.islice(itertools.chain.from_iterable(kind(source) for kind in several), count))


def against(archive, count, seed):
    source = seeded(seed)
    requests = [random_request(source) for _ in range(count)] + random_meetings(source, count)
    return check(requests, driven(archive, requests))


# The data of known_rules.

MARGIN = mpf(10)**-5


def determined(line):
    """The answer, if any enclosures that are narrower than the margin tell the smaller figure; else None."""
    verdict = decide(line)
    told_apart = isinstance(verdict, int) or all(gap(several) > MARGIN for several in figures(*verdict))
    return spelled(verdict) if told_apart else None


def known():
    """The propane example of 003 and 004 at many distances, in every surroundings and both states."""
    case = fields(bytes.fromhex(PROPANE.decode()))
    yield PROPANE
    yield PROPANE.lower()
    for around in range(1, 5):
        for state in (0, 1):
            moved = changed(case, around=around, state=state)
            far = centimetres(moved, 24)
            for r in (1, 3000, 4200, 6000, 30000, 300000, far, far + 1)[(around + state) % 2::2]:
                yield frame_line(changed(moved, r=r))


def boundaries():
    """Rx at 0.2, 0.25 and 0.34 exactly and one cm nearer; at 24 and one cm farther. Then Rx that only an exact test tells from these."""
    for case, side in CUBES:
        for step in STEPS:
            r = int(100 * side * step)
            for other in (r, r + 1) if step == 24 else (r - 1, r):
                yield frame_line(changed(case, r=other))
    yield from map(frame_line, close_cases(STANDARD))


def apart(case, figure, r, way):
    """The case at r or at the next distance on the way that tells the figures apart by the margin."""
    for far in itertools.count():
        at = r + way * far
        if not 1 <= at <= LIMITS[4][1] or isinstance(decide(frame_line(changed(case, r=at))), int):
            return None
        if gap(figures(*case_at(case, at))[figure]) > MARGIN:
            return at


def meetings():
    """Both sides of every crossing, and where the detonation figure is least beside the other: each state in each of the ranges 2 to 6."""
    for substance, around, mass in ((17, 2, 40000000), (17, 3, 40000000), (17, 4, 40000000), (40, 4, 40000000), (65, 4, 600000000)):
        for state in (0, 1):
            for figure in (PRESSURE, IMPULSE):
                case = [substance, state, (state + figure) % 2, around, mass, 700, 770, 0, 1, 60, STANDARD]
                several = [least_place(case, figure)]
                for r in crossings(case, figure):
                    several += apart(case, figure, r, -1), apart(case, figure, r + 1, 1)
                yield from (frame_line(changed(case, r=r)) for r in several if r is not None)


def touches():
    """Fronts just too slow and just fast enough for a detonation figure that is the smaller, at the distance where they almost touch."""
    for substance, state, figure in ((40, 0, PRESSURE), (65, 0, PRESSURE), (40, 1, IMPULSE)):
        case = [substance, state, 0, 4, 1, 700, 770, 0, 1, 60, STANDARD]
        mass = touching_mass(case, figure)
        for other in (mass - mass // 1000, mass + mass // 1000):
            heavy = changed(case, mass=other)
            yield frame_line(changed(heavy, r=least_place(heavy, figure)))


def fronts():
    """Gases with the mass at the front's bound, one gram more, and the greatest, where the detonation figure is least beside the other.

    It is the smaller there for ΔP. For I it is not, and would be with a faster front.
    """
    for case in (PETROL, METHANE):
        last = LAST_FREE[cloud(case)[0]]
        for figure in (PRESSURE, IMPULSE):
            for mass in (last, last + 1, LIMITS[0][1]):
                heavy = changed(case, mass=mass)
                yield frame_line(changed(heavy, r=least_place(heavy, figure)))


def speeds(source):
    """Every class in every surroundings, both states, both placements, with and without surplus fuel."""
    for number, substance in enumerate((3, 17, 40, 65)):
        for around in range(1, 5):
            for state in (0, 1):
                c = 700 if (number + around) % 2 else 1400
                case = [substance, state, (around + state) % 2, around, 10**(3 + source.below(6)), c, 770, 0, 1, 60, STANDARD]
                rx = Fraction(5 + source.below(120), 100) if (number + state) % 2 else Fraction(6 + source.below(19))
                yield frame_line(changed(case, r=max(1, centimetres(case, rx))))


def refusals():
    """Each refusal alone, and with a later one."""
    case = changed(Q, substance=47, around=4)
    line = frame_line(case)
    yield from (line, b'', line[:43], line + b'0', line + b'\r', line + line, line[:42], b'x' + line[1:-1])
    for at, ch in ((0, b'G'), (43, b'g'), (20, b' '), (21, b'\xff'), (22, b'\x00')):
        yield line[:at] + ch + line[at + 1:]
    yield b'g' + frame_line(changed(case, body=0))[1:]
    for _, new in SPOILED:
        yield frame_line(changed(case, **new))
    for (_, one), (_, later) in itertools.combinations(ORDER, 2):
        yield frame_line(changed(case, **{**one, **later}))


def airs():
    """Other airs: Rx at the steps in the air of each end, and a gram beside in those next to the standard; propane; both sides of some crossings."""
    for number, (air, step) in enumerate(zip((5000, 11000) * 4, (0, 1, 2, 3, 0, 1, 2, 3))):
        case, side = cube_in(air, (0, 3, 5, 8, 1, 4, 8, 2)[number])
        r = int(100 * side * STEPS[step])
        yield from (long_line(changed(case, r=other)) for other in ((r, r + 1) if step == 3 else (r - 1, r)))
    for air, several in ((10129, slice(0, 8)), (10131, slice(10, 14))):
        yield from map(long_line, list(close_cases(air))[several])
    yield from (PROPANE + b'2792', PROPANE.lower() + b'2af8')
    for air, around, state, figure in ((5000, 2, 0, PRESSURE), (11000, 2, 0, IMPULSE), (5000, 3, 1, IMPULSE), (11000, 4, 1, PRESSURE)):
        case = [17, state, 0, around, 40000000, 700, 770, 0, 1, 60, air]
        for r in crossings(case, figure):
            both = apart(case, figure, r, -1), apart(case, figure, r + 1, 1)
            yield from (long_line(changed(case, r=other)) for other in both if other is not None)


def air_refusals():
    """Other lengths, other characters and limits of the air pressure, and each test with it."""
    case = changed(Q, substance=47, around=4, air=5000)
    line = long_line(case)
    yield from (line, line[:46], line[:45], line[:47], line + b'0', line + b'\r', line[:44] + b'G' + line[45:], line[:47] + b'\xff')
    yield from (long_line(changed(case, air=air)) for air in WRONG_AIRS)
    for number, (_, one) in enumerate(ORDER):
        yield long_line(changed(case, **{**one, 'air': WRONG_AIRS[number % 2]}))
    yield from (long_line(changed(case, **one)) for _, one in ORDER[-2:])
    yield from (long_line(changed(Q, r=r, air=air)) for r, air in ((2400, 10131), (2400, 11000), (2400, 10129)))


def vectors(directory):
    """A line is kept where its answer is determined: enclosures that are narrower than a hundred-thousandth of the value give it."""
    groups = known(), boundaries(), meetings(), refusals(), touches(), speeds(Source(1)), fronts(), airs(), air_refusals()
    lines = dict.fromkeys(itertools.chain(*groups))
    kept = [(line, word.encode()) for line, word in ((line, determined(line)) for line in lines) if word is not None]
    with open(os.path.join(directory, 'stdin'), 'wb') as several, open(os.path.join(directory, 'stdout'), 'wb') as records:
        for number, (line, word) in enumerate(kept, start=1):
            several.write(line + b'\n')
            records.write(b'%d %s %s\n' % (number, word, word if spells(line) else b'-'))
    return 0


def main(words):
    if len(words) == 2 and words[0] == 'lines':
        return show(words[1])
    if len(words) == 2 and words[0] == 'vectors':
        return vectors(words[1])
    if len(words) in (3, 4) and words[0] == 'against':
        return against(words[1], int(words[2]), words[3:])
    print(__doc__)
    return 2


if __name__ == '__main__':
    sys.exit(main(sys.argv[1:]))
