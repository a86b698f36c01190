#!/usr/bin/env python3
"""A separate calculation of rings (request 1) in 60 digits, with the front of request 6, the width of request 10 and the air of request 11, written
from the papers alone.

  rings.py lines FILE                             what fits each request of FILE, from the tightest ends to the widest
  rings.py vectors DIRECTORY                      the files stdin and stdout of the program known_rings, the same at every run
  rings.py against RECKON ARCHIVE COUNT [SEED]    COUNT random requests through both entries of ARCHIVE, each answer checked

A request is a line: a threshold in decimal, a space, a case's line of 44 or 48 characters. A threshold is at most 18 times the case's own P0. An
answer is `inner..outer`, or R and the refusal's number.
`against` holds each answer against the ends that the program RECKON prints at the ring's distances and against this calculation.
It prints a line for every fault, and last the counts; its exit status is 0 where there is no fault. FILE may be - for standard input.
"""
import collections
import itertools
import os
import subprocess
import sys
import tempfile

from mpmath import mp, mpf

from reference import (AIRS, CUBES, FRAMES, HEX, LAST_FREE, LIMITS, METHANE, ORDER, PETROL, PROPANE, Q, SPOILED, STANDARD, STEPS, WRONG_AIRS, Source,
                       air_pressure, answer, centimetres, changed, cloud, contents, cube_in, cube_of_rx, decide, fields, frame_line, greatest_upper,
                       least_lower, lines_of, long_line, random_air, random_case, random_fault, random_line, reduced, seeded, written)


# The exact side.

def most_of(case):
    """The greatest threshold of a case, and the overpressure of a detonation's near field."""
    return 18 * air_pressure(case)


class Curve:
    """The exact overpressure of a case over the distance in cm, up to the last that is not beyond; the case's own distance is not used."""

    def __init__(self, case):
        self.case = case
        self.speed, self.energy = cloud(case)
        self.farthest = min(LIMITS[4][1], centimetres(case, 24))
        self.known = {}

    def at(self, r):
        if r not in self.known:
            moved = changed(self.case, r=r)
            value = reduced(moved, self.speed, self.energy, cube_of_rx(moved, self.energy))[0] * air_pressure(moved)
            near = mp.nint(value)
            # a value that is whole to 40 places is taken for whole
            self.known[r] = near if abs(value - near) < mpf(10)**-40 else value
        return self.known[r]


def floor(value):
    return int(mp.floor(value))


def ceiling(value):
    return int(mp.ceil(value))


# the two ends, lower first
LOWER, UPPER = 0, 1
TIGHTEST, WIDEST = (floor, ceiling), (least_lower, greatest_upper)
LEAST, GREATEST = (least_lower, ceiling), (floor, greatest_upper)


def last_reaching(curve, end, threshold):
    """The last distance at which an end reaches the threshold, 0 for none. ΔP falls with distance, and each end here with ΔP."""
    low, high = 0, curve.farthest + 1
    while high - low > 1:
        middle = (low + high) // 2
        low, high = (middle, high) if end(curve.at(middle)) >= threshold else (low, middle)
    return low


def case_of(line):
    """The first of tests 1 to 6 that refuses a line, or its fields; at its own distance the case may be beyond."""
    verdict = decide(line)
    if verdict == 7:
        return fields(bytes.fromhex(line.decode()))
    return verdict if isinstance(verdict, int) else verdict[0]


def due(threshold, line):
    """The refusal that tests 1 to 6 and 9 give, or the curve of the case."""
    case = case_of(line)
    if isinstance(case, int):
        return case
    return Curve(case) if 1 <= threshold <= most_of(case) else 9


def ring(curve, threshold, ends):
    """The answer of a case and a threshold within its limits, for ends that are functions of the exact value: 10, 11, or inner and outer."""
    inner, last = (last_reaching(curve, end, threshold) for end in ends)
    if inner == 0:
        return 10
    return 11 if last == curve.farthest else (inner, last + 1)


def spelled(verdict):
    return 'R%d' % verdict if isinstance(verdict, int) else '%d..%d' % verdict


def request(text):
    """The threshold and the case's line of a request."""
    threshold, _, line = text.partition(b' ')
    return int(threshold), line


def show(name):
    for number, text in enumerate(lines_of(contents(name)), start=1):
        threshold, line = request(text)
        found = due(threshold, line)
        several = [found] * 2 if isinstance(found, int) else [ring(found, threshold, ends) for ends in (TIGHTEST, WIDEST)]
        print(number, *map(spelled, several))
    return 0


# Holding the library's answers against RECKON's ends and the exact values.

HERE = os.path.dirname(os.path.abspath(__file__))


def conditions(verdict, far):
    """What an answer says of the ends: which end, at what distance, and whether it reaches the threshold there."""
    if verdict == 10:
        return [(LOWER, 1, False)]
    if verdict == 11:
        return [(LOWER, 1, True), (UPPER, far, True)]
    inner, outer = verdict
    return [(LOWER, 1, True), (UPPER, far, False), (LOWER, inner, True), (LOWER, inner + 1, False), (UPPER, outer, False), (UPPER, outer - 1, True)]


def fits(value, threshold, end, reaches):
    """Whether the width rule leaves room for an end around the value that reaches the threshold, or for one that does not."""
    extreme = (GREATEST if reaches else LEAST)[end]
    return (extreme(value) >= threshold) == reaches


def parsed(word):
    """An answer as a refusal's number or a pair of distances; None for any other word."""
    inner, dots, outer = word.partition('..')
    if dots and inner.isdecimal() and outer.isdecimal():
        return int(inner), int(outer)
    return int(word[1:]) if word[:1] == 'R' and word[1:].isdecimal() else None


def spells(line):
    return len(line) in (2 * size for size in FRAMES) and all(ch in HEX for ch in line)


def form_faults(number, line, found, record):
    """What is wrong with a record before any end is looked at, and its answer."""
    words = record.split(' ')
    verdict = parsed(words[1]) if len(words) == 3 else None
    if verdict is None or words[0] != str(number):
        return ['the record is %s' % record], None
    if words[2] != (words[1] if spells(line) else '-'):
        return ['%s stands from the line, %s from the frame' % (words[1], words[2])], None
    if isinstance(found, int):
        return ([] if verdict == found else ['R%d is due, %s stands' % (found, words[1])]), None
    if isinstance(verdict, int):
        return ([], verdict) if verdict in (10, 11) else (['%s cannot stand here' % words[1]], None)
    if not 1 <= verdict[0] < verdict[1] <= found.farthest:
        return ['%s lies outside 1 to %d, or out of order' % (words[1], found.farthest)], None
    return [], verdict


def reckoned(reckon, lines):
    """RECKON's ends of the overpressure for each line, or its refusal's number."""
    text = b''.join(line + b'\n' for line in lines)
    records = subprocess.run([reckon], input=text, stdout=subprocess.PIPE, check=True).stdout.decode().split('\n')
    bodies = [record.partition(' ')[2] for record in records[:-1]]
    assert len(bodies) == len(lines)
    return [answer(bytes.fromhex(body[1:]))[1][0] if body[0] == 'A' else int(body[1:]) for body in bodies]


def probes(curve, verdict):
    """The distances at which RECKON is asked: those of the conditions, and the first that is beyond."""
    several = {r for _, r, _ in conditions(verdict, curve.farthest)} | {curve.farthest}
    return sorted(several | ({curve.farthest + 1} if curve.farthest < LIMITS[4][1] else set()))


def ends_faults(curve, threshold, verdict, ends):
    """What an answer says that is not so, by RECKON's ends at each distance and by the exact values."""
    names = ('lower', 'upper')
    found = [] if ends.get(curve.farthest + 1, 7) == 7 else ['%d cm is not beyond' % (curve.farthest + 1)]
    for end, r, reaches in conditions(verdict, curve.farthest):
        if isinstance(ends[r], int):
            found.append('%d cm is refused' % r)
        elif (ends[r][end] >= threshold) != reaches:
            found.append('%s: the %s end at %d cm is %d' % (spelled(verdict), names[end], r, ends[r][end]))
        if not fits(curve.at(r), threshold, end, reaches):
            found.append('%s: the exact value at %d cm is %s' % (spelled(verdict), r, mp.nstr(curve.at(r), 20)))
    return found


def driven(archive, requests):
    """The records of the driver rings.c, linked with the archive."""
    text = b''.join(b'%d %s\n' % both for both in requests)
    with tempfile.TemporaryDirectory() as directory:
        program = os.path.join(directory, 'rings')
        subprocess.run([os.environ.get('CC', 'gcc'), '-std=c11', '-O2', '-Wall', '-Wextra', '-pedantic', '-I' + os.path.join(HERE, '..', 'link'),
                        os.path.join(HERE, 'rings.c'), archive, '-o', program], check=True)
        records = subprocess.run([program], input=text, stdout=subprocess.PIPE, check=True).stdout.decode().split('\n')
    if records.pop() != '' or len(records) != len(requests):
        sys.exit('%d records for %d requests' % (len(records), len(requests)))
    return records


def told(number, several):
    """Prints a request's faults and gives their number."""
    for fault in several:
        print('request %d: %s' % (number, fault))
    return len(several)


def check(reckon, requests, records):
    bad, counts, left, lines = 0, collections.Counter(), [], []
    for number, (both, record) in enumerate(zip(requests, records), start=1):
        found = due(*both)
        several, verdict = form_faults(number, both[1], found, record)
        bad += told(number, several)
        word = record.partition(' ')[2].partition(' ')[0]
        counts.update(['rings' if '..' in word else word])
        if verdict is not None:
            left.append((number, found, both[0], verdict))
            lines += [frame_line(changed(found.case, r=r)) for r in probes(found, verdict)]
    ends = iter(reckoned(reckon, lines))
    for number, curve, threshold, verdict in left:
        bad += told(number, ends_faults(curve, threshold, verdict, {r: next(ends) for r in probes(curve, verdict)}))
    refused = ' '.join('%d:%d' % (n, counts['R%d' % n]) for n in (1, 2, 3, 12, 13, 14, 5, 6, 9, 10, 11))
    print('%d requests, %d rings, refused %s; %d faults' % (len(requests), counts['rings'], refused, bad))
    return 1 if bad else 0


# Requests to try.

def edges_of(case):
    most = most_of(case)
    return 0, 1, 2, 3, most - 1, most, most + 1, 2**32, 2**32 + 28000, 10**15


# the greatest thresholds of other airs than the case's own
OTHER_EDGES = tuple(180 * air + more for air in (LIMITS[-1][0], STANDARD, LIMITS[-1][1]) for more in (0, 1))


def smallest(source):
    """A cloud that is beyond after a few cm."""
    return [source.below(76), source.below(2), source.below(2), 1 + source.below(4), 1 + source.below(3), 50000 - source.below(9999),
            1 + source.below(3), 1 + source.below(2), 1 + source.below(9), 70, random_air(source)]


def largest(source):
    """A cloud that is not beyond at 1,000,000 cm."""
    return [source.below(76), source.below(2), source.below(2), 1 + source.below(4), 10**9 - source.below(5 * 10**8), 1, 1,
            150000 - source.below(10**5), 1 + source.below(10**6), 70, random_air(source)]


def random_place(source, curve):
    """A distance: where the rules change, or spread over the logarithm, and at the ends."""
    r = centimetres(curve.case, source.choice(STEPS)) + source.below(4) - 1 if source.chance(30) else source.corner(1, curve.farthest)
    return min(curve.farthest, max(1, r))


def random_threshold(source, case, ends):
    """At the limits and outside, at one of the ends or beside it, or spread over the logarithm."""
    kind, most = source.below(8), most_of(case)
    if kind == 0:
        return source.choice(edges_of(case) + OTHER_EDGES + (2**64 - 1, source.below(9), most - 4 + source.below(9)))
    if kind < 5:
        return max(0, source.choice(ends) + source.below(3) - 1)
    top = 1 << source.below(most.bit_length())
    return min(most, top + source.below(top))


def random_cloud(source):
    """A line: of the smallest clouds, of the largest, without its heat, with a fault, or any; one in ten of these is damaged."""
    kind = source.below(32)
    if kind < 4:
        return written(source, (smallest, largest)[kind % 2](source))
    if kind == 4:
        return written(source, changed(random_case(source), substance=source.choice((0, 25, 47)), heat=0))
    return written(source, changed(random_case(source), **random_fault(source))) if kind == 5 else random_line(source)


def random_requests(reckon, count, source):
    """Random clouds with thresholds that lean to their own ends; a refused one has those of Q."""
    lines, curves, places = [random_cloud(source) for _ in range(count)], [], []
    for line in lines:
        case = case_of(line)
        curves.append(Curve(Q if isinstance(case, int) else case))
        places.append(frame_line(changed(curves[-1].case, r=random_place(source, curves[-1]))))
    found = zip(curves, reckoned(reckon, places), lines)
    return [(random_threshold(source, curve.case, ends), line) for curve, ends, line in found]


def against(reckon, archive, count, seed):
    requests = random_requests(reckon, count, seeded(seed))
    return check(reckon, requests, driven(archive, requests))


# The data of known_rings.

MARGIN = mpf(10)**-6


def moved(sign, most):
    """The tightest ends moved outward (1) or inward (-1) by a millionth of the value; the near field's value is whole, and stays."""
    def apart(value, by):
        return value if value == most else value * (1 + by * MARGIN)
    return lambda value: floor(apart(value, -sign)), lambda value: ceiling(apart(value, sign))


def determined(threshold, line):
    """The answer if ends moved outward give the one that ends moved inward give, so that all ends between do; else None."""
    found = due(threshold, line)
    if isinstance(found, int):
        return found
    outward, inward = (ring(found, threshold, moved(sign, most_of(found.case))) for sign in (1, -1))
    return outward if outward == inward else None


MOST = most_of(Q)
SMALLEST = [58, 1, 0, 4, 1, 50000, 1, 1, 1, 500, STANDARD]
LARGEST = [0, 0, 1, 1, 10**9, 1, 1, 150000, 1, 1, STANDARD]


def known():
    """The propane example and Q, at own distances that are accepted, beyond or not valid."""
    for threshold in (28000, 12000, 5000):
        yield threshold, PROPANE
        yield threshold, PROPANE.lower()
    case = fields(bytes.fromhex(PROPANE.decode()))
    limit = Curve(case).farthest
    for r in (0, 1, limit, limit + 1, 10**6, 10**6 + 1):
        yield 12000, frame_line(changed(case, r=r))
    for threshold in (2323, 3000, 10000, 28870, 28871, 32920, 32921, 100000, 421814, 900000):
        yield threshold, frame_line(Q)
        yield threshold, frame_line(changed(Q, state=1, r=2401))


def edges():
    """The limits of the threshold, and numbers outside them."""
    for case in (Q, SMALLEST, LARGEST):
        for threshold in edges_of(case):
            yield threshold, frame_line(case)


def refusals():
    """Tests 1 to 6, alone and with a later one: of these, or of 9, 10 and 11, which the thresholds bring about."""
    case, several = changed(Q, substance=47, around=4), (100, 0, MOST, 3)
    line = frame_line(case)
    damaged = [line] * 4 + [b'', line[:43], line + b'0', line + b'\r', b'x' + line[1:-1]]
    damaged += [line[:at] + ch + line[at + 1:] for at, ch in ((0, b'G'), (43, b'g'), (20, b' '), (21, b'\xff'), (22, b'\x00'))]
    damaged += [b'g' + frame_line(changed(case, body=0))[1:]]
    damaged += [frame_line(changed(case, **new)) for number, new in SPOILED if number != 7]
    damaged += [frame_line(changed(case, **{**one, **later})) for (_, one), (_, later) in itertools.combinations(ORDER[:-1], 2)]
    damaged += [frame_line(changed(case, heat=0))] * 4
    for number, text in enumerate(damaged):
        yield several[number % 4], text


def jumps():
    """Detonations: thresholds inside the jump at Rx 0.2 (gas) or 0.25 (heterogeneous), and at both its ends."""
    for case in [case for case, _ in CUBES[:5]] + [LARGEST]:
        curve = Curve(case)
        after = floor(curve.at(last_reaching(curve, floor, MOST) + 1))
        for threshold in (after - 3, after + 3, 10**6, MOST):
            yield threshold, frame_line(case)


def flats():
    """Deflagrations: thresholds about the overpressure below Rx 0.34, which is one value."""
    for case, _ in CUBES[5:]:
        top = floor(Curve(case).at(1))
        for less in (-1, 0, 1, 5):
            yield top - less, frame_line(case)


def limits():
    """Clouds whose Rx is 24 at the farthest distance: thresholds about the value there."""
    for case, side in CUBES:
        value = ceiling(Curve(case).at(2400 * side))
        for threshold in (value, value + 1):
            yield threshold, frame_line(case)


def nearest():
    """Clouds whose farthest distance is 1 to 3 cm: thresholds about the value at each."""
    for s in (1, 5, 20):
        for substance, state, around in ((0, 0, 1), (0, 1, 1), (58, 0, 4)):
            curve = Curve(changed(SMALLEST, substance=substance, state=state, around=around, s=s))
            for r in range(1, curve.farthest + 1):
                yield floor(curve.at(r)), frame_line(curve.case)
            yield ceiling(curve.at(1)), frame_line(curve.case)


def found_rings(case, places, count):
    """The first requests that have a determined ring, at the overpressures of these distances."""
    curve, line = Curve(case), frame_line(case)
    requests = ((floor(curve.at(r)), line) for r in places)
    return itertools.islice((both for both in requests if isinstance(determined(*both), tuple)), count)


def speeds(source):
    """Every class in every surroundings, both states, both placements, with and without surplus fuel."""
    for number, substance in enumerate((3, 17, 40, 65)):
        for around in range(1, 5):
            for state in (0, 1):
                c = 700 if (number + around) % 2 else 1400
                case = [substance, state, (around + state) % 2, around, 10**(3 + source.below(6)), c, 770, 0, 4000 * around, 60, STANDARD]
                yield from found_rings(case, [source.corner(1, Curve(case).farthest) for _ in range(20)], 1)


def far(source):
    """Clouds accepted up to 1,000,000 cm. Past some 500,000 the margin moves a ring by a centimetre, and none is determined."""
    for substance, around in ((0, 1), (17, 2)):
        for state in (0, 1):
            curve = Curve(changed(LARGEST, substance=substance, around=around, state=state))
            yield from found_rings(curve.case, [400000 + source.below(100000) for _ in range(200)], 2)
            yield floor(curve.at(curve.farthest)), frame_line(curve.case)


def at_random(source):
    for _ in range(20):
        top = 1 << source.below(MOST.bit_length())
        yield min(MOST, top + source.below(top)), random_line(source)


def fronts():
    """500 t of petrol and of methane in a tank park and in an open field, and in the field the mass at the front's bound and one gram more."""
    for case in (PETROL, METHANE):
        last = LAST_FREE[cloud(case)[0]]
        for around in (3, 4):
            yield from found_rings(changed(case, around=around), range(30000, 200000, 10000), 3)
        for mass in (last, last + 1):
            yield from found_rings(changed(case, mass=mass), range(20000, 200000, 20000), 2)
    for around in (3, 4):
        yield 30000, frame_line(changed(PETROL, around=around))  # the rings of docs/frames.md


def airs():
    """Rings in other airs: the propane example, the standard air written out, every way to a threshold's limit."""
    propane = fields(bytes.fromhex(PROPANE.decode()))
    for number, air in enumerate(AIRS):
        for threshold in (28000, 5000)[:2 if air in LIMITS[-1] else 1]:
            line = long_line(changed(propane, air=air))
            yield threshold, line.lower() if number % 2 else line
    for air in LIMITS[-1] + (10129, 10131):
        case, _ = cube_in(air, 0)
        yield from ((threshold, long_line(case)) for threshold in (most_of(case), most_of(case) + 1))
    yield from ((threshold, long_line(Q)) for threshold in (MOST, MOST + 1))
    # above the limit of the case and below the standard one, or the other way about, of a detonation and of a deflagration
    for air, threshold in ((5000, MOST), (11000, MOST + 1)):
        yield from ((threshold, long_line(cube_in(air, number)[0])) for number in (1, 8))


def air_edges():
    """In the air of each end: inside a near field's jump, below Rx 0.34, at Rx 24, and clouds that are beyond after some cm or not at 1,000,000."""
    for number, air in ((2, 5000), (4, 11000)):
        curve = Curve(cube_in(air, number)[0])
        after = floor(curve.at(last_reaching(curve, floor, most_of(curve.case)) + 1))
        yield from ((threshold, long_line(curve.case)) for threshold in (after - 3, after + 3))
    for number, air in ((5, 5000), (8, 11000)):
        curve = Curve(cube_in(air, number)[0])
        yield from ((floor(curve.at(1)) + more, long_line(curve.case)) for more in (-1, 1))
    for number, air in ((3, 5000), (4, 11000), (8, 11000)):
        curve = Curve(cube_in(air, number)[0])
        yield from ((ceiling(curve.at(curve.farthest)) + more, long_line(curve.case)) for more in (0, 1))
    for air in LIMITS[-1]:
        least = Curve(changed(SMALLEST, substance=0, around=1, s=5, air=air))
        yield from ((floor(least.at(r)), long_line(least.case)) for r in (1, least.farthest))
        most = Curve(changed(LARGEST, air=air))
        yield floor(most.at(most.farthest)), long_line(most.case)
        yield from found_rings(most.case, range(400000, 500000, 3000), 1)


def air_refusals():
    """The tests with an air pressure, each with thresholds past the limit; a case's own distance that is beyond in its air."""
    case, several = changed(Q, substance=47, around=4, air=11000), (100, 0, 10**7)
    line = long_line(case)
    damaged = [line[:46], line[:45], line[:47], line + b'0', b'x' + line[1:46], line[:44] + b'G' + line[45:], line[:47] + b' ']
    damaged += [long_line(changed(case, air=air)) for air in WRONG_AIRS]
    damaged += [long_line(changed(case, **{**one, 'air': 4999})) for _, one in ORDER[:-1]]
    damaged += [long_line(changed(case, **one)) for _, one in ORDER[-2:]]
    for number, text in enumerate(damaged):
        yield several[number % 3], text


def vectors(directory):
    """A request is kept where its answer is determined: any ends that err by less than a millionth of the value give it."""
    source, kept = Source(1), {}
    groups = known(), edges(), refusals(), jumps(), flats(), limits(), nearest(), speeds(source), far(source), at_random(source), fronts()
    for both in itertools.chain(*groups, airs(), air_edges(), air_refusals()):
        kept[both] = determined(*both)
    kept = [(both, spelled(verdict).encode()) for both, verdict in kept.items() if verdict is not None]
    with open(os.path.join(directory, 'stdin'), 'wb') as requests, open(os.path.join(directory, 'stdout'), 'wb') as records:
        for number, ((threshold, line), word) in enumerate(kept, start=1):
            requests.write(b'%d %s\n' % (threshold, line))
            records.write(b'%d %s %s\n' % (number, word, word if spells(line) else b'-'))
    return 0


def main(words):
    if len(words) == 2 and words[0] == 'lines':
        return show(words[1])
    if len(words) == 2 and words[0] == 'vectors':
        return vectors(words[1])
    if len(words) in (4, 5) and words[0] == 'against':
        return against(words[1], words[2], int(words[3]), words[4:])
    print(__doc__)
    return 2


if __name__ == '__main__':
    sys.exit(main(sys.argv[1:]))
