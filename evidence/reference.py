#!/usr/bin/env python3
"""A separate calculation of document 01's values in 60 digits, with the front of request 6, the width of request 10 and the air of request 11, written
from the papers alone.

  reference.py lines FILE            the verdict and the seven values of each line of FILE
  reference.py check FILE ANSWERS    holds reckon's output ANSWERS for the lines of FILE against this calculation
  reference.py random COUNT [SEED]   COUNT input lines, biased to corners
  reference.py against RECKON COUNT [SEED]   runs the program RECKON on COUNT random lines and checks its output
  reference.py vectors DIRECTORY     the data of the program known_cases, the same at every run
  reference.py examples              the printed examples of 003 and 004 beside this calculation's values
  reference.py surroundings COUNT [SEED]     COUNT random clouds, each compared with itself in the next less cluttered surroundings

`check` and `against` print a line for every fault, and last the counts; their exit status is 0 where there is no fault.
`surroundings` counts the clouds that come out above where there is less clutter, with no front held and with the front of request 6; its
exit status is 0 where none does with that front.
A line has 44 characters, or 48 where its air pressure is written out: P0 is that of the case in every formula.
Everything that document 01 decides exactly is decided here with fractions. FILE and ANSWERS may be - for standard input.
"""
import math
import os
import subprocess
import sys
from fractions import Fraction

from mpmath import mp, mpf

mp.dps = 60

# 003, Table 1: beta in hundredths, None for the dash; each column read downward.
CLASS1 = [110, 103, 273, 44, 41, 105, 25, 70, 62, 30]
CLASS2 = [67, 62, 104, 100, 100, 100, 105, 104, 32, 108, 107, 100, 66, 77, None, 77, 82]
CLASS3 = [56, 65, 100, 51, 42, 100, 38, 100, 70, 53, 79, 76, 71, 100, 77, 34, 52, 62, 69, None, 79, 69, 100, 46, 43,
          100, 84, 9, 100, 80]
CLASS4 = [42, 88, 100, 100, 42, 100, 100, 114, 100, 53, 12, 91, 23, 92, 52, 90, 25, 14]
SUBSTANCES = {0: (1, None)}
for cls, column in enumerate((CLASS1, CLASS2, CLASS3, CLASS4), start=1):
    for beta in column:
        SUBSTANCES[len(SUBSTANCES)] = (cls, beta)

# 003, Table 2: the speed range by class and surroundings, each from 1; document 01 gives it by a formula.
RANGES = ((1, 1, 2, 3),
          (1, 2, 3, 4),
          (2, 3, 4, 5),
          (3, 4, 5, 6))
assert all(RANGES[i - 1][j - 1] == max(1, i + j - 2) for i in range(1, 5) for j in range(1, 5))

# 003, Table 3: probability in tenths of a percent against the probit in hundredths.
PROBITS = """267 295 312 325 338 345 352 359 366 372 377 382 386 392 396 401 405 408 412 416 419 423 426 429 433 436
439 442 445 448 450 453 456 459 461 464 467 469 472 475 477 480 482 485 487 490 492 495 497 500 503 505 508 510 513 515
518 520 523 525 528 531 533 536 539 541 544 547 550 552 555 558 561 564 567 571 574 577 581 584 588 592 595 599 604 608
613 618 623 628 634 641 648 655 664 675 688 705 733 737 741 746 751 758 765 775 788 809""".split()
TABLE3 = list(zip([10 * p for p in range(1, 100)] + list(range(991, 1000)), map(int, PROBITS)))
assert len(SUBSTANCES) == 76 and len(TABLE3) == 108

C0 = 340
# The air pressure in units of 10 Pa (request 11): that of a frame that has none, and the place of the field in a case.
STANDARD = 10130
AIR = 10
# The front's speed in m/s: in ranges 2 to 4 the upper end; in 5 and 6 a factor times the sixth root of the mass in kg, and never faster than
# what closes range 4 (request 6).
FRONTS = {2: 500, 3: 300, 4: 200}
FACTORS = {5: 43, 6: 26}
FASTEST = FRONTS[4]
HEX = b'0123456789abcdefABCDEF'
SIZES = (1, 1, 1, 1, 4, 2, 2, 4, 4, 2, 2)
LIMITS = ((1, 10**9), (1, 50000), (1, 50000), (0, 150000), (1, 10**6), (1, 500), (5000, 11000))
# the bytes of a frame without its air pressure and with it; a line has twice as many characters
FRAMES = (22, 24)
ANSWER = 77


# The rules of document 01.

def damage(thousandths):
    """The greatest tabulated probability whose probit is not above, in tenths of a percent."""
    return max([p for p, probit in TABLE3 if 10 * probit <= thousandths], default=0)


def fields(frame):
    """The eleven fields of a frame; one of 22 bytes has the standard air pressure."""
    out, at = [], 0
    for size in SIZES:
        out.append(int.from_bytes(frame[at:at + size], 'big'))
        at += size
    return out if len(frame) > FRAMES[0] else out[:AIR] + [STANDARD]


def decide(line, room=ANSWER):
    """A refusal number, or the accepted case's (fields, speed range, energy, cube of Rx)."""
    if len(line) not in (2 * size for size in FRAMES):
        return 1
    if any(ch not in HEX for ch in line):
        return 2
    return decide_frame(bytes.fromhex(line.decode()), room)


def decide_case(case):
    """The first of tests 3 to 6 that refuses the fields of a case, else 0."""
    substance, state, placement, around, *quantities = case
    if substance > 75:
        return 3
    if state > 1:
        return 12
    if placement > 1:
        return 13
    if not 1 <= around <= 4:
        return 14
    if any(not low <= value <= high for value, (low, high) in zip(quantities, LIMITS)):
        return 5
    if quantities[3] == 0 and SUBSTANCES[substance][1] is None:
        return 6
    return 0


def decide_frame(frame, room=ANSWER):
    """The same for a frame, which has no test 2."""
    if len(frame) not in FRAMES:
        return 1
    case = fields(frame)
    refusal = decide_case(case)
    if refusal:
        return refusal
    speed, energy = cloud(case)
    cube = cube_of_rx(case, energy)
    if cube > 24**3:
        return 7
    if room < ANSWER:
        return 8
    return case, speed, energy, cube


def air_pressure(case):
    """P0 of a case, in Pa."""
    return 10 * case[AIR]


def cube_of_rx(case, energy):
    return Fraction(case[8], 100)**3 * air_pressure(case) / energy


def cloud(case):
    """The speed range and the energy in joules of a case that has a heat."""
    substance, state, placement, around, mass, c, s, heat, *_ = case
    cls, beta = SUBSTANCES[substance]
    speed = RANGES[cls - 1][around - 1]
    energy = Fraction(mass * (heat if heat else 440 * beta))
    if placement == 1:
        energy *= 2
    if c > s:
        energy *= Fraction(s, c)
    if state == 1 and speed >= 2:
        energy *= Fraction(3, 4)
    return speed, energy


def real(q):
    return mpf(q.numerator) / q.denominator


def detonation(state, cube, rx):
    """Px and Ix of a detonation, and whether the near field rule holds."""
    if state == 0:
        near = cube < Fraction(8, 1000)
        log = mp.log(mpf('0.142') if near else rx)
        px = mpf(18) if near else mp.exp(mpf('-1.124') - mpf('1.66') * log + mpf('0.26') * log**2)
        ix = mp.exp(mpf('-3.4217') - mpf('0.898') * log - mpf('0.0096') * log**2)
    else:
        near = cube < Fraction(15625, 10**6)
        px = mpf(18) if near else mpf('0.125') / rx + mpf('0.137') / rx**2 + mpf('0.023') / rx**3
        ix = mpf('0.16') if near else mpf('0.022') / rx
    return px, ix, near


def front(speed, mass, fastest=FASTEST):
    """The front's speed in m/s, of a mass in grams."""
    if speed in FRONTS:
        return mpf(FRONTS[speed])
    return min(FACTORS[speed] * mp.root(mpf(mass) / 1000, 6), mpf(fastest))


def is_held(speed, mass, fastest=FASTEST):
    """Whether the formula of range 5 or 6 gives a faster front than the fastest, by sixth powers."""
    return speed in FACTORS and FACTORS[speed]**6 * Fraction(mass, 1000) > fastest**6


# the last mass in grams of which the front is not held, by range
LAST_FREE = {5: 10124398, 6: 207176211}
assert all(not is_held(speed, mass) and is_held(speed, mass + 1) for speed, mass in LAST_FREE.items())


def deflagration(case, speed, cube, rx, fastest=FASTEST):
    """Px and Ix of a deflagration by its own formulas, and whether 0.34 stands for Rx."""
    sigma = 7 if case[1] == 0 else 4
    w, g = front(speed, case[4], fastest) / C0, mpf(sigma - 1) / sigma
    under = cube < Fraction(39304, 10**6)
    x = mpf('0.34') if under else rx
    px = w**2 * g * (mpf('0.83') / x - mpf('0.14') / x**2)
    ix = w * g * (1 - mpf('0.4') * g * w) * (mpf('0.06') / x + mpf('0.01') / x**2 - mpf('0.0025') / x**3)
    return px, ix, under


def reduced_distance(case, energy):
    return mpf(case[8]) / 100 / mp.cbrt(real(energy) / air_pressure(case))


def reduced(case, speed, energy, cube, fastest=FASTEST):
    """Px and Ix, and the name of the branch that they take."""
    rx = reduced_distance(case, energy)
    px, ix, near = detonation(case[1], cube, rx)
    branch = ('gas', 'heterogeneous')[case[1]] + ' range %d' % speed + (' near field' if near else '')
    if speed >= 2:
        dp, di, under = deflagration(case, speed, cube, rx, fastest)
        branch += ' at 0.34' if under else ''
        branch += ' P:' + ('deflagration' if dp < px else 'detonation') + ' I:' + ('deflagration' if di < ix else 'detonation')
        branch += ' held' if is_held(speed, case[4], fastest) else ''
        px, ix = min(px, dp), min(ix, di)
    return px, ix, branch


def in_units(px, ix, case, energy):
    """Overpressure in Pa and impulse in Pa s."""
    p0 = air_pressure(case)
    return px * p0, ix * mp.cbrt(mpf(p0)**2) * mp.cbrt(real(energy)) / C0


def values(case, speed, energy, cube):
    """Overpressure, impulse and the five probits, and the name of the branch."""
    px, ix, branch = reduced(case, speed, energy, cube)
    p0, (p, i) = air_pressure(case), in_units(px, ix, case, energy)
    probits = (
        5 - mpf('0.26') * mp.log((17500 / p)**mpf('8.4') + (290 / i)**mpf('9.3')),
        5 - mpf('0.22') * mp.log((40000 / p)**mpf('7.4') + (460 / i)**mpf('11.3')),
        5 - mpf('5.74') * mp.log(mpf('4.2') / (1 + p / p0) + mpf('1.3') * mp.sqrt(p0) * mp.cbrt(case[9]) / i),
        mpf('-12.6') + mpf('1.524') * mp.log(p),
        5 - mpf('2.44') * mp.log(7380 / p + mpf(1300000000) / (p * i)),
    )
    return (p, i) + probits, branch


# Holding reckon's output against the rules.

def answer(frame):
    """The fields of an answer frame of 77 bytes."""
    word = lambda at, size, signed=False: int.from_bytes(frame[at:at + size], 'big', signed=signed)
    wave = [(word(at, 4), word(at + 4, 4)) for at in (1, 9)]
    probits = [(word(at, 4, True), word(at + 4, 4, True)) for at in range(17, 57, 8)]
    damages = [(word(at, 2), word(at + 2, 2)) for at in range(57, 77, 4)]
    return word(0, 1), wave, probits, damages


NAMES = ('pressure', 'impulse', 'Pr1', 'Pr2', 'Pr3', 'Pr4', 'Pr5')


# The width rule of a pressure or an impulse (request 10): WIDTH (upper - lower) is at most 2 WIDTH + lower.
WIDTH = 100000


def closed(low, high):
    return WIDTH * (high - low) <= 2 * WIDTH + low


def least_lower(value):
    """The least lower end that the width rule permits beside the value."""
    return max(0, -((2 * WIDTH - WIDTH * int(mp.ceil(value))) // (WIDTH + 1)))


def greatest_upper(value):
    """The greatest upper end that it permits."""
    low = int(mp.floor(value))
    return low + 2 + low // WIDTH


def faults(line, number, text, widest):
    """What is wrong with one record of reckon's, as a list of sentences."""
    head, _, body = text.partition(' ')
    if head != str(number):
        return ['the record is numbered %s' % head]
    verdict = decide(line)
    if isinstance(verdict, int):
        return [] if body == 'R%d' % verdict else ['refusal %d is due, %s stands' % (verdict, body[:8])]
    if len(body) != 155 or body[0] != 'A' or any(ch not in '0123456789ABCDEF' for ch in body[1:]):
        return ['an answer of 154 upper-case digits is due, %s stands' % body[:8]]
    return frame_faults(verdict, bytes.fromhex(body[1:]), widest)


def frame_faults(verdict, frame, widest):
    """What is wrong with the answer frame of an accepted case; the widest of each interval is noted."""
    speed, wave, probits, damages = answer(frame)
    found = [] if speed == verdict[1] else ['range %d is due, %d stands' % (verdict[1], speed)]
    exact, _ = values(*verdict)
    for name, (low, high), value in zip(NAMES, wave, exact):
        if not low <= value <= high:
            found.append('%s %s lies outside [%d, %d]' % (name, mp.nstr(value, 20), low, high))
        if not closed(low, high):
            found.append('%s [%d, %d] is too wide' % (name, low, high))
        widest[name] = max(widest.get(name, Fraction(0)), Fraction(max(0, high - low - 2), max(1, low)))
    for name, (low, high), (less, more), value in zip(NAMES[2:], probits, damages, exact[2:]):
        if not low <= 1000 * value <= high:
            found.append('%s %s lies outside [%d, %d] thousandths' % (name, mp.nstr(value, 20), low, high))
        if high - low > 2:
            found.append('%s [%d, %d] is too wide' % (name, low, high))
        widest[name] = max(widest.get(name, 0), high - low)
        if (less, more) != (damage(low), damage(high)):
            found.append('%s: damages %d and %d stand, %d and %d are due' % (name, less, more, damage(low), damage(high)))
    return found


def contents(name):
    if name == '-':
        return sys.stdin.buffer.read()
    with open(name, 'rb') as file:
        return file.read()


def lines_of(data):
    """The lines of an input: a line ends at LF, and the last may lack it."""
    parts = data.split(b'\n')
    return parts if parts[-1] else parts[:-1]


def check(lines, output):
    records = output.decode('latin-1').split('\n')
    bad, accepted, widest = 0, 0, {}
    if records.pop() != '' or len(records) != len(lines):
        print('%d records for %d lines' % (len(records), len(lines)))
        bad += 1
    for number, (line, text) in enumerate(zip(lines, records), start=1):
        accepted += ' A' in text
        for fault in faults(line, number, text, widest):
            print('line %d: %s' % (number, fault))
            bad += 1
    print('%d lines, %d accepted, %d refused, %d faults' % (len(lines), accepted, len(lines) - accepted, bad))
    if widest:
        print('beyond 2 units, the widest: pressure %.2g, impulse %.2g of the lower end; probits, in thousandths: %s' % (
            widest['pressure'], widest['impulse'], ', '.join('%s %d' % (name, widest[name]) for name in NAMES[2:])))
    return 1 if bad else 0


# Lines to try.

def long_line(case):
    """The line of a case with its air pressure written out."""
    return b''.join(value.to_bytes(size, 'big') for value, size in zip(case, SIZES, strict=True)).hex().upper().encode()


def frame_line(case):
    """The line of a case as it is written: standard air is left out."""
    return long_line(case)[:2 * FRAMES[case[AIR] != STANDARD]]


class Source:
    """Whole numbers that look random and are the same in every version of Python (SplitMix64); and whether cases drawn of them have other airs too."""

    def __init__(self, seed, airs=False):
        self.state, self.airs = seed, airs

    def below(self, n):
        self.state = (self.state + 0x9E3779B97F4A7C15) % 2**64
        z = self.state
        z = (z ^ z >> 30) * 0xBF58476D1CE4E5B9 % 2**64
        z = (z ^ z >> 27) * 0x94D049BB133111EB % 2**64
        return (z ^ z >> 31) * n >> 64

    def choice(self, several):
        return several[self.below(len(several))]

    def chance(self, percent):
        return self.below(100) < percent

    def corner(self, low, high):
        """A whole number from low to high: an end, near an end, or spread over the powers of two."""
        if self.chance(12):
            return self.choice((low, high))
        if self.chance(9):
            return min(high, max(low, self.choice((low, high)) + self.below(7) - 3))
        top = 1 << self.below(high.bit_length() + 1)
        return min(high, max(low, top + self.below(top)))


def whole_root(q):
    """The greatest whole number whose cube is not above the fraction q."""
    n = q.numerator // q.denominator
    low, high = 0, 1 << (n.bit_length() // 3 + 1)
    while high - low > 1:
        middle = (low + high) // 2
        low, high = (middle, high) if middle**3 <= n else (low, middle)
    return low


def centimetres(case, rx):
    """The greatest distance in cm at which Rx is not above rx."""
    return whole_root(Fraction(rx)**3 * 10**6 * cloud(case)[1] / air_pressure(case))


STEPS = tuple(Fraction(text) for text in ('0.2', '0.25', '0.34', '24'))


# air pressures at and beside the ends of the permitted ones and the standard one, and such as are not permitted
AIRS = (5000, 5001, 10129, 10130, 10131, 10999, 11000)
WRONG_AIRS = (4999, 11001, 0, 65535)


def random_air(source):
    """Mostly the standard air; of a source with airs one in three is another, and half of these are corners."""
    if not source.airs or source.chance(65):
        return STANDARD
    return source.choice(AIRS) if source.chance(50) else 5000 + source.below(6001)


def written(source, case):
    """The line of a case; a source with airs writes the standard one out too, one time in eight."""
    return long_line(case) if source.airs and source.chance(12) else frame_line(case)


def random_case(source):
    air = random_air(source)
    substance = source.below(76)
    case = [substance, source.below(2), source.below(2), 1 + source.below(4)]
    case += [source.corner(max(1, low), high) for low, high in LIMITS[:-1]] + [air]
    if source.chance(50) and SUBSTANCES[substance][1] is not None:
        case[7] = 0
    verdict = decide(frame_line(case))
    if verdict == 7 and source.chance(90) or source.chance(40):
        # where the rules change, or at any Rx up to 24
        rx = source.choice(STEPS + (Fraction(1 + source.below(2400), 100), Fraction(1 + source.below(100), 100)))
        case[8] = min(10**6, max(1, centimetres(case, rx) + source.below(4) - 1))
    return case


def other_end(source, line):
    """A line with an air pressure that is not permitted, or cut or lengthened by one to five characters at its end."""
    if source.chance(50):
        return line[:44] + b'%04X' % source.choice(WRONG_AIRS)
    return (line[:44] + b'2792' + b'27')[:source.choice((42, 43, 45, 46, 46, 46, 47, 49))]


def random_line(source):
    line = bytearray(written(source, random_case(source)))
    if source.airs and source.chance(6):
        line = bytearray(other_end(source, line))
    kind = source.below(100)
    if kind < 2:
        del line[source.below(len(line))]
    elif kind < 4:
        line.insert(source.below(len(line) + 1), source.choice(HEX))
    elif kind < 6:
        line[source.below(len(line))] = source.choice(b'gG @/:`\r\xff\x00')
    elif kind < 10:
        at = 2 * source.below(len(line) // 2)
        line[at:at + 2] = b'%02X' % source.choice((0, 1, 2, 5, 76, 255, source.below(256)))
    elif kind < 12:
        # the settings and the bytes beside them, several at once
        for at in range(5):
            if source.chance(50):
                line[2 * at:2 * at + 2] = b'%02X' % source.choice((0, 1, 2, 4, 5, 75, 76, 255))
    elif kind < 20:
        return bytes(line).lower()
    return bytes(line)


def seeded(words, airs=True):
    return Source(int(words[0]) if words else 1, airs)


def random_lines(count, seed):
    """Lines of 44 characters, but for the damaged ones."""
    source = seeded(seed, airs=False)
    return [random_line(source) for _ in range(count)]


def at_bound(case, more=0):
    """A case of range 5 or 6 with the last mass of which the front is not held, or so many grams more; Rx stays, or almost, where the distance can follow."""
    mass = LAST_FREE[cloud(case)[0]] + more
    return changed(case, mass=mass, r=min(10**6, max(1, whole_root(Fraction(case[8]**3 * mass, case[4])))))


def led_to_bound(source, line):
    """One time in four an accepted line of range 5 or 6 with its mass within 3 g of where the front is held; else the line."""
    verdict = decide(line)
    if isinstance(verdict, int) or verdict[1] not in FACTORS or not source.chance(25):
        return line
    return frame_line(at_bound(verdict[0], source.below(6) - 2))


def tried_lines(count, seed):
    """Random lines in any air, some of them led to the front's bound."""
    source = seeded(seed)
    return [led_to_bound(source, random_line(source)) for _ in range(count)]


# The data of known_cases.

Q = [0, 0, 0, 1, 100, 1, 1, 1013, 100, 70, STANDARD]
PROPANE = b'11000104007A1200057803020000B540000027100046'
# The printed examples: file of the data, line, pressure, impulse, probits and damages in percent as they are printed, '' where nothing is.
EXAMPLES = (
    ('003_1', b'11000104007A1200057803020000B540000027100050', '2.8e4', '2.04e4', ('6.06', '4.47', '-1.93', '3.06', '2.78'), ('86', '30', '', '2.5', '1')),
    ('003_2', b'15000101000186A0032003840000B3B000003A980050', '6.5e3', '126.4', ('2.69', '1.69', '-11.67', '0.76', '-13.21'), ('1', '', '', '', '')),
    ('004_80', b'11000104007A1200057803020000B54000001F400046', '4.4e4', '2.84e4', ('6.48', '4.91', '', '', ''), ('93', '47', '', '', '')),
    ('004_100', PROPANE, '2.8e4', '2.04e4', ('6.06', '4.47', '', '', ''), ('86', '28', '', '', '')),
    ('004_135', b'11000104007A1200057803020000B540000034BC0046', '1.9e4', '1.37e4', ('5.84', '4.12', '', '', ''), ('80', '19', '', '', '')),
)


# document 01's figures called near: number of the figure, two numbers around it, line, name. A pressure is held to the last place that
# is printed there, an impulse to the whole numbers around it.
NEAR = (
    (0, 32915, 32925, frame_line(Q), 'Q, overpressure 32,920'), (1, 9, 10, frame_line(Q), 'Q, impulse 9.73'),
    (1, 6, 7, b'000100010000006400010001000003F5000000640046', 'Q heterogeneous, impulse 6.55'), (0, 28950, 29050, PROPANE, 'propane, overpressure 29.0 kPa'),
)
# figures that are not near, each for one reason: the lower end, the upper end, a refused line, no such figure, a lost sign
FAR = (
    (0, 32921, 32925, frame_line(Q), 'Q, overpressure from 32,921 on'), (0, 32915, 32920, frame_line(Q), 'Q, overpressure up to 32,920'),
    (0, -200000, 200000, frame_line(Q[:8] + [2401] + Q[9:]), 'Q at 2401 cm, refused'), (12, 0, 200000, frame_line(Q), 'a thirteenth figure'),
    (4, 3109, 3112, PROPANE, 'propane, Pr3 without its sign'),
)


def changed(case, **new):
    names = ('substance', 'state', 'placement', 'around', 'mass', 'c', 's', 'heat', 'r', 'body', 'air')
    return [new.get(name, value) for name, value in zip(names, case)]


def known():
    """Document 01's known cases and the three lines of its section on reckon."""
    yield frame_line(Q)
    for r in (19, 20, 21, 2399, 2400, 2401):
        yield frame_line(changed(Q, r=r))
    yield frame_line(changed(Q, state=1))
    for around in (1, 2):
        yield frame_line(changed(Q, substance=1, around=around))
    yield frame_line(changed(Q, substance=58, around=4))
    for substance in (25, 47):
        yield frame_line(changed(Q, substance=substance, heat=0))
        yield frame_line(changed(Q, substance=substance, heat=1, r=10))
    yield frame_line(changed(Q, substance=76, around=5))
    yield PROPANE
    yield PROPANE.lower()
    yield b''
    yield b'G' * 44
    yield b'00000001000000640001000100000000000000640046'


def substances():
    """Every substance at its table heat."""
    for substance in range(76):
        yield frame_line(changed(Q, substance=substance, state=substance % 2, heat=0, mass=1000000, r=3000))


def classes():
    """Every class in every surroundings, both states, both placements, with and without surplus fuel."""
    for number, substance in enumerate((3, 17, 40, 65)):
        for around in range(1, 5):
            for state in (0, 1):
                for placement in (0, 1):
                    c = 700 if (number + around + state) % 2 else 1400
                    yield frame_line([substance, state, placement, around, 8000000, c, 770, 0, 4000 * around, 60 + 10 * around, STANDARD])


def first_of_each(verdicts, fastest, count=2):
    """So many cases for every branch of the wave formulas that accepted cases meet."""
    seen = {}
    for verdict in verdicts:
        seen.setdefault(reduced(*verdict, fastest)[2], []).append(verdict[0])
    return [case for branch in sorted(seen) for case in seen[branch][:count]]


def accepted_of(cases):
    """The accepted ones of some cases, each as decide has it."""
    return [verdict for verdict in (decide(frame_line(case)) for case in cases) if not isinstance(verdict, int)]


def branches(source):
    """Two cases for every branch of the wave formulas that 40,000 random cases meet.

    First the branches that they would meet if no front were held, so that there are cases that a held front brings from each of these to
    another; then what is missing of those that they do meet, among them such cases with the mass at the bound.
    """
    several = accepted_of(random_case(source) for _ in range(40000))
    free = first_of_each(several, math.inf)
    several = [verdict for verdict in several if verdict[1] in FACTORS]
    held = first_of_each(several + accepted_of(at_bound(verdict[0]) for verdict in several), FASTEST)
    for case in free + [case for case in held if case not in free]:
        yield frame_line(case)


# cases whose energy is P0 times a cube, with the side of that cube in metres
CUBES = (
    (changed(Q), 1), (changed(Q, placement=1, mass=400), 2), (changed(Q, c=2, mass=5400), 3),
    (changed(Q, state=1), 1), (changed(Q, state=1, c=2, mass=5400), 3),
    (changed(Q, substance=17, around=2), 1), (changed(Q, substance=58, around=4, placement=1, mass=400), 2),
    (changed(Q, substance=17, around=2, state=1, placement=1, mass=1800), 3),
    (changed(Q, substance=58, around=4, state=1, mass=3600), 3),
    (changed(Q, substance=58, around=2, state=1, c=2, mass=7200), 3),
)


def cube_in(air, number):
    """One of these cases in another air: a tenth of its mass, and the air pressure's own number for the heat."""
    case, side = CUBES[number]
    moved = changed(case, mass=case[4] // 10, heat=air, air=air)
    assert cloud(moved)[1] == air_pressure(moved) * side**3
    return moved, side


assert all(cloud(case)[1] == air_pressure(case) * side**3 for case, side in CUBES)


def boundaries():
    """Rx at 0.2, 0.25, 0.34 and 24 exactly, and one cm to each side."""
    for case, side in CUBES:
        for step in STEPS:
            for r in (-1, 0, 1):
                yield frame_line(changed(case, r=int(100 * side * step) + r))


# petrol and methane: range 5 and 6 in an open field
PETROL = [30, 0, 1, 4, 500000000, 700, 770, 0, 20000, 70, STANDARD]
METHANE = changed(PETROL, substance=65)


def fronts():
    """Where the front reaches 200 m/s.

    The mass at the bound, within 4 g of it and a hundredth to each side, at Rx 0.3 and 1; then 500 t and 1,000 t in a tank park and in an open field.
    """
    for case in (PETROL, METHANE):
        last = LAST_FREE[cloud(case)[0]]
        for state in (0, 1):
            for number, mass in enumerate((last - last // 100, last - 3, last, last, last + 1, last + 1, last + 4, last + last // 100)):
                heavy = changed(case, state=state, placement=state, mass=mass)
                yield frame_line(changed(heavy, r=centimetres(heavy, Fraction(1 if number % 2 else '0.3'))))
    for case in (PETROL, METHANE):
        for mass, metres in ((500000000, 200), (500000000, 500), (500000000, 1000), (1000000000, 1000)):
            for around in (3, 4):
                yield frame_line(changed(case, around=around, mass=mass, r=100 * metres))


# The least I, Pr1, Pr2 and Pr3; the least overpressure, with Rx at 24; the greatest of all.
LEAST_IMPULSE = b'3A01000400000001C3500001000000010000000101F4'
LEAST_PRESSURE = b'3A010104000000010003000200018BB40000096001F4'
GREATEST = b'000001013B9ACA0000010001000249F0000000010001'


def extremes():
    """The ends of every field, at 1 cm and at the farthest distance that is accepted."""
    yield from (LEAST_IMPULSE, LEAST_PRESSURE, GREATEST)
    for mass in (1, 10**9):
        for heat in (1, 150000):
            for c in (1, 50000):
                for substance, around in ((0, 1), (11, 2), (75, 4)):
                    state = (mass + heat + c + around) % 2
                    case = [substance, state, 0, around, mass, c, 1, heat, 1, 500, STANDARD]
                    yield frame_line(case)
                    yield frame_line(changed(case, state=1 - state, r=min(10**6, centimetres(changed(case, state=1 - state), 24)), body=1))


# each refusal's number, and what brings it about
SPOILED = (
    (3, dict(substance=76)), (3, dict(substance=255)), (12, dict(state=2)), (12, dict(state=255)), (13, dict(placement=2)),
    (13, dict(placement=255)), (14, dict(around=0)), (14, dict(around=5)), (14, dict(around=255)),
    (5, dict(mass=0)), (5, dict(mass=10**9 + 1)), (5, dict(c=0)), (5, dict(c=50001)), (5, dict(s=0)), (5, dict(s=50001)),
    (5, dict(heat=150001)), (5, dict(r=0)), (5, dict(r=10**6 + 1)), (5, dict(body=0)), (5, dict(body=501)),
    (6, dict(heat=0)), (7, dict(r=2401)), (7, dict(r=10**6)),
)
AIR_SPOILED = tuple((5, dict(air=air)) for air in WRONG_AIRS)
# one for each test on a case, in the order of the tests
ORDER = (
    (3, dict(substance=76)), (12, dict(state=2)), (13, dict(placement=2)), (14, dict(around=5)), (5, dict(body=0)), (6, dict(heat=0)),
    (7, dict(r=10**6)),
)


def random_fault(source):
    """What brings a refusal about; with airs the air pressure is among it."""
    return source.choice(SPOILED + AIR_SPOILED if source.airs else SPOILED)[1]


def refusals():
    """Every refusal alone and with each later one, as pairs of a line and the room for its answer."""
    line = frame_line(Q)
    for short in (b'', line[:43], line + b'0', line + b'\r', line + line):
        yield short, ANSWER
    for at, ch in ((0, b'G'), (43, b'g'), (20, b' '), (21, b'/'), (22, b':'), (23, b'@'), (24, b'`'), (25, b'\x00'), (26, b'\xff')):
        yield line[:at] + ch + line[at + 1:], ANSWER
    for number, new in SPOILED:
        spoiled = frame_line(changed(Q, **new))
        assert decide(spoiled) == number
        yield spoiled, ANSWER
        yield b'g' + spoiled[1:], ANSWER
    for place, (number, one) in enumerate(ORDER):
        for _, later in ORDER[place + 1:]:
            spoiled = frame_line(changed(Q, **{**one, **later}))
            assert decide(spoiled) == number
            yield spoiled, ANSWER
        for spoiled, room in ((frame_line(changed(Q, **one)), 76), (b'x' + line[1:-1], ANSWER), (frame_line(changed(Q, **one))[:-1], 0)):
            yield spoiled, room
    for room in (76, 75, 1, 0):
        yield line, room
    yield frame_line(changed(Q, r=2401)), 0
    yield line, ANSWER


def air_refusals():
    """The same of lines with an air pressure: other lengths, other characters in it, its limits, each test with it, and too little room."""
    case = changed(Q, air=5000)
    line = long_line(case)
    for other in (frame_line(Q) + b'27', line[:46], line[:45], line[:47], line + b'0', line + b'\r', line + b'00', b'x' + line[1:46]):
        yield other, ANSWER
    for at, ch in ((44, b'G'), (47, b'g'), (45, b' '), (46, b'\x00'), (0, b'/')):
        yield line[:at] + ch + line[at + 1:], ANSWER
    for air in WRONG_AIRS:
        spoiled = long_line(changed(Q, air=air))
        for other in (spoiled, spoiled[:46], spoiled[:43] + b'g' + spoiled[44:]):
            yield other, ANSWER
    for place, (number, one) in enumerate(ORDER):
        spoiled = long_line(changed(case, **{**one, 'air': WRONG_AIRS[place % 2]}))
        assert decide(spoiled) == (number if place < 4 else 5)
        yield spoiled, ANSWER
        yield long_line(changed(case, **one)), 76
    for room, other in ((76, line), (0, line), (0, long_line(changed(Q, air=4999))), (ANSWER, line), (ANSWER, long_line(Q)), (76, long_line(Q))):
        yield other, room
    # beyond by its own air or by the standard one alone
    yield from ((long_line(changed(Q, r=r, air=air)), ANSWER) for r, air in ((2400, 10131), (2400, 11000), (2401, 5000), (2400, 10129)))


def in_air(case, air):
    """The case in another air; Rx stays, or almost, where the distance can follow."""
    return changed(case, air=air, r=min(10**6, max(1, whole_root(Fraction(case[8]**3 * case[AIR], air)))))


def beside(case, step):
    """The case with the last mass in grams at which Rx is not below a step at the case's distance, and with the next."""
    grams = cube_of_rx(case, cloud(changed(case, mass=1))[1]) / step**3
    mass = min(LIMITS[0][1] - 1, max(1, grams.numerator // grams.denominator))
    return [changed(case, mass=mass), changed(case, mass=mass + 1)]


def close_cases(air):
    """Cases whose Rx only an exact test tells from 0.2, 0.25, 0.34 or 24: in one state, and in both with a deflagration."""
    for substance, state, step in ((0, 0, 0), (0, 1, 1), (0, 0, 3), (65, 0, 2), (65, 1, 1), (65, 1, 2), (65, 1, 3)):
        case = [substance, state, 0, 1 if substance == 0 else 2, 1, 1, 1, 1013, int(19000 * STEPS[step]) + 1, 70, air]
        yield from beside(case, STEPS[step])


def known_in_airs():
    """Q in both states and propane, in the airs at the ends and beside the standard one, which is written out; some in small letters."""
    propane = fields(bytes.fromhex(PROPANE.decode()))
    for number, air in enumerate(AIRS):
        for case in (Q, changed(Q, state=1), propane):
            line = long_line(changed(case, air=air))
            yield line.lower() if number % 3 == 1 else line


def branches_in_airs(source):
    """A case for every branch that cases meet, at each end of the air pressure."""
    cases = [verdict[0] for verdict in accepted_of(random_case(source) for _ in range(12000))]
    cases += [at_bound(case) for case in cases if cloud(case)[0] in FACTORS]
    ways = {reduced(*verdict)[2] for verdict in accepted_of(cases)}
    for air in LIMITS[-1]:
        found = first_of_each(accepted_of(in_air(case, air) for case in cases), FASTEST, 1)
        assert {reduced(*verdict)[2] for verdict in accepted_of(found)} == ways
        yield from map(long_line, found)


def boundaries_in_airs():
    """Rx at 0.2, 0.25, 0.34 and 24 exactly and the cm on the other side, in the air of each end; then a gram beside, in those next to the standard."""
    for number in range(len(CUBES)):
        case, side = cube_in(LIMITS[-1][number % 2], number)
        for step in STEPS:
            r = int(100 * side * step)
            yield from (long_line(changed(case, r=other)) for other in ((r, r + 1) if step == 24 else (r - 1, r)))
    for air in (10129, 10131):
        yield from map(long_line, close_cases(air))


def extremes_in_airs():
    """The lines of the extremes at both ends of the air pressure, the least ones with Rx at 24 again; then the ends of other fields."""
    impulse, pressure = (fields(bytes.fromhex(line.decode())) for line in (LEAST_IMPULSE, LEAST_PRESSURE))
    for air, r, c in ((5000, 2, 25920), (11000, 2, 11781)):
        for line in (LEAST_IMPULSE, LEAST_PRESSURE, GREATEST):
            yield line + b'%04X' % air
        least = changed(pressure, heat=10 * air, air=air)
        assert decide(long_line(least))[3] == 24**3
        yield from (long_line(least), long_line(changed(impulse, c=c, r=r, air=air)))
        for mass in (1, 10**9):
            for heat, (substance, around, state) in ((1, (0, 1, 0)), (150000, (11, 2, 1)), (150000, (75, 4, 0))):
                case = [substance, state, 0, around, mass, 1, 1, heat, 1, 500, air]
                yield long_line(changed(case, r=1 if air == 5000 else min(10**6, centimetres(case, 24))))


def airs():
    """Lines of 48 characters."""
    source = Source(11, airs=True)
    several = (random_line(source) for _ in range(75))
    yield from known_in_airs()
    yield from branches_in_airs(Source(11))
    yield from boundaries_in_airs()
    yield from extremes_in_airs()
    yield from (line for line in several if len(line) == 48)


UNIT = 10**12


def scaled_figures(pressure, impulse, probits, damages):
    """The printed figures with their numbers: name, number, and the least and the most that agree, in the answer's units.

    A pressure, an impulse or a probit agrees within one unit of the last place that is printed, a damage only as it is.
    """
    names = ('overpressure', 'impulse') + NAMES[2:] + tuple('damage %d' % n for n in range(1, 6))
    for number, (name, text) in enumerate(zip(names, (pressure, impulse) + probits + damages)):
        if text:
            digits, _, exponent = text.partition('e')
            power = int(exponent or 0)
            value = Fraction(digits) * 10**power
            place = Fraction(0) if number > 6 else Fraction(10)**(power - len(digits.partition('.')[2]))
            unit = 1 if number < 2 else 1000 if number < 7 else 10
            shown = text if '.' in text and not exponent else str(int(value))
            yield number, math.floor((value - place) * unit), math.ceil((value + place) * unit), '%s %s' % (name, shown)


def planted():
    """Vectors with one fault each: in the data (N), in both answers (B) or in the frame's answer alone (F), a byte at a place or, at 80, the verdict."""
    right = vector(frame_line(Q), 80).split(b' ')
    near = vector(frame_line(changed(Q, r=1)), 80).split(b' ')
    refused = vector(frame_line(changed(Q, r=2401)), 80).split(b' ')
    placed = vector(frame_line(changed(Q, placement=2)), 80).split(b' ')

    def with_word(words, at, word):
        return b' '.join(words[:at] + [word] + words[at + 1:])

    def moved(at, by):
        return with_word(right, at, decimal(mpf(right[at].decode()) + by).encode())

    for text in (moved(2, 1), moved(3, -1), with_word(right, 4, right[4].lstrip(b'-')), moved(8, mpf('0.001')),
                 with_word(right, 1, b'A2'), with_word(refused, 1, b'R6'), with_word(placed, 1, b'R12'), with_word(placed, 1, b'R1')):
        yield b'N0 0 ' + text
    # an upper end one too far, of a pressure or an impulse and of Pr1
    too_far = lambda at, value: b'B%d %d' % (at, (greatest_upper(mpf(value.decode())) + 1) % 256)
    wide = b'B24 %d' % ((math.ceil(1000 * Fraction(right[4].decode())) + 2) % 256)
    yield too_far(8, near[2]) + b' ' + b' '.join(near)
    for place in (b'B80 7', too_far(8, right[2]), too_far(16, right[3]), wide, b'B58 10', b'B76 10', b'B77 1', b'B79 1', b'F80 7', b'F0 2', b'F79 1'):
        yield place + b' ' + b' '.join(right)
    for place in (b'B0 1', b'B79 1'):
        yield place + b' ' + b' '.join(refused)


def decimal(value):
    """The value with twelve places, rounded down; one that is a whole number of places is taken for exact."""
    scaled = value * UNIT
    near = mp.nint(scaled)
    exact = abs(scaled - near) < mpf(10)**-25
    q = int(near) if exact else int(mp.floor(scaled))
    assert exact or q % (UNIT // 1000) != 0
    return '%s%d.%012d' % ('-' if q < 0 else '', abs(q) // UNIT, abs(q) % UNIT)


def vector(line, room):
    """One line of data: the room, the verdict with its values, the input line."""
    verdict = decide(line, room)
    if isinstance(verdict, int):
        return b'%d R%d %s\n' % (room, verdict, line)
    exact, _ = values(*verdict)
    return b'%d A%d %s %s\n' % (room, verdict[1], ' '.join(map(decimal, exact)).encode(), line)


def write_lines(directory, name, lines):
    with open(os.path.join(directory, name), 'wb') as file:
        for line in lines:
            file.write(line + b'\n')


def vectors(directory):
    source = Source(1)
    groups = (
        ('known', known()), ('examples', (example[1] for example in EXAMPLES)), ('substances', substances()), ('classes', classes()),
        ('branches', branches(source)), ('boundaries', [*boundaries(), *fronts()]), ('extremes', extremes()),
        ('refusals', [*refusals(), *air_refusals()]), ('random', (random_line(source) for _ in range(120))), ('airs', airs()),
    )
    for name, several in groups:
        with open(os.path.join(directory, name), 'wb') as file:
            for number, item in enumerate(several):
                line, room = item if isinstance(item, tuple) else (item, ANSWER + number % 4)
                file.write(vector(line, room))
    with open(os.path.join(directory, 'table'), 'wb') as file:
        for tenths, hundredths in TABLE3:
            file.write(b'%d %d\n' % (tenths, hundredths))
    write_lines(directory, 'planted', (text.rstrip(b'\n') for text in planted()))
    for name, figures in [('near', NEAR), ('far', FAR)]:
        write_lines(directory, name, (b'%d %d %d %s %s' % (number, least, most, line, what.encode()) for number, least, most, line, what in figures))
    for name, line, *printed in EXAMPLES:
        figures = scaled_figures(*printed)
        write_lines(directory, 'printed_' + name, (b'%d %d %d %s %s' % (number, least, most, line, what.encode()) for number, least, most, what in figures))
    return 0


def examples():
    """The printed examples, each figure beside the value of document 01's rules."""
    for name, line, pressure, impulse, probits, damages in EXAMPLES:
        verdict = decide(line)
        exact, branch = values(*verdict)
        print('%s: %s' % (name, line.decode()))
        print('  E %s J, Rx %s, %s' % (mp.nstr(real(verdict[2]), 8), mp.nstr(reduced_distance(verdict[0], verdict[2]), 6), branch))
        for what, value, shown in zip(NAMES, exact, (pressure, impulse) + probits):
            read = '' if what in NAMES[:2] else ', damage %.1f %%' % (damage(int(mp.floor(1000 * value))) / 10)
            print('  %-8s %s%s (printed %s)' % (what, mp.nstr(value, 9), read, shown or 'nowhere'))
    return 0


def rises(case, fastest):
    """For ΔP and for I: whether the figure is greater in the next less cluttered surroundings; None where one of the two is refused."""
    both = accepted_of(changed(case, around=case[3] + more) for more in (0, 1))
    if len(both) < 2:
        return None
    here, there = (in_units(*reduced(*verdict, fastest)[:2], verdict[0], verdict[2]) for verdict in both)
    return [after > before for before, after in zip(here, there)]


def risen(cases, fastest):
    """How many clouds are accepted in both surroundings, come out above by either figure, by pressure, by impulse."""
    several = [both for both in (rises(case, fastest) for case in cases) if both is not None]
    return len(several), sum(p or i for p, i in several), sum(p for p, _ in several), sum(i for _, i in several)


def surroundings(count, seed):
    """Each cloud in surroundings 1, 2 and 3, held against itself in the next."""
    source, cases, above = seeded(seed), [], 0
    while len(cases) < count:
        cases += [verdict[0] for verdict in accepted_of([random_case(source)])]
    for around in (1, 2, 3):
        moved = [changed(case, around=around) for case in cases]
        for fastest, words in ((math.inf, 'no front held'), (FASTEST, 'fronts held at %d m/s' % FASTEST)):
            clouds, either, pressures, impulses = risen(moved, fastest)
            print('surroundings %d and %d, %s: of %d clouds %d are above in %d, %d by pressure, %d by impulse' % (
                around, around + 1, words, clouds, either, around + 1, pressures, impulses))
        above += either
    return 1 if above else 0


def show(name):
    for number, line in enumerate(lines_of(contents(name)), start=1):
        verdict = decide(line)
        if isinstance(verdict, int):
            print(number, 'R%d' % verdict)
        else:
            exact, branch = values(*verdict)
            print(number, 'range %d E %s' % (verdict[1], verdict[2]), *(mp.nstr(x, 20) for x in exact), branch)
    return 0


def main(words):
    if len(words) == 2 and words[0] == 'lines':
        return show(words[1])
    if len(words) == 3 and words[0] == 'check':
        return check(lines_of(contents(words[1])), contents(words[2]))
    if len(words) in (3, 4) and words[0] == 'against':
        lines = tried_lines(int(words[2]), words[3:])
        text = b''.join(line + b'\n' for line in lines)
        return check(lines, subprocess.run([words[1]], input=text, stdout=subprocess.PIPE, check=True).stdout)
    if len(words) == 2 and words[0] == 'vectors':
        return vectors(words[1])
    if words == ['examples']:
        return examples()
    if len(words) in (2, 3) and words[0] == 'surroundings':
        return surroundings(int(words[1]), words[2:])
    if len(words) in (2, 3) and words[0] == 'random':
        for line in tried_lines(int(words[1]), words[2:]):
            sys.stdout.buffer.write(line + b'\n')
        return 0
    print(__doc__)
    return 2


if __name__ == '__main__':
    sys.exit(main(sys.argv[1:]))
