#!/usr/bin/env python3
"""A separate calculation of the old stored form (request 3) in exact fractions, with the air of request 11, written from the papers alone.

  old_form.py lines FILE                      the record of each request of FILE
  old_form.py vectors DIRECTORY               the files stdin and stdout of the program known_old_lines, the same at every run
  old_form.py against ARCHIVE COUNT [SEED]    COUNT random requests and, in each of the six fields, COUNT doubles through both entries of
                                              ARCHIVE, each record checked; and every answer turned back
  old_form.py pascal                          what link/old_form.pas prints

A request is a line: the way, 1 in or 2 back, a space, the room of the area in decimal, a space, then an old line as it stands, or a frame
in hexadecimal digits, up to 26 bytes. A record is the request's number, the number returned and, where the area changed, its bytes up to the
last that did: from the way in as upper-case digits, from the way back as they stand. The area has 120 bytes, each 5F before a call.
`against` prints a line for each of the first faults, and last the counts; its exit status is 0 where there is no fault. FILE may be - for
standard input.
"""
import collections
import functools
import itertools
import math
import os
import subprocess
import sys
import tempfile
from fractions import Fraction

from reference import (AIR, AIRS, FRAMES, HEX, LIMITS, ORDER, PROPANE, Q, SPOILED, STANDARD, WRONG_AIRS, Source, changed, contents, decide_case, fields,
                       frame_line, lines_of, long_line, random_case, random_fault, seeded, written)

IN, BACK = 1, 2
OLD, FRAME, AREA, MARK = 116, FRAMES[0], 120, b'\x5f'
LIMITS = LIMITS[:6]  # an old line has no air pressure
SCALES = (1000, 10, 10, 1000, 100, 1)
TAGS = (1, 2, 3, 4, 5, 6)
MOST = 10**9  # the greatest value of a double
MINUS = 1 << 63  # the sign of a double
HEAT = 3  # its place among the six fields


# The rules of the request.

@functools.lru_cache(1 << 16)
def value_of(bits):
    """The exact value of a double, given as its 64 bits; None for an infinity and for what is no number."""
    exponent, part = bits >> 52 & 2047, bits % 2**52
    if exponent == 2047:
        return None
    size = Fraction(part + (2**52 if exponent else 0)) * Fraction(2)**(max(1, exponent) - 1075)
    return -size if bits & MINUS else size


def usable(bits):
    value = value_of(bits)
    return value is not None and 0 <= value <= MOST


@functools.lru_cache(1 << 16)
def whole(bits, scale):
    """A double times the scale, rounded to a whole number, halves upward."""
    return math.floor(value_of(bits) * scale + Fraction(1, 2))


@functools.lru_cache(1 << 16)
def nearest(n, scale):
    """The bits of the double nearest to n/scale; at these sizes it is never midway between two."""
    if n == 0:
        return 0
    shift = 53 - n.bit_length() + scale.bit_length()
    if n << shift >= scale << 53:
        shift -= 1
    part, rest = divmod((2 * n << shift) + scale, 2 * scale)
    assert shift > 0 and rest and 2**52 <= part <= 2**53
    return (1074 - shift << 52) + part


def is_nearest(bits, n, scale):
    """Whether a double from +0 on is nearer to n/scale than both its neighbours."""
    gap = abs(value_of(bits) - Fraction(n, scale))
    neighbours = bits + 1, bits - 1 if bits else MINUS | 1
    return all(abs(value_of(other) - Fraction(n, scale)) > gap for other in neighbours)


def old_parts(line):
    """The four settings, the six tags, and the bits of the six doubles."""
    raw = bytes.fromhex(line.decode())
    several = [raw[at:at + 9] for at in range(4, 58, 9)]
    return list(raw[:4]), tuple(field[0] for field in several), [int.from_bytes(field[1:], 'big') for field in several]


def old_line(settings, doubles, tags=TAGS):
    return b'%02X%02X%02X%02X' % tuple(settings) + b''.join(b'%02X%016X' % both for both in zip(tags, doubles))


def nearest_line(case):
    """The old line of a case, each double the nearest."""
    return old_line(case[:4], map(nearest, case[4:], SCALES))


def decide_old(line):
    """The first of tests 1 to 6 that refuses an old line, else 0; and its fields as a frame has them."""
    if len(line) != OLD:
        return 1, None
    if line.translate(None, HEX):
        return 2, None
    settings, tags, doubles = old_parts(line)
    if tags != TAGS:
        return 15, None
    if not all(map(usable, doubles)):
        return 16, None
    case = settings + list(map(whole, doubles, SCALES)) + [STANDARD]
    lost = case[4 + HEAT] == 0 and value_of(doubles[HEAT]) > 0
    # a lost heat is a quantity outside its values, as -1 would be
    return decide_case(changed(case, heat=-1) if lost else case), case


def way_in(line, room):
    """The number returned for an old line, and the bytes written."""
    number, case = decide_old(line)
    number = number or (8 if room < FRAME else 0)
    return number, b'' if number else bytes.fromhex(frame_line(case).decode())


def way_back(frame, room):
    """The number returned for a frame, and the characters written."""
    if len(frame) not in FRAMES:
        return 1, b''
    case = fields(frame)
    number = decide_case(case) or (19 if case[AIR] != STANDARD else 8 if room < OLD else 0)
    return number, b'' if number else nearest_line(case)


def record(way, room, text):
    """The record that is due, without its number."""
    number, written = way_in(text, room) if way == IN else way_back(bytes.fromhex(text.decode()), room)
    shown = written.rstrip(MARK)
    return b'%d' % number + (b' ' + (shown.hex().upper().encode() if way == IN else shown) if shown else b'')


def request(text):
    way, room, rest = text.split(b' ', 2)
    return int(way), int(room), rest


def show(name):
    for number, text in enumerate(lines_of(contents(name)), start=1):
        sys.stdout.buffer.write(b'%d %s\n' % (number, record(*request(text))))
    return 0


# Holding the library's records against this calculation, and its answers against each other.

HERE = os.path.dirname(os.path.abspath(__file__))
SHOWN = 20


class Tally:
    """The library behind the driver old_form.c, the faults found in it, and what it was asked."""

    def __init__(self, archive, directory):
        self.program = os.path.join(directory, 'old_form')
        self.faults, self.verdicts, self.turned, self.unchanged = 0, collections.Counter(), 0, 0
        subprocess.run([os.environ.get('CC', 'gcc'), '-std=c11', '-O2', '-Wall', '-Wextra', '-pedantic', '-I' + os.path.join(HERE, '..', 'link'),
                        os.path.join(HERE, 'old_form.c'), archive, '-o', self.program], check=True)

    def fault(self, asked, text):
        self.faults += 1
        if self.faults <= SHOWN:
            print('%d %d %s: %s' % (asked[0], asked[1], asked[2].decode('latin-1'), text))

    def records(self, requests):
        """The records of requests, without their numbers; None for one that is missing or has another number."""
        text = b''.join(b'%d %d %s\n' % asked for asked in requests)
        lines = lines_of(subprocess.run([self.program], input=text, stdout=subprocess.PIPE, check=True).stdout)
        pairs = (line.partition(b' ')[::2] for line in lines)
        numbered = [body if head == b'%d' % number else None for number, (head, body) in enumerate(pairs, start=1)]
        return (numbered + [None] * len(requests))[:len(requests)]

    def check(self, requests):
        """Each record against the one that is due, then every answer turned back."""
        answered = []
        for asked, stands in zip(requests, self.records(requests)):
            due = record(*asked)
            self.verdicts[asked[0], due.split(b' ')[0].decode()] += 1
            if stands != due:
                self.fault(asked, '%s is due, %s stands' % (due.decode(), stands and stands.decode('latin-1')))
            elif due[:1] == b'0':
                answered.append((asked, (BACK + IN - asked[0], AREA, answer_of(asked[0], stands))))
        for (asked, turned), stands in zip(answered, self.records([turned for _, turned in answered])):
            self.check_turned(asked, answer_of(turned[0], stands or b''))

    def check_turned(self, asked, back):
        # a frame of 24 bytes comes back in 22
        same = back == asked[2] if asked[0] == IN else back == asked[2].upper()[:2 * FRAME]
        self.turned += 1
        self.unchanged += same
        if same != (asked[0] == BACK or comes_back(asked[2])):
            self.fault(asked, 'turned back it is %s' % back.decode('latin-1'))


def answer_of(way, stands):
    """What an accepted request wrote: the digits of a frame, or an old line. A frame may end as the area was marked."""
    shown = stands.partition(b' ')[2]
    return shown + (MARK.hex().upper().encode() * FRAME)[len(shown):2 * FRAME] if way == IN else shown


def comes_back(line):
    """Whether an accepted old line comes back unchanged: each double the nearest, none minus zero, all letters upper case."""
    doubles = old_parts(line)[2]
    return line == line.upper() and all(bits < MINUS and is_nearest(bits, whole(bits, scale), scale) for bits, scale in zip(doubles, SCALES))


# Doubles to try, as their bits.

ENDLESS = 2047 << 52
BILLION = nearest(MOST, 1)
NO_NUMBERS = ENDLESS | 1 << 51, ENDLESS | 1, MINUS | ENDLESS | 1 << 51, MINUS | ENDLESS | 1, 2**64 - 1
UNUSABLE = (ENDLESS, MINUS | ENDLESS) + NO_NUMBERS + (MINUS | 1, BILLION + 1)
SMALL = 1, 2**52 - 1, 2**52  # the least, the greatest of those without a leading 1, and the next
CORNERS = UNUSABLE + SMALL + (0, MINUS, BILLION, BILLION - 1, ENDLESS - 1, MINUS | BILLION, MINUS | 2**52)
ROOMS = 0, 21, 22, 23, 115, 116, 117, 120


def half(n, scale):
    """The double nearest to the half above n, of the scale."""
    return nearest(2 * n + 1, 2 * scale)


def exact_half(k, scale):
    """The half that is a double: the k-th odd multiple of the scale's odd factor, over twice the scale."""
    return nearest((2 * k + 1) * (scale // (scale & -scale)), 2 * scale)


def beside(source, n, scale):
    """A double that belongs to n or to a neighbour: the nearest, the half above or below, each with neighbours, or any between."""
    kind = source.below(5)
    if kind == 0:
        return nearest(max(0, 1024 * n + source.below(1024) - 512), 1024 * scale)
    return max(0, nearest(max(0, 2 * n + (0, 0, 0, 1, -1)[kind]), 2 * scale) + source.choice((0, 0, 0, 1, -1, 2, -2)))


def random_double(source, field):
    """Within a field's limits and about them, at its halves, anywhere up to a billion, at the corners, or any bits."""
    scale, (low, high) = SCALES[field], LIMITS[field]
    kind = source.below(16)
    if kind == 0:
        return source.below(2**64)
    if kind == 1:
        return source.choice(CORNERS) ^ (MINUS if source.chance(10) else 0)
    if kind == 2:
        return source.below(64) + 992 << 52 | source.below(2**52)
    if kind == 3:
        return beside(source, source.corner(0, MOST * scale), scale)
    if kind < 6:
        return exact_half(source.corner(0, high), scale) + source.below(3) - 1
    return beside(source, source.corner(low, high), scale)


# Requests to try.

CASE = fields(bytes.fromhex(PROPANE.decode()))
BARE = changed(CASE, substance=47)  # without its heat it is refused
# the tests of each way in their order, those of a source without airs and all
TESTS = {IN: (1, 2, 15, 16, 3, 12, 13, 14, 5, 6, 8), BACK: (1, 3, 12, 13, 14, 5, 6, 8)}
ALL_TESTS = {IN: TESTS[IN], BACK: (1, 3, 12, 13, 14, 5, 6, 19, 8)}


def spoiled(way, numbers):
    """A request to which exactly these refusals apply. The tag is the last one and the double the first, so that a field at a time is too little."""
    case, room = BARE, (21, 115)[way - IN] if 8 in numbers else AREA
    for refusal, new in ORDER[:-1] + ((19, dict(air=5000)),):
        case = changed(case, **new) if refusal in numbers else case
    if way == BACK:
        line = frame_line(case)
        return way, room, line[:-2] if 1 in numbers else line
    doubles = list(map(nearest, case[4:], SCALES))
    doubles[0] |= MINUS if 16 in numbers else 0
    line = old_line(case[:4], doubles, TAGS[:5] + (7 if 15 in numbers else 6,))
    line = line[:114] + b'G0' if 2 in numbers else line
    return way, room, line[:115] if 1 in numbers else line


def spoiled_case(source):
    """A random case; one in five has a field outside its values, or no heat, and some have several."""
    case = random_case(source)
    while source.chance(20):
        case = changed(case, **random_fault(source))
    return changed(case, substance=source.choice((0, 25, 47)), heat=0) if source.chance(2) else case


def random_text(source, line):
    """An old line in letters of either case; one in fourteen is damaged."""
    line = bytearray(line)
    kind = source.below(100)
    if kind < 2:
        del line[source.corner(0, OLD - 1):]
    elif kind < 3:
        del line[source.choice((44, 48, 58)):]
    elif kind < 4:
        line.insert(source.below(OLD + 1), source.choice(HEX))
    elif kind < 7:
        line[source.corner(0, OLD - 1)] = source.choice(b'/:@G`g \r\x00\x80\xb0\xc1\xff')
    elif kind < 15:
        return bytes(line).lower()
    elif kind < 20:
        line = bytes(line)
        return b''.join(line[at:at + 1].lower() if source.chance(50) else line[at:at + 1] for at in range(len(line)))
    return bytes(line)


def random_old(source):
    """The old line of a random case: each double its nearest, one beside it, or any; some with a tag out of place."""
    case, doubles, tags = spoiled_case(source), [], list(TAGS)
    several = source.below(4)
    for field, (n, scale) in enumerate(zip(case[4:], SCALES)):
        kind = source.below(12)
        doubles.append(random_double(source, field) if kind == several == 0 else beside(source, n, scale) if kind < several else nearest(n, scale))
    while source.chance(4):
        field = source.below(6)
        tags[field] = tags[field] ^ 1 << source.below(8) if source.chance(50) else source.below(8)
    return random_text(source, old_line(case[:4], doubles, tags))


def random_frame(source):
    line = written(source, spoiled_case(source))
    kind = source.below(100)
    if kind < 3:
        line = line[:2 * source.below(FRAME)]
    elif kind < 5:
        line += b'00' * (1 + source.below(2))
    return line.lower() if source.chance(10) else line


def random_request(source):
    """Three in five are old lines; one in eight has one to three things wrong, whatever they are."""
    way = IN if source.chance(60) else BACK
    if source.chance(12):
        tests = ALL_TESTS if source.airs else TESTS
        return spoiled(way, [source.choice(tests[way]) for _ in range(3)])
    room = source.choice(ROOMS) if source.chance(15) else AREA
    return way, room, random_old(source) if way == IN else random_frame(source)


def good_line(source):
    """The nearest line of an accepted case."""
    case = random_case(source)
    return nearest_line(case) if decide_case(case) == 0 else good_line(source)


def field_requests(source, count, field):
    """Doubles in one field of lines that are good otherwise."""
    lines, at = [good_line(source) for _ in range(64)], 10 + 18 * field
    for _ in range(count):
        line = source.choice(lines)
        yield IN, AREA, line[:at] + b'%016X' % random_double(source, field) + line[at + 16:]


def against(archive, count, seed):
    source = seeded(seed)
    with tempfile.TemporaryDirectory() as directory:
        tally = Tally(archive, directory)
        tally.check([random_request(source) for _ in range(count)])
        for field in range(6):
            tally.check(list(field_requests(source, count, field)))
    for way, name in ((IN, 'way in'), (BACK, 'way back')):
        counts = {number: n for (other, number), n in tally.verdicts.items() if other == way}
        refused = ' '.join('%s:%d' % (number, counts.get(number, 0)) for number in map(str, ALL_TESTS[way]))
        print('%s: %d requests, %d accepted, refused %s' % (name, sum(counts.values()), counts.get('0', 0), refused))
    print('%d answers turned back, %d of them to what was given; %d faults' % (tally.turned, tally.unchanged, tally.faults))
    return 1 if tally.faults else 0


# The data of known_old_lines.

LINE = nearest_line(CASE)


def line_with(case, field, bits):
    """The nearest line of a case with another double in a field."""
    doubles = list(map(nearest, case[4:], SCALES))
    doubles[field] = bits
    return old_line(case[:4], doubles)


def case_with(field, n):
    return CASE[:4 + field] + [n] + CASE[5 + field:]


def both_ways(case):
    """A case whose quantities fit into their fields."""
    yield IN, AREA, nearest_line(case)
    yield BACK, AREA, frame_line(case)


def known():
    """The propane example in letters of both cases, Q, a case that is beyond, and bytes that are the area's mark."""
    mixed = bytes(ch if at % 3 else ord(chr(ch).lower()) for at, ch in enumerate(LINE))
    for line in (LINE, LINE.lower(), mixed):
        yield IN, AREA, line
    for line in (PROPANE, PROPANE.lower()):
        yield BACK, AREA, line
    for case in (Q, changed(Q, r=10**6), changed(CASE, body=95), changed(CASE, mass=0xABCDEF, c=0xFED, s=0xCBA, heat=0xBCDE, r=0xEFABC)):
        yield from both_ways(case)


def lengths():
    for line in (b'', LINE[:1], PROPANE, LINE[:44], LINE[:115], LINE + b'0', LINE + b'\r', LINE + b'00', LINE * 2, b'x' + LINE[1:-1], LINE + b'G'):
        yield IN, AREA, line
    frame = frame_line(changed(CASE, substance=76))
    for line in (b'', PROPANE[:2], PROPANE[:42], PROPANE + b'00', PROPANE + b'2792', frame[:42], frame + b'00'):
        yield BACK, AREA, line


def digits():
    """The characters beside the digits' three ranges at a byte's high and low half, and others at both ends and between."""
    places = itertools.cycle((0, 115, 8, 9, 10, 25, 60, 61, 98, 99, 26, 7, 114, 1, 44, 43))
    for ch in b'//::@@GG``gg \r\x00_\x80\xb0\xc1\xe6\xff':
        at = next(places)
        yield IN, AREA, LINE[:at] + bytes([ch]) + LINE[at + 1:]


def tags():
    """Each tag spoiled alone, by a bit or by a neighbour, and two exchanged."""
    settings, _, doubles = old_parts(LINE)
    for field, tag in enumerate(TAGS):
        for wrong in (0, tag | 16, tag | 128):
            yield IN, AREA, old_line(settings, doubles, TAGS[:field] + (wrong,) + TAGS[field + 1:])
    for field in range(5):
        yield IN, AREA, old_line(settings, doubles, TAGS[:field] + (TAGS[field + 1], TAGS[field]) + TAGS[field + 2:])


def corners():
    """Each double's place: what is not usable, the least ones, minus zero, a billion."""
    for field in range(6):
        several = UNUSABLE if field == 0 else (ENDLESS, NO_NUMBERS[field - 1], MINUS | 1, BILLION + 1)
        for bits in several + (1, MINUS, BILLION):
            yield IN, AREA, line_with(CASE, field, bits)
    for bits in SMALL + (0, MINUS, MINUS | 1):
        yield IN, AREA, line_with(CASE, HEAT, bits)
        yield IN, AREA, line_with(BARE, HEAT, bits)


def halves():
    """Each scale: halves that are doubles and halves that are not, at the limits and within, with both neighbours; the nearest and its neighbours."""
    for field, (scale, (_, high)) in enumerate(zip(SCALES, LIMITS)):
        several = [half(0, scale), half(high, scale), exact_half(0, scale), exact_half(3 + field % 2, scale)]
        for bits in several + [nearest(high - 1 - field % 2, scale)]:
            for by in (-1, 0, 1):
                yield IN, AREA, line_with(CASE, field, bits + by)
    for by in (-1, 0):
        yield IN, AREA, line_with(BARE, HEAT, half(0, 1000) + by)


def limits():
    """Each field at its ends and past them; then numbers that would fit after a cut to the field's bytes, and the greatest ones."""
    for field, (_, high) in enumerate(LIMITS):
        for n in (0, 1, high, high + 1):
            yield from both_ways(case_with(field, n))
    for field, size in enumerate((4, 2, 2, 4, 4, 2)):
        yield IN, AREA, line_with(CASE, field, nearest(256**size + 1, SCALES[field]))
        yield BACK, AREA, frame_line(case_with(field, 256**size - 1))
    for case in (CASE[:4] + [low for low, _ in LIMITS], CASE[:4] + [high for _, high in LIMITS], BARE[:4] + [1] * 6):
        yield from both_ways(case + [STANDARD])


def rooms():
    for room in ROOMS:
        yield IN, room, LINE
        yield BACK, room, PROPANE


def settings():
    for _, new in SPOILED[:9]:
        yield from both_ways(changed(CASE, **new))
    for substance in (0, 1, 25, 47, 74, 75, 76, 255):
        yield from both_ways(changed(CASE, substance=substance, heat=0))
    for substance in (0, 25, 47):
        yield from both_ways(changed(CASE, substance=substance, heat=1))


def order():
    """Any two refusals at once."""
    for way in (IN, BACK):
        for numbers in itertools.combinations(TESTS[way], 2):
            asked = spoiled(way, numbers)
            assert record(*asked) == b'%d' % numbers[0]
            yield asked


def airs():
    """The way back of frames with an air pressure: the standard one, all others, its limits, other lengths, rooms, and 19 with each other test."""
    for case in (CASE, BARE, Q, changed(CASE, body=95), changed(CASE, r=10**6), changed(CASE, mass=0xABCDEF, c=0xFED, s=0xCBA, heat=0xBCDE, r=0xEFABC)):
        yield BACK, AREA, long_line(case)
    yield BACK, AREA, long_line(CASE).lower()
    for air in AIRS + (5215, 10096, 10386) + WRONG_AIRS:
        yield BACK, AREA, long_line(changed(CASE, air=air))
    line = long_line(changed(CASE, air=5000))
    yield from ((BACK, AREA, other) for other in (line[:46], long_line(CASE)[:46], long_line(changed(CASE, substance=76))[:46]))
    for room in (0, 22, 24, 44, 48, 115, 116, 117):
        yield from ((BACK, room, other) for other in (long_line(CASE), line)[:1 if room > OLD else 2])
    for number in TESTS[BACK]:
        asked = spoiled(BACK, (number, 19))
        assert record(*asked) == b'%d' % (19 if number == 8 else number)
        yield asked
    for _, new in ORDER[:-1]:
        yield BACK, AREA, long_line(changed(BARE, air=11001, **new))
        yield BACK, AREA, long_line(changed(BARE, **new))


def vectors(directory):
    groups = known(), lengths(), digits(), tags(), corners(), halves(), limits(), rooms(), settings(), order()
    source = Source(1)
    requests = list(dict.fromkeys(itertools.chain(*groups, (random_request(source) for _ in range(20)), airs())))
    with open(os.path.join(directory, 'stdin'), 'wb') as asked, open(os.path.join(directory, 'stdout'), 'wb') as records:
        for number, each in enumerate(requests, start=1):
            asked.write(b'%d %d %s\n' % each)
            records.write(b'%d %s\n' % (number, record(*each)))
    return 0


# The text of link/old_form.pas.

NAMES = (
    ('mass', 'kg'), ('mean concentration', 'g/m3'), ('stoichiometric concentration', 'g/m3'), ('heat', 'MJ/kg'), ('distance', 'm'),
    ('body mass', 'kg'),
)
VALUES = '8000 140 77 46.4 100 70'
# title, the six values as they are entered, the tags, and the room of each way
PASCAL = (
    ('propane', VALUES, TAGS, FRAME, OLD), ('decimals that are no binary fractions', '0.1 0.2 0.3 0.7 0.01 1', TAGS, FRAME, OLD),
    ('more decimals than a frame keeps', '12.3456 140.06 77.04 46.40049 99.995 70.5', TAGS, FRAME, OLD),
    ('minus zero for the heat', '8000 140 77 -0 100 70', TAGS, FRAME, OLD), ('two tags exchanged', VALUES, (1, 3, 2, 4, 5, 6), FRAME, OLD),
    ('a distance below zero', '8000 140 77 46.4 -100 70', TAGS, FRAME, OLD),
    ('a body mass that is no number', '8000 140 77 46.4 100 none', TAGS, FRAME, OLD),
    ('a heat too small for a frame', '8000 140 77 0.0004 100 70', TAGS, FRAME, OLD),
    ('an area of 21 bytes', VALUES, TAGS, 21, OLD), ('an area of 115 characters', VALUES, TAGS, FRAME, 115),
)


def entered(word):
    """The bits of a decimal, or of what is no number."""
    if word == 'none':
        return ENDLESS | 1
    size = Fraction(word.lstrip('-'))
    return nearest(size.numerator, size.denominator) | (MINUS if word[0] == '-' else 0)


def verdict(way, number, kept):
    """A way's verdict, and what a refusal keeps."""
    return ['  %s: refusal %d' % (way, number), '    %d bytes of the area kept' % kept] if number else ['  %s: accepted' % way]


def decimals(bits):
    return '%d.%06d' % divmod(whole(bits, 10**6), 10**6)


def pascal_lines(title, values, tags, room, room_back):
    line = old_line(CASE[:4], map(entered, values.split()), tags)
    number, frame = way_in(line, room)
    yield from [title, '    ' + line.decode()] + verdict('way in', number, FRAME)
    if number:
        return
    number, back = way_back(frame, room_back)
    yield from ['    ' + frame.hex().upper()] + verdict('way back', number, OLD)
    if number == 0:
        yield from ['    ' + back.decode(), '    the line that was given' if back == line else '    another line']
        for (name, unit), bits in zip(NAMES, old_parts(back)[2]):
            yield '    %s %s %s' % (name, decimals(bits), unit)


def pascal():
    for several in PASCAL:
        for text in pascal_lines(*several):
            print(text)
    return 0


def main(words):
    if len(words) == 2 and words[0] == 'lines':
        return show(words[1])
    if len(words) == 2 and words[0] == 'vectors':
        return vectors(words[1])
    if len(words) in (3, 4) and words[0] == 'against':
        return against(words[1], int(words[2]), words[3:])
    if words == ['pascal']:
        return pascal()
    print(__doc__)
    return 2


if __name__ == '__main__':
    sys.exit(main(sys.argv[1:]))
