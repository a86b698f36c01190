#!/usr/bin/env python3
"""A separate calculation of written frames and of the one spelling of a case (request 9), with the air of request 11, in whole numbers and from the
rules alone.

  writing.py lines FILE                      the record of each request of FILE
  writing.py vectors DIRECTORY               the files stdin and stdout of the program known_writings, the same at every run
  writing.py against ARCHIVE COUNT [SEED]    COUNT random requests through the three entries of ARCHIVE, each record checked; what was written
                                             is spelled again, and every accepted case is compared with a partner

A request is a line of three parts with a space between: the way (1 from fields, 2 a frame spelled, 3 a line spelled), the room of the area,
and for way 1 eleven decimal numbers with a space between, each below 10^19, for way 2 the digits of up to 26 bytes, for way 3 any line.
A record is the request's number, what was returned and, if the area is not as it was, its bytes up to the last that differs: after way 1 in
upper-case digits, else as they stand. Before each call all 52 bytes of the area are 5F.
`against` shows the first faults and then the counts; its exit status is 0 if nothing was at fault. For FILE, - is standard input.
"""
import collections
import itertools
import os
import subprocess
import sys
import tempfile

from reference import (AIR, AIR_SPOILED, AIRS, FRAMES, HEX, LIMITS, ORDER, PROPANE, Q, SIZES, STANDARD, SUBSTANCES, WRONG_AIRS, Source, changed, contents,
                       decide_case, fields, frame_line, lines_of, long_line, random_case, random_fault, seeded, written)

FIELDS, FRAME, LINE = WAYS = 1, 2, 3
AREA, MARK = 52, b'\x5f'
HEAT = 7  # its place among the eleven numbers
MOST = 10**19 - 1  # the greatest number of a request
VALUES = ((0, 75), (0, 1), (0, 1), (1, 4)) + LIMITS
# in J/g; None where the table has a dash
TABLE_HEAT = {number: beta and 440 * beta for number, (_, beta) in SUBSTANCES.items()}


# The rules of the request.

def spelled(case):
    """The case with heat 0 in the place of the table's."""
    return changed(case, heat=0) if case[HEAT] == TABLE_HEAT[case[0]] else case


def effective(case):
    """The case with the effective heat: what two cases of one spelling agree in."""
    return changed(case, heat=case[HEAT] or TABLE_HEAT[case[0]])


def decided(way, text):
    """The first of tests 1 to 6 that refuses, else 0; and the eleven numbers, where there are so many. A frame too is given by its digits."""
    if way != FIELDS and len(text) not in (2 * size for size in FRAMES):
        return 1, None
    if way == LINE and text.translate(None, HEX):
        return 2, None
    case = [int(word) for word in text.split(b' ')] if way == FIELDS else fields(bytes.fromhex(text.decode()))
    return decide_case(case), case


def record(way, room, text):
    """The record that is due, but for the request's number."""
    number, case = decided(way, text)
    if number:
        return b'%d' % number
    frame = bytes.fromhex(frame_line(case).decode())
    if room < (len(frame) if way == FIELDS else 2 * len(frame)):
        return b'8'
    # bytes like the mark do not show at the end of a frame
    return b'0 ' + (frame.rstrip(MARK).hex().upper().encode() if way == FIELDS else frame_line(spelled(case)))


def show(name):
    for number, line in enumerate(lines_of(contents(name)), start=1):
        way, room, text = line.split(b' ', 2)
        sys.stdout.buffer.write(b'%d %s\n' % (number, record(int(way), int(room), text)))
    return 0


# Holding the library's records against this calculation, and its spellings against each other.

HERE = os.path.dirname(os.path.abspath(__file__))
SHOWN = 20


class Tally:
    """The library behind the driver writing.c, with what it was asked and how often it was at fault."""

    def __init__(self, archive, directory):
        self.program = os.path.join(directory, 'writing')
        self.faults, self.verdicts, self.again, self.pairs, self.alike = 0, collections.Counter(), 0, 0, 0
        subprocess.run([os.environ.get('CC', 'gcc'), '-std=c11', '-O2', '-Wall', '-Wextra', '-pedantic', '-I' + os.path.join(HERE, '..', 'link'),
                        os.path.join(HERE, 'writing.c'), archive, '-o', self.program], check=True)

    def hold(self, asked, due, stands, right):
        """Counts a fault where a record is not right, and shows the first ones."""
        self.faults += not right
        if not right and self.faults <= SHOWN:
            print('%d %d %s: %s is due, %s stands' % (asked[:2] + tuple(text.decode('latin-1') for text in (asked[2], due, stands))))
        return right

    def records(self, requests):
        """The records without their numbers, empty where one lacks or is numbered otherwise."""
        text = b''.join(b'%d %d %s\n' % asked for asked in requests)
        lines = lines_of(subprocess.run([self.program], input=text, stdout=subprocess.PIPE, check=True).stdout)
        several = (line.partition(b' ')[::2] for line in lines + [b''] * len(requests))
        return [body if head == b'%d' % number else b'' for number, (head, body) in zip(range(1, len(requests) + 1), several)]

    def check(self, requests):
        """Holds each record against the one that is due. Gives the accepted cases, each with the digits of what was written."""
        accepted = []
        for asked, stands in zip(requests, self.records(requests)):
            due = record(*asked)
            self.verdicts[asked[0], int(due.partition(b' ')[0])] += 1
            if self.hold(asked, due, stands, stands == due) and due[:1] == b'0':
                case = decided(asked[0], asked[2])[1]
                # the last byte of a frame may be the mark's
                accepted.append((case, (stands[2:] + b'5F')[:len(frame_line(case))]))
        return accepted

    def spell_again(self, accepted):
        """Asks for all that was written as a frame and as a line: a spelling comes back as it is. Gives the records."""
        for way in (FRAME, LINE):
            requests = [(way, AREA, digits) for _, digits in accepted]
            records = self.records(requests)
            self.again += len(records)
            for asked, (case, _), stands in zip(requests, accepted, records):
                due = b'0 ' + frame_line(spelled(case))
                self.hold(asked, due, stands, stands == due)
        return records

    def pair(self, source, accepted):
        """Each case with a partner: one spelling exactly where they agree with the effective heat."""
        partners = [partner(source, case) for case, _ in accepted]
        requests = [(source.choice((FRAME, LINE)), AREA, mixed(written(source, case), source.below(2**48))) for case in partners]
        for (case, _), own, other, asked, stands in zip(accepted, self.spell_again(accepted), partners, requests, self.records(requests)):
            agree = effective(case) == effective(other)
            self.pairs += 1
            self.alike += stands == own
            self.hold(asked, own if agree else b'another than ' + own, stands, stands[:2] == b'0 ' and (stands == own) == agree)

    def show(self):
        for way, name in zip(TESTS, ('from fields', 'frames spelled', 'lines spelled')):
            counts = {number: n for (other, number), n in self.verdicts.items() if other == way}
            refused = ' '.join('%d:%d' % (number, counts.get(number, 0)) for number in TESTS[way])
            print('%s: %d requests, %d accepted, refused %s' % (name, sum(counts.values()), counts.get(0, 0), refused))
        print('%d spelled again, %d pairs, %d of them with one spelling; %d faults' % (self.again, self.pairs, self.alike, self.faults))


# Requests to try.

CASE = fields(bytes.fromhex(PROPANE.decode()))
BARE = changed(CASE, substance=47)  # refused without its heat
ROOMS = 0, 21, 22, 23, 43, 44, 45, 52
AIR_ROOMS = 22, 23, 24, 25, 44, 46, 47, 48, 49
# the tests of each way in their order
TESTS = {FIELDS: (3, 12, 13, 14, 5, 6, 8), FRAME: (1, 3, 12, 13, 14, 5, 6, 8), LINE: (1, 2, 3, 12, 13, 14, 5, 6, 8)}
# added to the table's heat; the last two keep its low two bytes
BESIDE = 0, 0, 0, 1, -1, 256, -256, 65536, -65536


def text_of(way, case, line_of=frame_line):
    return b' '.join(b'%d' % n for n in case) if way == FIELDS else line_of(case)


def with_number(case, at, n):
    return case[:at] + [n] + case[at + 1:]


def mixed(line, bits):
    """The line with its letters in lower case where a bit is set."""
    return b''.join(line[at:at + 1].lower() if bits >> at & 1 else line[at:at + 1] for at in range(len(line)))


def spoiled(way, numbers, air=STANDARD):
    """A request that each of these tests refuses. A wrong length is one too much, so that every field can still be read."""
    case = changed(BARE, air=air)
    for number, new in ORDER[:-1]:
        case = changed(case, **new) if number in numbers else case
    text = text_of(way, case)
    text = text[:34] + b'G' + text[35:] if 2 in numbers else text
    text += (b'00' if way == FRAME else b'0') if 1 in numbers else b''
    return way, length_of(way, case) - 1 if 8 in numbers else AREA, text


def length_of(way, case):
    """How many bytes or characters are written of a case."""
    return len(frame_line(case)) // (2 if way == FIELDS else 1)


def tried_case(source):
    """A random case, two in five at a table heat, mostly its own, or beside it; some have numbers outside their values, or no heat at all."""
    case = random_case(source)
    if source.chance(40):
        table = TABLE_HEAT[case[0] if source.chance(75) else source.below(76)]
        case = changed(case, heat=max(0, (table or 44000) + source.choice(BESIDE)))
    while source.chance(12):
        case = changed(case, **random_fault(source))
    return changed(case, substance=source.choice((0, 25, 47)), heat=0) if source.chance(2) else case


def widened(source, case):
    """Some numbers raised so far that a cut to their field's bytes, or to 32 bits, would undo it; or set to anything."""
    while source.chance(12):
        at = source.below(len(case) if source.airs else AIR)
        low = case[at] % 2**32
        past = low + 256**SIZES[at], low + 2**32 * (1 + source.below(2**31)), source.corner(0, MOST)
        case = with_number(case, at, source.choice(past))
    return case


def random_text(source, way, line):
    """The line in any letters; one in ten has another length or, if it stays a line, a wrong character."""
    kind = source.below(100)
    if kind < 3:
        line = line[:2 * source.below(len(line) // 2) + (source.below(2) if way == LINE else 0)]
    elif kind < 6:
        at = source.choice((len(line), 2 * source.below(len(line) // 2)))
        line = line[:at] + source.choice((b'0', b'00', b'\r') if way == LINE else (b'00', b'0000')) + line[at:]
    elif kind < 10 and way == LINE:
        at = source.below(len(line))
        line = line[:at] + source.choice((b'/', b':', b'@', b'G', b'`', b'g', b' ', b'\r', b'\x00', b'\xb0', b'\xc1', b'\xff')) + line[at + 1:]
    return mixed(line, source.choice((0, -1, source.below(2**48 if source.airs else 2**44))))


def random_request(source):
    way = source.choice((FIELDS, FRAME, LINE))
    if source.chance(6):
        return spoiled(way, [source.choice(TESTS[way]) for _ in range(3)], source.choice(AIRS) if source.airs else STANDARD)
    several = ROOMS + AIR_ROOMS if source.airs else ROOMS
    room = source.choice(several + (source.below(AREA + 1),)) if source.chance(15) else AREA
    case = tried_case(source)
    return way, room, text_of(way, widened(source, case)) if way == FIELDS else random_text(source, way, written(source, case))


def partner(source, case):
    """An accepted case: the same, the same with its heat given the other way, or one with another number in one place."""
    table = TABLE_HEAT[case[0]]
    if case[HEAT] in (0, table) and source.chance(30):
        return changed(case, heat=table - case[HEAT])
    other = case
    while source.chance(60) or decide_case(other):
        at = source.below(len(case))
        n = source.choice((case[at] - 1, case[at] + 1, source.corner(*VALUES[at])))
        other = with_number(case, at, min(VALUES[at][1], max(VALUES[at][0], n)))
    return other


def against(archive, count, seed):
    source = seeded(seed)
    with tempfile.TemporaryDirectory() as directory:
        tally = Tally(archive, directory)
        tally.pair(source, tally.check([random_request(source) for _ in range(count)]))
    tally.show()
    return 1 if tally.faults else 0


# The data of known_writings.

# both ends of each class, beside the dash, the greatest table heat and the least
TABLED = 1, 10, 11, 24, 26, 27, 28, 57, 58, 75, 3, 55
LETTERS = [0x1F, 0, 1, 4, 0xFEDCBA9, 0xBCDE, 0xABCD, 0xFEDC, 0xEFABC, 0x1EF, STANDARD]


def by_ways(ways, *cases):
    return ((way, AREA, text_of(way, case)) for case in cases for way in ways)


def known():
    """Propane and a case full of letters, in letters of both kinds; a case that is beyond; a frame that ends in the area's mark."""
    for line in (PROPANE, frame_line(LETTERS)):
        for bits in (0, -1, 0x55555555555):
            yield LINE, AREA, mixed(line, bits)
    yield from by_ways((FIELDS, FRAME), CASE, LETTERS)
    yield from by_ways((FIELDS, FRAME, LINE), changed(Q, r=10**6))
    yield from by_ways((FIELDS,), changed(CASE, body=95))


def damaged():
    """Other lengths; then what stands beside the three ranges of digits, and others, at both halves of a byte."""
    for line in (b'', PROPANE[:22], PROPANE[:43], PROPANE + b'0', PROPANE + b'\r', PROPANE * 2, b'x' + PROPANE[1:-1]):
        yield LINE, AREA, line
    for digits in (b'', PROPANE[:2], PROPANE[:42], PROPANE + b'00', PROPANE + b'2792', frame_line(changed(CASE, substance=76))[:42]):
        yield FRAME, AREA, digits
    for at, ch in zip((0, 43, 34, 7, 26, 9, 42, 1, 20, 11, 15, 24, 30), b'/:@G`g \r\x00_\xb0\xc1\xff'):
        yield LINE, AREA, PROPANE[:at] + bytes([ch]) + PROPANE[at + 1:]


def limits():
    """Each number at its ends and past them, as great as its bytes allow, and so great that a cut to them, or to 32 bits, would make it good."""
    for at in range(AIR):
        yield from limits_at(at)
    yield from by_ways((FIELDS,), with_number(CASE, 9, MOST), [MOST] * 10 + [STANDARD], [high for _, high in VALUES[:AIR]] + [STANDARD])


def limits_at(at):
    """One number of the eleven."""
    (low, high), size, own = VALUES[at], SIZES[at], CASE[at]
    for n in sorted({max(0, low - 1), low, high, high + 1}):
        yield from by_ways((FIELDS, FRAME), with_number(CASE, at, n))
    yield from by_ways((FRAME,), with_number(CASE, at, 256**size - 1))
    for n in (256**size + own, 2**32 + own, MOST - MOST % 2**32 + own):
        yield from by_ways((FIELDS,), with_number(CASE, at, n))


def heats():
    """The table's heat of every substance; of some its neighbours, none, and an end; heats that agree with it in two bytes; substances without one."""
    for substance, table in TABLE_HEAT.items():
        if table:
            yield (FRAME, LINE)[substance % 2], AREA, frame_line(changed(CASE, substance=substance, heat=table))
    for number, substance in enumerate(TABLED):
        table = TABLE_HEAT[substance]
        for place, heat in enumerate((table, table - 1, table + 1, 0, (1, 150000)[number % 2])):
            way = (FRAME, LINE)[(number + place) % 2]
            yield way, AREA, frame_line(changed(CASE, substance=substance, heat=heat)).lower()
    for substance in (1, 17, 75):
        yield from by_ways((FIELDS,), changed(CASE, substance=substance, heat=TABLE_HEAT[substance]))
    yield from by_ways((FRAME,), changed(CASE, heat=TABLE_HEAT[17] + 65536), changed(CASE, substance=3, heat=TABLE_HEAT[3] - 65536))
    for number, (heat, substance) in enumerate(itertools.product((0, 1, 44000, 46200, 150000), (0, 25, 47))):
        yield from by_ways(((FIELDS, FRAME, LINE)[(number + number // 3) % 3],), changed(CASE, substance=substance, heat=heat))


def order():
    """Any two refusals at once: the earlier is due."""
    for way, tests in TESTS.items():
        for numbers in itertools.combinations(tests, 2):
            asked = spoiled(way, numbers)
            assert record(*asked) == b'%d' % numbers[0]
            yield asked


def airs():
    """The air pressure at its ends and past them; standard air written out, and others beside it; a table's heat and a frame that ends in the mark."""
    yield from limits_at(AIR)
    for number, air in enumerate((5001, 10129, STANDARD, 10131, 0x145F, 0x2AAF)):
        for way in WAYS if air == STANDARD else (WAYS[number % 2], LINE):
            text = text_of(way, changed(CASE, air=air), long_line)
            yield way, AREA, mixed(text, (0, -1, 0x955555555555)[number % 3])
    yield from ((way, AREA, text_of(way, changed(LETTERS, air=0x2AAA), long_line)) for way in WAYS)
    yield LINE, AREA, mixed(long_line(changed(LETTERS, air=0x1FAB)), 0xAAAAAAAAAAAA)
    for number, (substance, air) in enumerate(((17, STANDARD), (17, 5000), (3, 11000), (47, 11000))):
        case = changed(CASE, substance=substance, heat=TABLE_HEAT[substance] or 46200, air=air)
        yield (FRAME, LINE)[number % 2], AREA, long_line(case)
        yield FIELDS, AREA, text_of(FIELDS, case)


def air_refusals():
    """Other lengths and characters; rooms for both lengths that are written; an air pressure that is not permitted with each test."""
    line = long_line(changed(CASE, air=11000))
    for other in (line[:45], line[:46], line[:47], line + b'0', line + b'\r', line[:44] + b'G' + line[45:], line[:47] + b'g'):
        yield LINE, AREA, other
    yield from ((FRAME, AREA, other) for other in (line[:46], long_line(CASE)[:46]))
    for way in WAYS:
        for air in (11000, STANDARD):
            case = changed(CASE, air=air)
            short = length_of(way, case)
            yield from ((way, room, text_of(way, case, long_line)) for room in (short - 1, short))
        yield way, length_of(way, CASE), text_of(way, changed(CASE, air=5000))
        for number, (_, new) in enumerate(ORDER[:-1]):
            if (number + way) % 2:
                yield way, AREA, text_of(way, changed(BARE, **{**new, 'air': WRONG_AIRS[number % 4]}))
        yield spoiled(way, (6, 8), 5000)
        yield way, 0, text_of(way, changed(BARE, **AIR_SPOILED[way % 2][1]))


def assert_laws(requests):
    """Of this calculation too: spelled twice is spelled once, and two cases have one spelling exactly where they agree with the effective heat."""
    accepted = [(record(*asked)[2:], decided(asked[0], asked[2])[1]) for asked in requests if asked[0] != FIELDS and record(*asked)[:1] == b'0']
    assert all(record(way, AREA, line) == b'0 ' + line for line, _ in accepted for way in (FRAME, LINE))
    both = {(line, tuple(effective(case))) for line, case in accepted}
    assert len(both) == len({line for line, _ in both}) == len({case for _, case in both})


def vectors(directory):
    source = Source(1)
    rooms = ((way, room, text_of(way, CASE)) for way in WAYS for room in ROOMS)
    several = (random_request(source) for _ in range(18))
    requests = list(dict.fromkeys(itertools.chain(known(), damaged(), limits(), heats(), rooms, order(), several, airs(), air_refusals())))
    assert_laws(requests)
    with open(os.path.join(directory, 'stdin'), 'wb') as asked, open(os.path.join(directory, 'stdout'), 'wb') as records:
        for number, each in enumerate(requests, start=1):
            asked.write(b'%d %d %s\n' % each)
            records.write(b'%d %s\n' % (number, record(*each)))
    return 0


def main(words):
    if len(words) == 2 and words[0] == 'lines':
        return show(words[1])
    if len(words) == 2 and words[0] == 'vectors':
        return vectors(words[1])
    if len(words) in (3, 4) and words[0] == 'against':
        return against(words[1], int(words[2]), words[3:])
    print(__doc__)
    return 2


if __name__ == '__main__':
    sys.exit(main(sys.argv[1:]))
