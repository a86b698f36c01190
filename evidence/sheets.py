#!/usr/bin/env python3
"""A separate model of the study sheet and its totals (requests 7 and 8), a plain list with holes, with the air of request 11, written from the papers;
its bytes from docs/sheets.md.

  sheets.py lines FILE                      the record of each operation of FILE, from the empty sheet on
  sheets.py vectors DIRECTORY               the files stdin and stdout of the program known_sheets, the same at every run
  sheets.py against ARCHIVE COUNT [SEED]    COUNT random operations through the four entries of ARCHIVE, every byte that is lent checked after each,
                                            and the totals through the fifth

An operation is a line: A or F and the characters of a case, which is added from the line (A) or from the frame that it spells (F); W and a
place, which is withdrawn; C, which closes the gaps; H and a place, whose case is read; T, the totals; E, an empty sheet again. A record is the
line's number and two answers, of the sheet by value and of the lent one: @ and the place of the added case; W and the digits of the withdrawn
one; C and the number of cases; H and the digits of the case that is held; E; or R and the refusal's number. A case has 44 digits, or 48 where its
air is not the standard one. The lent W and C stand without what follows, and - stands where there is no frame to add. T asks for the totals: the
number of cases, @, the place, : and the greatest upper end. That is open between two numbers, which `lines` prints; where two follow the T, = stands
for an end between them, ! for another.
`against` prints a line for every fault, and last the counts; its exit status is 0 where there is no fault. FILE may be - for standard input.
"""
import collections
import functools
import itertools
import os
import subprocess
import sys
import tempfile

from mpmath import mp

from reference import (AIR, CUBES, FRAMES, ORDER, PROPANE, Q, STANDARD, Source, air_pressure, changed, contents, cube_in, decide, decide_frame, fields,
                       frame_line, greatest_upper, lines_of, long_line, random_air, random_case, random_fault, random_line, reduced, seeded, written)
from rings import spells

PLACES = 64
FRAME, WITH_AIR = FRAMES


# The rules of the requests. A sheet is a list: place k is its element k - 1, None is a gap, and the last element is none. An upper end that is
# not known is None.

Held = collections.namedtuple('Held', 'frame upper', defaults=(None,))


def kept(frame):
    """A frame as it is read again: standard air is left out."""
    return frame[:FRAME] if fields(frame)[AIR] == STANDARD else frame


def holds(sheet, place):
    return 1 <= place <= len(sheet) and sheet[place - 1] is not None


def trimmed(sheet):
    """A place past the last that holds a case is no gap."""
    while sheet and sheet[-1] is None:
        sheet = sheet[:-1]
    return sheet


def add(sheet, refusal, held):
    """The number of the refusal, 0 for none, and the list after; the tests of the case come first."""
    number = refusal or (17 if len(sheet) == PLACES else 0)
    return number, sheet if number else sheet + [held]


def withdraw(sheet, place):
    """The number of the refusal, 0 for none, and the list after."""
    if not holds(sheet, place):
        return 18, sheet
    return 0, trimmed(sheet[:place - 1] + [None] + sheet[place:])


def close(sheet):
    return [held for held in sheet if held is not None]


def totals(sheet):
    """The number of cases, the greatest upper end, and the first place that has it; 0 for none."""
    greatest = max((held.upper for held in close(sheet)), default=0)
    place = next((place for place, held in enumerate(sheet, start=1) if held is not None and held.upper == greatest), 0)
    return len(close(sheet)), greatest, place


def refusal_of_line(line):
    """The first of tests 1 to 7 that refuses a line, else 0."""
    verdict = decide(line)
    return verdict if isinstance(verdict, int) else 0


@functools.lru_cache(1 << 16)
def refusal_of_frame(frame):
    """The first of tests 1 to 7 that refuses a frame, else 0; a frame has no test 2."""
    verdict = decide_frame(frame)
    return verdict if isinstance(verdict, int) else 0


@functools.lru_cache(1 << 16)
def exact(frame):
    """The overpressure of an accepted frame, in its own air."""
    return reduced(*decide_frame(frame))[0] * air_pressure(fields(frame))


def bounds(frame):
    """Between which an upper end lies: not below the value, and no farther from a lower end than the width rule has it."""
    value = exact(frame)
    return int(mp.ceil(value)), greatest_upper(value)


def open_totals(sheet):
    """The number of cases, the place of the greatest upper end, and its bounds, where they do not depend on what is open."""
    if not sheet:
        return 0, 0, 0, 0
    greatest = max((held.frame for held in close(sheet)), key=exact)
    least, most = bounds(greatest)
    # cases of one value are taken to have one end, as they have where it is worked by the same steps; of others no end may reach the greatest's
    assert all(exact(held.frame) == exact(greatest) or bounds(held.frame)[1] < least for held in close(sheet)), 'two ends in either order'
    place = next(place for place, held in enumerate(sheet, start=1) if held is not None and exact(held.frame) == exact(greatest))
    return len(close(sheet)), place, least, most


# The records of known_sheets.

def digits(frame):
    return frame.hex().upper().encode()


def added(sheet, kind, text):
    """The two answers to a case's characters, and the list after."""
    if not spells(text):
        return b'- -' if kind == b'F' else b'R%d -' % refusal_of_line(text), sheet
    frame = bytes.fromhex(text.decode())
    number = refusal_of_frame(frame)
    number, after = add(sheet, number, None if number else Held(kept(frame)))
    answer = b'R%d' % number if number else b'@%d' % len(after)
    return answer + b' ' + answer, after


def judged(ends, asked):
    """What is said of an end that lies between two numbers, where two are asked for: = between them, ! outside; else the end, or what it lies between."""
    if not asked or asked[1] == 0:
        return b'0' if ends == [0, 0] else b'%d-%d' % tuple(ends)
    if asked[1] < ends[0] or ends[1] < asked[0]:
        return b'!'
    assert asked[0] <= ends[0] and ends[1] <= asked[1], 'an end in part outside'
    return b'='


def answered(sheet, operation):
    """The two answers to an operation, and the list after."""
    kind, rest = operation[:1], operation[2:]
    if kind in (b'A', b'F'):
        return added(sheet, kind, rest)
    if kind == b'E':
        return b'E E', []
    if kind == b'T':
        cases, place, *ends = open_totals(sheet)
        answer = b'T%d@%d:%s' % (cases, place, judged(ends, [*map(int, rest.split())]))
        return answer + b' ' + answer, sheet
    if kind == b'C':
        after = close(sheet)
        return b'C%d C' % len(after), after
    # a place that holds no case is refused alike, whether it is read or withdrawn
    number, after = withdraw(sheet, int(rest))
    if number:
        return b'R%d R%d' % (number, number), sheet
    case = digits(sheet[int(rest) - 1].frame)
    return (b'W%s W' % case, after) if kind == b'W' else (b'H%s H%s' % (case, case), sheet)


def records(operations):
    sheet = []
    for number, operation in enumerate(operations, start=1):
        answers, sheet = answered(sheet, operation)
        yield b'%d %s\n' % (number, answers)


def show(name):
    sys.stdout.buffer.writelines(records(lines_of(contents(name))))
    return 0


# The lent sheet. Its bytes, from its start: 32 for a place, a tag, the first 22 of a frame, an upper end, the air pressure, 0 for the standard one, and
# 3 zeros, all zero for a gap. Some memory lies before it and past it.

BEFORE, SHEET, PAST, CONTENT, END = 32, 2048, 256, 32, 4
AREA = 64
MARK = b'\x5f'  # each byte of an area before a call

# A call of one of the first four entries, or the memory (S) in which the calls after it have their sheet. The lengths are those that are told.
Call = collections.namedtuple('Call', 'kind memory sheet place frame length area', defaults=(b'', SHEET, 0, b'', 0, WITH_AIR))
# What a call gives: its number, the place told, None for none, the bytes of the sheet's memory and of the area, whether the frame has its own, and
# what the call of the totals after it gives: its number and the three that are told.
Outcome = collections.namedtuple('Outcome', 'number place memory area frame totals')


def held_in(place):
    """The case of a place's bytes, whatever they are; without an air pressure it has the standard one."""
    end = 1 + FRAME
    frame, air = place[1:end], place[end + END:end + END + 2]
    return Held(kept(frame + air) if any(air) else frame, int.from_bytes(place[end:end + END], 'big'))


def place_of(held):
    """The bytes of a place."""
    if held is None:
        return bytes(CONTENT)
    upper = held.upper.to_bytes(END, 'big')
    return (b'\x01' + held.frame[:FRAME] + upper + held.frame[FRAME:]).ljust(CONTENT, b'\x00')


def listed(memory):
    """The list that any bytes stand for: a tag of 0 is a gap, any other a case."""
    starts = range(BEFORE, BEFORE + SHEET, CONTENT)
    return trimmed([held_in(memory[at:at + CONTENT]) if memory[at] else None for at in starts])


def laid(memory, sheet):
    """The memory with the bytes of a list in the place of its sheet's."""
    several = map(place_of, sheet)
    return memory[:BEFORE] + b''.join(several).ljust(SHEET, b'\x00') + memory[BEFORE + SHEET:]


def given(call):
    """The frame of a call, of the length that is told."""
    return call.frame[:call.length]


def applied(sheet, call, end=None):
    """The number that a call returns, the list after, and the case that it reads; None for none. The end is that of a case that is added."""
    short = 8 if call.sheet < SHEET else 0
    if call.kind == 'A':
        refusal = refusal_of_frame(given(call))
        return (*add(sheet, refusal or short, None if refusal else Held(kept(given(call)), end)), None)
    if short:
        return short, sheet, None
    if call.kind == 'W':
        return (*withdraw(sheet, call.place), None)
    if call.kind == 'C':
        return 0, close(sheet), None
    if not holds(sheet, call.place):
        return 18, sheet, None
    case = sheet[call.place - 1].frame
    return (8, sheet, None) if call.area < len(case) else (0, sheet, case)


def due(sheet, memory, call, end):
    """What a call has to give, and the list after."""
    number, after, case = applied(sheet, call, end)
    place = len(after) if call.kind == 'A' and number == 0 else None
    if number == 0 and call.kind != 'H':
        memory = laid(memory, after)
    told = (8, None, None, None) if call.sheet < SHEET else (0, *totals(after))
    return Outcome(number, place, memory, (case or b'').ljust(AREA, MARK), True, told), after


# Holding the library's calls against the list.

HERE = os.path.dirname(os.path.abspath(__file__))
NAMES = {'A': 'add', 'W': 'withdraw', 'C': 'close', 'H': 'case'}
NUMBERS = {'A': (1, 3, 12, 13, 14, 5, 6, 7, 8, 17), 'W': (8, 18), 'C': (8,), 'H': (8, 18)}


def spelled(call):
    """A call as the driver reads it."""
    words = {
        'S': [call.memory.hex()], 'A': [call.sheet, call.length, call.frame.hex()], 'W': [call.sheet, call.place], 'C': [call.sheet],
        'H': [call.sheet, call.place, call.area],
    }
    return ' '.join(map(str, [call.kind] + words[call.kind]))


def driven(archive, calls):
    """The records of the driver sheets.c, linked with the archive; fewer than the calls where one did not return."""
    text = ''.join(spelled(call) + '\n' for call in calls).encode()
    with tempfile.TemporaryDirectory() as directory:
        program = os.path.join(directory, 'sheets')
        subprocess.run([os.environ.get('CC', 'gcc'), '-std=c11', '-O2', '-Wall', '-Wextra', '-pedantic', '-I' + os.path.join(HERE, '..', 'link'),
                        os.path.join(HERE, 'sheets.c'), archive, '-o', program], check=True)
        return subprocess.run([program], input=text, stdout=subprocess.PIPE, check=False).stdout.decode().split('\n')[:-1]


def patched(before, word):
    """Bytes with a change, which is told as the first byte's number, a colon and the bytes; - for none."""
    if word == '-':
        return before
    at, _, bytes_there = word.partition(':')
    return before[:int(at)] + bytes.fromhex(bytes_there) + before[int(at) + len(bytes_there) // 2:]


def told(word):
    """A number that is lent; None where it has its mark."""
    return None if word == '-' else int(word)


def outcome(memory, record):
    """What a record says, and the upper end of the frame's overpressure; None for none."""
    _, number, place, sheet, area, frame, *totalled, end = record.split(' ')
    return Outcome(int(number), told(place), patched(memory, sheet), patched(MARK * AREA, area), frame == '-', tuple(map(told, totalled))), told(end)


def differing(expected, stands):
    """Where two runs of bytes differ first, and what is there."""
    at = next(at for at, both in enumerate(zip(expected, stands)) if both[0] != both[1])
    return at, expected[at], stands[at]


def faults(expected, stands):
    """What is wrong with what a call gave, as a list of sentences."""
    found = []
    if stands.number != expected.number:
        found.append('%d is due, %d is returned' % (expected.number, stands.number))
    if stands.place != expected.place:
        found.append('place %s is due, %s is told' % tuple('none' if place is None else place for place in (expected.place, stands.place)))
    if stands.memory != expected.memory:
        at, byte, other = differing(expected.memory, stands.memory)
        found.append('byte %d of the sheet has to be %d, %d stands' % (at - BEFORE, byte, other))
    if stands.area != expected.area:
        found.append('byte %d of the area has to be %d, %d stands' % differing(expected.area, stands.area))
    if not stands.frame:
        found.append('the frame is another')
    if stands.totals != expected.totals:
        found.append('the totals have to be %s, %s stand' % (expected.totals, stands.totals))
    return found


def end_faults(call, number, end):
    """What is wrong with the upper end of a case that is added, by its exact value."""
    if call.kind != 'A' or number != 0:
        return []
    least, most = bounds(given(call))
    return [] if end is not None and least <= end <= most else ['the upper end has to be from %d to %d, %s stands' % (least, most, end)]


class Tally:
    """What was asked and what came of it."""

    def __init__(self):
        self.faults, self.numbers, self.times, self.sheets = 0, collections.Counter(), collections.Counter(), collections.Counter()

    def note(self, call, number, before, after):
        self.numbers[call.kind, number] += 1
        self.times['full'] += len(before) < PLACES == len(after)
        self.times['emptied'] += before != [] == after
        self.times['gaps closed'] += call.kind == 'C' and before != after
        self.times['17 with gaps'] += number == 17 and None in before
        _, greatest, shown = totals(before)
        self.times['the greatest withdrawn'] += call.kind == 'W' and number == 0 and call.place == shown
        self.times['its place moved'] += call.kind == 'C' and number == 0 and totals(after)[2] != shown
        self.times['two as great'] += any(held is not None and held.upper == greatest for held in before[shown:])

    def fault(self, number, call, sheet, text):
        self.faults += 1
        print('call %d, %s, the last case at %d: %s' % (number, spelled(call), len(sheet), text))

    def show(self):
        for kind, name in NAMES.items():
            accepted, refused = self.numbers[kind, 0], [(n, self.numbers[kind, n]) for n in NUMBERS[kind]]
            print('%s: %d calls, %d accepted, refused %s' % (
                name, accepted + sum(n for _, n in refused), accepted, ' '.join('%d:%d' % both for both in refused)))
        times = ', '.join('%d times %s' % (self.times[what], what) for what in (
            'full', 'emptied', 'gaps closed', '17 with gaps', 'the greatest withdrawn', 'its place moved', 'two as great'))
        print('%d calls on %d empty sheets and %d of any bytes: %s; %d faults' % (
            sum(self.numbers.values()), self.sheets['empty'], self.sheets['any'], times, self.faults))


def check(calls, answers):
    """Each record against what is due. The list is carried from call to call; after a fault it goes on from the bytes that stand."""
    tally, left, number = Tally(), iter(answers), 0
    for call in calls:
        if call.kind == 'S':
            memory, sheet = call.memory, listed(call.memory)
            tally.sheets['empty' if memory == laid(memory, []) else 'any'] += 1
            continue
        number += 1
        record = next(left, None)
        if record is None or record.partition(' ')[0] != str(number):
            tally.fault(number, call, sheet, 'it did not return' if record is None else 'the record is %s' % record)
            break
        stands, end = outcome(memory, record)
        expected, after = due(sheet, memory, call, 0 if end is None else end)
        tally.note(call, expected.number, sheet, after)
        found = end_faults(call, expected.number, end) + faults(expected, stands)
        for text in found:
            tally.fault(number, call, sheet, text)
        memory, sheet = stands.memory, listed(stands.memory) if found else after
    tally.show()
    return 1 if tally.faults else 0


# Calls to try.

LENGTHS = (0, 1, 10, 21, 22, 23, 23, 24, 25, 43, 44, 45, 48, 64)
SHORT, LONG = (0, 1, 31, 32, 2016, 2047), (2049, 2079, 2080, SHEET + PAST)
AREAS = (0, 1, 21, 22, 23, 25, 64)
# what is asked for, in lots: mostly adding, mostly withdrawing, both in turn, gaps made and closed
PHASES = ('A' * 60 + 'WHC', 'A' * 12 + 'WH', 'W' * 20 + 'AH', 'W' * 50 + 'H', 'AWH', 'AAWWWHHC', 'WWWWWWWC')
# bytes for a sheet that no call has written
SPOTS = (0, 0, 0, 1, 1, 2, 127, 128, 255)


def random_bytes(source, count):
    return b''.join(source.below(2**64).to_bytes(8, 'big') for _ in range(count // 8 + 1))[:count]


def random_place(source, sheet):
    """A place that holds a case, the last one or one beside it, any about the sheet, or a number that is one of these after a cut or an overflow."""
    several = [place for place in range(1, len(sheet) + 1) if holds(sheet, place)]
    kind = source.below(100)
    if kind < 68 and several:
        return source.choice(several)
    if kind < 86:
        return len(sheet) + source.choice((0, 0, 0, 0, 1))
    if kind < 94:
        return source.below(PLACES + 3)
    return source.choice((0, PLACES + 1, 2**32, 2**63, 2**64 - 1) + tuple(2**bits + source.choice(several or [1]) for bits in (6, 8, 16, 32, 59)))


def accepted_line(source):
    while True:
        line = written(source, random_case(source))
        if refusal_of_line(line) == 0:
            return line


def random_characters(source, sheet):
    """The line of a case: mostly accepted; else one that the sheet holds already, a spoiled one, any bytes, Rx at 24 or a cm past it, or any line."""
    kind = source.below(100)
    if kind < 5 and sheet:
        return written(source, fields(source.choice(close(sheet)).frame))
    if kind < 14:
        return frame_line(changed(random_case(source), **random_fault(source)))
    if kind < 16:
        return frame_line(changed(random_case(source), substance=source.choice((0, 25, 47)), heat=0))
    if kind < 17:
        return digits(random_bytes(source, FRAMES[source.airs and source.below(2)]))
    if kind < 20:
        number = source.below(len(CUBES))
        case, side = cube_in(random_air(source), number) if source.airs else CUBES[number]
        return frame_line(changed(case, r=2400 * side + source.below(2)))
    return random_line(source) if kind < 35 else accepted_line(source)


def random_add(source, sheet, told):
    """A line that spells no frame becomes a frame of another length, which begins as an accepted one does."""
    line = random_characters(source, sheet)
    if spells(line):
        return Call('A', sheet=told, frame=bytes.fromhex(line.decode()), length=len(line) // 2)
    frame = bytes.fromhex(accepted_line(source).decode()) + random_bytes(source, AREA)
    return Call('A', sheet=told, frame=frame[:AREA], length=source.choice(LENGTHS))


def random_call(source, sheet, phase):
    """One sheet in sixteen is told too short, one in eight is longer than a sheet."""
    kind, told = source.choice(phase), source.choice((source.choice(SHORT), *[source.choice(LONG)] * 2, *[SHEET] * 13))
    if kind == 'A':
        return random_add(source, sheet, told)
    place, area = random_place(source, sheet), source.choice(AREAS) if source.chance(40) else WITH_AIR
    return Call(kind, sheet=told, place=place, area=area)


def random_calls(source, memory, count, phases):
    """Calls on a sheet, lot after lot; a lot ends soon on an empty sheet, where little can be asked for."""
    yield Call('S', memory=memory)
    sheet, left = listed(memory), 0
    for _ in range(count):
        if left == 0:
            phase, left = source.choice(phases), 1 + source.below(120)
        call = random_call(source, sheet, phase)
        sheet = applied(sheet, call)[1]
        left = 0 if not sheet and source.chance(25) else left - 1
        yield call


def random_held(source):
    """A frame of any bytes, half of them with an air pressure, permitted or not."""
    frame = random_bytes(source, FRAME)
    return kept(frame + source.choice((1, 255, random_air(source), random_air(source), 65535)).to_bytes(2, 'big')) if source.chance(50) else frame


def random_memory(source):
    """Bytes of anything, or a sheet with other tags and with bytes where zeros belong, or few bytes that are not zero."""
    memory = bytearray(random_bytes(source, BEFORE + SHEET + PAST))
    kind = source.below(4)
    if kind == 1:
        for at in range(BEFORE, BEFORE + SHEET, CONTENT):
            memory[at] = source.choice(SPOTS)
    elif kind > 1:
        held, last = source.choice((50, 90, 100)), source.choice((source.below(PLACES), PLACES))
        ends = [source.below(2**32) >> source.below(33) for _ in range(3)]
        sheet = [Held(random_held(source), source.choice(ends)) if source.chance(held) else None for _ in range(last)]
        memory[:] = laid(memory, trimmed(sheet if kind == 2 else []))
        for _ in range(1 + source.below(40)):
            at = BEFORE + source.below(SHEET)
            # every second one is a tag, and one in five is of an air pressure, which may be the standard one written out
            memory[at - at % CONTENT if source.chance(50) else at] = source.choice(SPOTS)
            if source.chance(20):
                at += 27 - at % CONTENT
                memory[at:at + 2] = source.choice((0, 10130, 10130, 5000, source.below(65536))).to_bytes(2, 'big')
    return bytes(memory)


def random_sheets(source):
    """Long sequences from the empty sheet, and after each some short ones on sheets of any bytes."""
    while True:
        yield random_calls(source, laid(random_bytes(source, BEFORE + SHEET + PAST), []), 200 + source.below(800), PHASES)
        for _ in range(10):
            yield random_calls(source, random_memory(source), 1 + source.below(12), PHASES + ('AWCH',) * 7)


def against(archive, count, seed):
    calls, left = [], count
    for call in itertools.chain.from_iterable(random_sheets(seeded(seed))):
        if left == 0:
            break
        calls.append(call)
        left -= call.kind != 'S'
    return check(calls, driven(archive, calls))


# The data of known_sheets.

CASE = fields(bytes.fromhex(PROPANE.decode()))
BARE = changed(Q, substance=47, around=4)  # without its heat it is refused


def propane_at(metres, air):
    """The line of the propane example, with its air pressure written out where one is given."""
    case = changed(CASE, r=100 * int(metres))
    return long_line(changed(case, air=int(air))) if air else frame_line(case)


def in_full(words):
    """Operations in short: the number after A and F is the distance in metres of the propane example, with an air pressure behind a stroke; the one
    after W and H is a place."""
    for word in words.split():
        kind, (number, _, air) = word[0].encode(), word[1:].partition('/')
        if kind in (b'A', b'F'):
            yield kind + b' ' + propane_at(number, air)
        else:
            yield kind + b' ' + number.encode() if number else kind


STORIES = (
    # an empty sheet; a gap is not filled, and nothing moves; closing keeps the order
    'H1 W1 C A10 A20 A30 H1 H2 H3 W2 H1 H2 H3 W2 A40 H2 H4 C H1 H2 H3 H4 A50 H4',
    # where the last case is withdrawn its place is no gap, nor are the gaps before it that nothing follows then
    'E A10 A20 A30 W3 H3 A40 H3 W2 W3 A50 H2 H3 A60 W2 A70 H2 H3 H4',
    # nothing left: from place 1 on again, and nothing to close
    'E A10 A20 W1 A30 W2 W3 H1 H3 A40 H1 W1 W1 C A50 H1 H2',
    # the first place is a gap like any other
    'E A10 A20 A30 W1 H1 H2 A40 C H1 H2 H3 H4 A50',
    # nothing to close: nothing changes
    'E A10 A20 A30 C C H1 H2 H3 A40',
    # every second one withdrawn, closed, and again
    'E A10 A20 A30 A40 A50 A60 A70 A80 W1 W3 W5 W7 A90 C H1 H2 H3 H4 H5 H6 W1 W3 C H1 H2 H3 H4 W2 W3 W1 A10',
    # one case at several places, from a line and from a frame
    'E A10 F10 A10 W1 H2 H3 F10 W3 C H1 H2 H3 A20 H3',
    # the totals, at distances of which each has its own overpressure: the greatest comes last and goes first, and the other way about
    'E A400 A300 A200 A100 W4 W3 W2 W1 A100 A200 A300 A400 W1 W2 W3 W4',
    # several have the greatest: the first place of these is shown, as each goes and as the gaps are closed
    'E A300 A100 A200 A100 A100 W2 A100 W4 C W2 W3 W1 C A100 W4 W1 W1',
    # closing moves the place that is shown, a gap behind it does not
    'E A500 A400 A300 A200 A100 A600 W6 C W1 W3 C A600 W2 C W3 C W2 C W1 C',
    # one that goes unseen, then the one that is shown; a refusal changes no total
    'E A200 A500 A100 W2 W2 W9 A400 W3 W1 A11000 W4 W4',
    # an overtaking and a withdrawal of it by turns, with a gap ahead
    'E A900 A800 W1 A700 W3 A600 A500 W3 W4 A700 C W1 W2 A800 A600 W3 W1 W2',
)


AIR_STORIES = (
    # one case in several airs, from a line and from a frame, read back in 44 digits or in 48; gaps are closed and the airs go with their cases
    'E A100/5000 F100 A100/10130 F100/11000 H1 H2 H3 H4 W2 H1 H3 H4 C H1 H2 H3 W1 H2 H3 C H1 H2 W1 W2 H1 A100/5001 H1',
    # the greatest is found in each case's own air: it is shown, withdrawn, and shown again
    'E A100/5000 A90/5000 A110/11000 A100/10999 W4 W3 A95/10129 F95/10131 W4 W3 W1 C H1 A80/11000 H2 W2',
    # beyond in one air and not in another; air pressures that are not permitted change nothing
    'E A3800/11000 A3800/10130 F4800 F4800/5000 A100/4999 F100/11001 A100/0 F100/65535 H1 H2 H3 W2 A4900/5000 A3700/11000 H2 W1 W2',
)


def full_of_airs():
    """A full sheet in airs by turns, refused before 17 by its air pressure, and closed with gaps among them."""
    yield b'E'
    for place in range(PLACES):
        yield from in_full('%s%d%s' % ('AF'[place % 2], 100 + place, ('', '/5000', '/11000', '/10130')[place % 4]))
    yield from in_full('A100/5000 F100/4999 H1 H2 H63 H64 W2 W63 W64 A100/7000 H63 C H2 H61 H62 A100/8000 A100/9000 H63 H64 W64 A100/10130 H64')


def air_lengths():
    """Other lengths than 44 and 48, and other characters in the air pressure."""
    line = propane_at(100, 5000)
    for other in (line[:46], line[:45], line[:47], line + b'0', line[:44] + b'G' + line[45:]):
        yield from (kind + b' ' + other for kind in (b'A', b'F'))


def either(number, line):
    return (b'A ', b'F ')[number % 2] + line


def filling(source, count=PLACES):
    """Cases of any kind, in turn from a line and from a frame, one in five in small letters."""
    for number in range(count):
        line = accepted_line(source)
        yield either(number, line.lower() if number % 5 == 3 else line)


def full(source):
    """A full sheet: no place after the last one in use, whatever gaps there are, until they are closed."""
    yield b'E'
    yield from filling(source)
    yield from in_full('A10 F10 H1 H2 H33 H63 H64 H65 W65 W64 H64 A20 A30 H64 W1 A40 F40 W40 A50 H1 H2 H40 C H1 H39 H62 H63 A60 A70 A80 H63 H64')
    # the last ones withdrawn: their places are used again
    yield from in_full('W63 A10 W64 A20 H63 A30 A40 W64 W63 W62 A50 H61 H62 A60 A70 A80')
    # all but the last withdrawn: still no place after it
    yield from in_full(' '.join('W%d' % place for place in range(1, PLACES)))
    yield from in_full('A10 H1 H63 H64 C H1 H64 A20 W1 C H1 A30')


def emptying(source):
    """A full sheet emptied from its last place on: each place is used again."""
    yield b'E'
    yield from filling(source)
    for place in range(PLACES, 0, -1):
        yield from in_full('W%d' % place + (' A10 W%d' % place if place % 16 == 1 else ''))
    yield from in_full('H1 H64 C A20 H1')


def wrong():
    """The characters of a case for each refusal of its own, to which each later one applies too; once with every field right."""
    several = [frame_line(changed(BARE, **{name: value for _, new in ORDER[first:] for name, value in new.items()})) for first in range(len(ORDER))]
    line, last = frame_line(BARE), several[0]
    yield from (b'', line[:43], line + b'0', line[:42], b'G' + last[2:], b'G' + last[1:], line[:43] + b'g', line[:20] + b' ' + line[21:])
    yield from several


def refusals(source):
    """Each refusal of a case, then what the sheet holds: on an empty sheet, with a gap, with one place left, full, and full with gaps."""
    yield b'E'
    for number, (before, after) in enumerate((
            ('', 'H1'), ('A10 A20 A30 W2', 'H1 H2 H3 H4 A40'), (PLACES - 5, 'H2 H63 H64 A50'), ('C A60', 'H1 H63 H64 A70'),
            ('W1 W33', 'H1 H33 H64 A80 C H1 H62'))):
        yield from filling(source, before) if isinstance(before, int) else in_full(before)
        yield from (either(number + place, line) for place, line in enumerate(wrong()))
        yield from in_full(after)


# numbers that are no place: about the ends, and some that a cut or an overflow would make one
NO_PLACES = 0, PLACES + 1, 127, 128, 255, 256, 257, 65537, 2**32, 2**32 + 1, 2**59 + 1, 10**18 - 1


def no_places():
    """After what refusals left, with a case at place 1, and on an empty sheet."""
    for before in ('', 'E A10', 'E'):
        yield from in_full(before)
        for number, place in enumerate(NO_PLACES):
            yield from in_full(('W%d H%d' if before == 'E A10' else ('W%d', 'H%d')[number % 2]).replace('%d', str(place)))
        yield from in_full('H1 C')


def random_operation(source, sheet, phase):
    """An operation of known_sheets, whose places have up to 18 digits."""
    kind = source.choice(phase)
    if kind == 'A':
        return either(source.below(2), random_characters(source, sheet))
    return b'C' if kind == 'C' else b'%s %d' % (kind.encode(), random_place(source, sheet) % 10**18)


def mixed(source, count):
    """Operations at random, in lots as `against` has them."""
    yield b'E'
    sheet, phase, left = [], PHASES[0], PLACES
    for _ in range(count):
        if left == 0:
            phase, left = source.choice(PHASES), 1 + source.below(60)
        operation = random_operation(source, sheet, phase)
        sheet = answered(sheet, operation)[1]
        left = 0 if not sheet and source.chance(25) else left - 1
        yield operation


def asked():
    """Totals with the greatest end below, between and above the two numbers, so that the judgement itself is tried."""
    yield from in_full('E A100')
    yield from (b'T 1 2', b'T 1 999999999', b'T 999999998 999999999', b'T 1 29032', b'T 29037 999999999')


def totalled(operations):
    """After each operation the totals, with the bounds of the greatest upper end."""
    sheet = []
    for operation in operations:
        sheet = answered(sheet, operation)[1]
        yield operation
        yield b'T %d %d' % open_totals(sheet)[2:]


def vectors(directory):
    source = Source(1)
    stories = itertools.chain.from_iterable(map(in_full, STORIES))
    airs = [*itertools.chain.from_iterable(map(in_full, AIR_STORIES)), *air_lengths(), *full_of_airs()]
    operations = [*totalled([*stories, *full(source), *emptying(source), *refusals(source), *no_places(), *asked(), *mixed(source, 200), *airs])]
    for name, lines in (('stdin', (operation + b'\n' for operation in operations)), ('stdout', records(operations))):
        with open(os.path.join(directory, name), 'wb') as file:
            file.writelines(lines)
    return 0


def main(words):
    if len(words) == 2 and words[0] == 'lines':
        return show(words[1])
    if len(words) == 2 and words[0] == 'vectors':
        return vectors(words[1])
    if len(words) in (3, 4) and words[0] == 'against':
        return against(words[1], int(words[2]), words[3:])
    print(__doc__)
    return 2


if __name__ == '__main__':
    sys.exit(main(sys.argv[1:]))
