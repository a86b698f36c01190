#!/usr/bin/env python3
"""A separate calculation of sheets stored by column and of frames turned back (request 12), on plain lists and from the paper's words; the sheet and
its bytes are those of sheets.py.

  columns.py lines FILE                      the record of each request of FILE
  columns.py vectors DIRECTORY               the files stdin and stdout of the program known_columns, the same at every run
  columns.py against ARCHIVE COUNT [SEED]    COUNT random calls of the two entries of ARCHIVE, every byte that is lent checked after each; all that is
                                             stored is turned back, whole and damaged
  columns.py sizes                           a table of what gzip and zstd make of 64 receptors, by rows, by columns and as the bytes of a lent sheet

A request is a line of words with a space between, numbers in decimal. S, the length told of the lent sheet, the room of the area, and for each case
its place and its frame in 44 or 48 upper-case digits, the places upward: this sheet is stored by value and from its lent bytes. B, the room of the
area, the first of the stored bytes and how many there are: they are turned back; byte i, from 1 on, is (i * i + i / 7) mod 256 with a whole division.
A record is the request's number and an answer, for S two, of the sheet by value and of the lent one: R and the refusal's number, or A and the digits
of what was written. Before each call all bytes of the area are 5F, and of what was written the bytes up to the last that is not 5F are shown.
`against` prints a line for every fault, and last the counts; its exit status is 0 where there is no fault. FILE may be - for standard input.
`sizes` packs three sheets. One cloud, every 10 m: the propane example from 10 m to 640 m. One cloud, two airs: the same at 64 distances drawn from
20 m to 900 m in whole decimetres, every fourth in air of 80,000 Pa. Four clouds: propane, petrol, methane and hydrogen, each at 16 such distances, in
standard air. The upper end that a lent sheet keeps with a case is taken as the least whole number that is not below the exact value.
"""
import collections
import os
import subprocess
import sys
import tempfile

from reference import METHANE, PETROL, STANDARD, Source, changed, contents, frame_line, lines_of, seeded
from sheets import (BEFORE, CASE, FRAME, LONG, MARK, PAST, PLACES, SHEET, SHORT, WITH_AIR, Held, accepted_line, add, bounds, close, differing, digits,
                    kept, laid, listed, patched, random_bytes, random_memory, trimmed, withdraw)

ROOM = 1600  # the greatest area
MEMORY = BEFORE + SHEET + PAST


# The rules of the request.

def filled(frame):
    """The frame in 24 bytes, its air pressure written out."""
    return frame if len(frame) == WITH_AIR else frame + STANDARD.to_bytes(2, 'big')


def frames_of(sheet):
    """The frames of a sheet's cases in order, without the gaps."""
    return [filled(held.frame) for held in close(sheet)]


def size_of(count):
    """The bytes of so many frames stored by column."""
    return 1 + WITH_AIR * count


def stored(frames):
    """Their number, all first bytes, all second bytes, and so on."""
    return bytes([len(frames)]) + b''.join(map(bytes, zip(*frames)))


def restored(columns):
    """The frames of stored bytes, as a list."""
    count = columns[0]
    return [*map(bytes, zip(*(columns[at:at + count] for at in range(1, size_of(count), count or 1))))]


def store(sheet, room, told=SHEET):
    """The number of the refusal, 0 for none, and what is written."""
    columns = stored(frames_of(sheet))
    return (8, b'') if told < SHEET or room < len(columns) else (0, columns)


def turn_back(columns, room):
    """The same for stored bytes."""
    if not columns or columns[0] > PLACES or len(columns) != size_of(columns[0]):
        return 20, b''
    frames = b''.join(restored(columns))
    return (8, b'') if room < len(frames) else (0, frames)


# The records of known_columns.

def sheet_of(words):
    """The list with these cases at these places."""
    held = {int(place): Held(kept(bytes.fromhex(frame.decode())), 0) for place, frame in zip(words[::2], words[1::2], strict=True)}
    return trimmed([held.get(place) for place in range(1, PLACES + 1)])


def columns_of(first, length):
    """The stored bytes of a request."""
    return bytes([first, *((i * i + i // 7) % 256 for i in range(1, length))])[:length]


def verdicts(request):
    """For each answer to a request the number of the refusal, 0 for none, and what is written."""
    kind, *words = request.split(b' ')
    if kind == b'B':
        room, first, length = map(int, words)
        return [turn_back(columns_of(first, length), room)]
    told, room, sheet = int(words[0]), int(words[1]), sheet_of(words[2:])
    return [store(sheet, room), store(listed(laid(bytes(MEMORY), sheet)), room, told)]


def record(request):
    """The record that is due, but for the request's number; bytes like the mark do not show at the end."""
    return b' '.join(b'R%d' % number if number else b'A' + digits(text.rstrip(MARK)) for number, text in verdicts(request))


def records(requests):
    return (b'%d %s\n' % (number, record(request)) for number, request in enumerate(requests, start=1))


def show(name):
    sys.stdout.buffer.writelines(records(lines_of(contents(name))))
    return 0


# Holding the library's calls against this calculation.

HERE = os.path.dirname(os.path.abspath(__file__))
LOT = 4000
AREA = MARK * (BEFORE + ROOM + PAST)
# what is asked for, and the refusals that may come
NAMES = {'S': 'stored', 'B': 'turned back', 'D': 'damaged', 'A': 'any bytes'}
NUMBERS = {'S': (8,), 'B': (8,), 'D': (20,), 'A': (8,)}

# A call, or the memory (M) in which the calls after it have their sheet. The lengths are those that are told, of the sheet or of the stored bytes and
# of the area; more bytes may lie where the stored ones do.
Call = collections.namedtuple('Call', 'kind memory told room columns', defaults=(b'', SHEET, 0, b''))


def spelled(call):
    """A call as the driver reads it."""
    if call.kind == 'M':
        return 'M ' + call.memory.hex()
    return 'S %d %d' % (call.told, call.room) if call.kind == 'S' else 'B %d %d %s' % (call.told, call.room, call.columns.hex())


def faults(due, words):
    """What is wrong with what a call gave, as a list of sentences."""
    number, text = due
    returned, sheet, area, columns = words
    found = [] if int(returned) == number else ['%d is due, %s is returned' % (number, returned)]
    expected, stands = (AREA[:BEFORE] + text).ljust(len(AREA), MARK), patched(AREA, area)
    if stands != expected:
        at, byte, other = differing(expected, stands)
        found.append('byte %d of the area has to be %d, %d stands' % (at - BEFORE, byte, other))
    found += ['the sheet or what lies around it is written'] if sheet != '-' else []
    return found + (['the stored bytes or what lies around them are written'] if columns != '-' else [])


class Tally:
    """The library behind the driver columns.c, with what it was asked and how often it was at fault."""

    def __init__(self, archive, directory):
        self.program = os.path.join(directory, 'columns')
        self.faults, self.numbers, self.times = 0, collections.Counter(), collections.Counter()
        subprocess.run([os.environ.get('CC', 'gcc'), '-std=c11', '-O2', '-Wall', '-Wextra', '-pedantic', '-I' + os.path.join(HERE, '..', 'link'),
                        os.path.join(HERE, 'columns.c'), archive, '-o', self.program], check=True)

    def records(self, calls):
        """The driver's records; fewer than the calls where one did not return."""
        text = ''.join(spelled(call) + '\n' for call in calls).encode()
        return subprocess.run([self.program], input=text, stdout=subprocess.PIPE, check=False).stdout.decode().split('\n')[:-1]

    def fault(self, call, text):
        self.faults += 1
        print('call %d, %s, %d bytes told, room for %d: %s' % (sum(self.numbers.values()), NAMES[call.kind], call.told, call.room, text))

    def note(self, sheet):
        cases = len(close(sheet))
        self.times['sheets'] += 1
        self.times['empty'] += cases == 0
        self.times['with 64 cases'] += cases == PLACES
        self.times['with gaps'] += cases < len(sheet)

    def check(self, calls):
        """Each record against what is due. Gives whether all calls returned."""
        left = iter(self.records(calls))
        for call in calls:
            if call.kind == 'M':
                sheet = listed(call.memory)
                self.note(sheet)
                continue
            due = store(sheet, call.room, call.told) if call.kind == 'S' else turn_back(call.columns[:call.told], call.room)
            self.numbers[call.kind, due[0]] += 1
            stands = next(left, None)
            if stands is None:
                self.fault(call, 'it did not return')
                return False
            for text in faults(due, stands.split(' ')[1:]):
                self.fault(call, text)
        return True

    def show(self):
        for kind, name in NAMES.items():
            accepted, refused = self.numbers[kind, 0], [(n, self.numbers[kind, n]) for n in NUMBERS[kind]]
            print('%s: %d calls, %d accepted, refused %s' % (
                name, accepted + sum(n for _, n in refused), accepted, ' '.join('%d:%d' % both for both in refused)))
        times = ', '.join('%d %s' % (self.times[what], what) for what in ('sheets', 'empty', 'with 64 cases', 'with gaps'))
        print('%d calls on %s; %d faults' % (sum(self.numbers.values()), times, self.faults))


# Calls to try.

def random_sheet(source):
    """The list after some cases were added, some withdrawn and, one time in four, the gaps closed."""
    sheet = []
    for _ in range(source.choice((0, 1, 2, 3, PLACES - 1, PLACES, source.below(PLACES)))):
        frame = kept(bytes.fromhex(accepted_line(source).decode()))
        sheet = add(sheet, 0, Held(frame, source.below(2**32) >> source.below(33)))[1]
    for _ in range(source.choice((0, 0, 1, 5, source.below(2 * PLACES)))):
        sheet = withdraw(sheet, 1 + source.below(PLACES))[1]
    return close(sheet) if source.chance(25) else sheet


def random_lent(source):
    """Bytes of anything or nearly a sheet, else the bytes of one."""
    return random_memory(source) if source.chance(60) else laid(random_bytes(source, MEMORY), random_sheet(source))


def random_room(source, size):
    """About a half are the size, one in four is a byte less; else none, one byte, one more than the size, some more, or any."""
    others = 0, 1, size + 1, size + source.below(64), ROOM, source.below(ROOM + 1)
    room = source.choice((size,) * 6 + (size - 1,) * 3 + (source.choice(others),) * 3)
    return min(ROOM, max(0, room))


def above(source):
    """A number of frames that there cannot be."""
    return source.choice((PLACES + 1, PLACES + 2, 128, 255, PLACES + 1 + source.below(255 - PLACES)))


def other_first(source, columns):
    """Another first byte: one more or less, or too great, alone, so that a cut would undo it, or with the length that it says."""
    count, high, kind = columns[0], above(source), source.below(4)
    if kind == 0:
        return bytes([high]) + random_bytes(source, WITH_AIR * high)
    first = high if kind == 1 else count + source.choice((64, 128, 192) if kind == 2 else (1, -1))
    return bytes([first % 256]) + columns[1:]


def other_length(source, columns):
    """Nothing; the first byte lost; a byte, a frame or a column more or less; a length that is right, or almost, after a cut to a byte."""
    count = columns[0]
    more = random_bytes(source, source.choice((1, 1, 1, WITH_AIR, max(1, count), 256)))
    less = [columns[:-n] for n in (1, 1, 1, WITH_AIR, max(1, count))]
    return source.choice((b'', columns[1:], columns + more, source.choice(less), columns[:WITH_AIR * count % 256 + (count > 10)]))


def damaged(source, columns):
    return source.choice((other_first, other_length))(source, columns)


def any_columns(source):
    """Stored bytes of any kind, of a right length."""
    count = source.choice((0, 1, 2, PLACES - 1, PLACES, source.below(PLACES + 1)))
    return bytes([count]) + random_bytes(source, size_of(count) - 1)


def turned(source, kind, columns):
    """A call that turns stored bytes back; some other bytes lie behind them."""
    size = WITH_AIR * columns[0] if columns else 0
    return Call(kind, told=len(columns), room=random_room(source, size), columns=columns + random_bytes(source, source.below(30)))


def random_group(source):
    """A sheet stored twice, and turned back each time that it was; then its stored bytes damaged in two ways, and bytes of any kind. One sheet in ten
    is told too short, one in ten is longer than a sheet."""
    memory = random_lent(source)
    frames = frames_of(listed(memory))
    columns = stored(frames)
    assert restored(columns) == frames
    yield Call('M', memory=memory)
    for _ in range(2):
        told, room = source.choice((source.choice(SHORT), source.choice(LONG)) + (SHEET,) * 8), random_room(source, len(columns))
        yield Call('S', told=told, room=room)
        if SHEET <= told and len(columns) <= room:
            yield turned(source, 'B', columns)
    yield turned(source, 'D', damaged(source, columns))
    yield turned(source, 'D', damaged(source, columns))
    yield turned(source, 'A', any_columns(source))


def random_lot(source, count):
    """So many calls, and the memories of their sheets."""
    calls = []
    while count > 0:
        group = [*random_group(source)][:count + 1]
        calls += group
        count -= len(group) - 1
    return calls


def against(archive, count, seed):
    source = seeded(seed)
    with tempfile.TemporaryDirectory() as directory:
        tally = Tally(archive, directory)
        for start in range(0, count, LOT):
            if not tally.check(random_lot(source, min(LOT, count - start))):
                break
    tally.show()
    return 1 if tally.faults else 0


# The data of known_columns.

# not 0, which the lent bytes have for the standard air
AIRS = tuple(air.to_bytes(2, 'big') for air in (5000, 11000, STANDARD - 1, STANDARD + 1, 8000, 0x9227, 0x2700, 0x0092, 1, 0xFFFF))
ENDS = (b'', STANDARD.to_bytes(2, 'big')) + AIRS


def numbered(number):
    """A frame of which each byte tells its column, and its case."""
    return bytes((37 * at + 11 * number + 5) % 256 for at in range(WITH_AIR))


def ended(number):
    """The same with the standard air, left out or written out, or with others, by turns."""
    return numbered(number)[:FRAME] + ENDS[number % len(ENDS)]


def asked(cases, room, told=SHEET):
    """The request that stores these cases, a place and a frame each."""
    return b'S %d %d' % (told, room) + b''.join(b' %d %s' % (place, digits(frame)) for place, frame in cases)


def exactly(cases):
    return asked(cases, size_of(len(cases)))


def few():
    """0 to 3 cases in every kind of room, from a sheet that is whole, a byte short and not there."""
    for count in range(4):
        cases, size = [(place, numbered(place)) for place in range(1, count + 1)], size_of(count)
        yield from (asked(cases, room, told) for room in (size, size - 1, 0, size + 1, ROOM) for told in (SHEET, SHEET - 1, 0))


def many():
    """64 cases, and 63 with the gap at the front, in the middle and none; in more room, and with the sheet or the room a byte short."""
    full = [(place, ended(place)) for place in range(1, PLACES + 1)]
    yield from map(exactly, (full, full[1:], full[:32] + full[33:], full[:-1]))
    yield asked(full, ROOM)
    yield asked([(place, numbered(place)) for place in range(1, PLACES + 1)], size_of(PLACES), SHEET - 1)
    yield from (asked(cases, size_of(len(cases)) - 1) for cases in (full, full[:-1]))


GAPS = ((2,), (64,), (1, 3), (2, 3), (1, 64), (63, 64), (1, 2, 4, 7), (3, 17, 33, 49, 64), tuple(range(2, 65, 6)), tuple(range(1, 65, 3)))


def gaps():
    """Gaps at the front, in the middle and nearly everywhere, with room for the cases and with room for the gaps too."""
    for places in GAPS:
        for frame_of in (numbered, ended) if len(places) < 6 else (ended,):
            cases = [(place, frame_of(place)) for place in places]
            yield exactly(cases)
            yield asked(cases, size_of(places[-1]))


def airs():
    """Each air alone, and two with the same bytes before them side by side."""
    frame = numbered(7)[:FRAME]
    for number, end in enumerate(ENDS):
        yield exactly([(1, frame + end)])
        yield exactly([(1, frame + end), (2, frame + ENDS[number - 1])])


def random_sheets(source, count):
    """Accepted cases at some places; the room is mostly the size."""
    for _ in range(count):
        often = source.choice((3, 8, 15))
        places = [place for place in range(1, PLACES + 1) if source.chance(often)]
        cases = [(place, bytes.fromhex(accepted_line(source).decode())) for place in places]
        yield asked(cases, random_room(source, size_of(len(cases))), source.choice((SHEET, SHEET, SHEET, SHEET - 1, 1)))


def backs():
    """Rooms of every kind at a right length; at other lengths, and where the first byte is too great, enough and none, so that 8 would come too."""
    for first in (0, 1, 2, 3, PLACES):
        size = WITH_AIR * first
        yield from ((room, first, size_of(first)) for room in (size, size - 1, 0, size + 1, ROOM) if room >= 0)
    for first in (*range(4, 14), 32, PLACES - 1):
        yield from ((room, first, size_of(first)) for room in (WITH_AIR * first, WITH_AIR * first - 1))
    for first in (0, 1, 2, 3, 11, PLACES - 1, PLACES):
        size = size_of(first)
        lengths = 0, 1, 2, size - 2, size - 1, size + 1, size + 2, size - WITH_AIR, size + WITH_AIR, size % 256, size + 256
        yield from ((room, first, length) for length in lengths if 0 <= length <= ROOM and length != size for room in (WITH_AIR * first, 0))
    for first in (PLACES + 1, PLACES + 2, 67, 127, 128, 129, 192, 194, 254, 255):
        # the length that it says, and those after a cut of the first byte or of the product
        lengths = size_of(first), size_of(first) - 1, size_of(first % PLACES), 1 + WITH_AIR * first % 256, size_of(PLACES), 0, 1, ROOM
        yield from ((room, first, length) for length in lengths if length <= ROOM for room in (ROOM, 0))


def vectors(directory):
    several = [*few(), *many(), *gaps(), *airs(), *random_sheets(Source(1, airs=True), 16), *(b'B %d %d %d' % back for back in backs())]
    requests = [*dict.fromkeys(several)]
    # a last byte like the mark would not show
    assert not any(text.endswith(MARK) for request in requests for _, text in verdicts(request))
    for name, lines in (('stdin', (request + b'\n' for request in requests)), ('stdout', records(requests))):
        with open(os.path.join(directory, name), 'wb') as file:
            file.writelines(lines)
    return 0


# What packing makes of stored sheets.

PACKERS = ('gzip -9', '-n -c'), ('zstd -19', '-c --no-check'), ('zstd -3', '-c --no-check')
HYDROGEN = changed(METHANE, substance=3, mass=400000, c=300, s=250)
CLOUDS = CASE, changed(PETROL, mass=60000000), changed(METHANE, mass=2500000), HYDROGEN


def irregular(source, case):
    """The case at a distance from 20 m to 900 m, in whole decimetres."""
    return changed(case, r=10 * (200 + source.below(8801)))


def studies():
    """The three sheets, a name and 64 cases each."""
    yield 'one cloud, every 10 m', [changed(CASE, r=1000 * number) for number in range(1, PLACES + 1)]
    source = Source(12)
    yield 'one cloud, two airs', [irregular(source, changed(CASE, air=STANDARD if number % 4 else 8000)) for number in range(1, PLACES + 1)]
    yield 'four clouds', [irregular(source, cloud) for cloud in CLOUDS for _ in range(PLACES // len(CLOUDS))]


def forms(cases):
    """The cases of a sheet by rows, by columns, and as they are lent."""
    frames = [bytes.fromhex(frame_line(case).decode()) for case in cases]
    sheet = [Held(frame, bounds(frame)[0]) for frame in frames]
    yield 'rows', b''.join(map(filled, frames))
    yield 'columns', stored(frames_of(sheet))
    yield 'lent sheet', laid(bytes(MEMORY), sheet)[BEFORE:BEFORE + SHEET]


def run(words, text=b''):
    return subprocess.run(words.split(), input=text, stdout=subprocess.PIPE, check=True).stdout


def sizes():
    print('| sheet | form | bytes | %s |' % ' | '.join(name for name, _ in PACKERS))
    print('|---' * (3 + len(PACKERS)) + '|')
    for name, cases in studies():
        for form, text in forms(cases):
            packed = [len(run(packer + ' ' + options, text)) for packer, options in PACKERS]
            print('| %s | %s | %s |' % (name, form, ' | '.join('{:,}'.format(n) for n in [len(text), *packed])))
    print()
    for program in ('gzip', 'zstd'):
        print(run(program + ' --version').decode().partition('\n')[0])
    return 0


def main(words):
    if len(words) == 2 and words[0] == 'lines':
        return show(words[1])
    if len(words) == 2 and words[0] == 'vectors':
        return vectors(words[1])
    if len(words) in (3, 4) and words[0] == 'against':
        return against(words[1], int(words[2]), words[3:])
    if words == ['sizes']:
        return sizes()
    print(__doc__)
    return 2


if __name__ == '__main__':
    sys.exit(main(sys.argv[1:]))
