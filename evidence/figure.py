#!/usr/bin/env python3
"""Draws docs/distance.svg, overpressure against distance and the rules that give it and the impulse, from the programs' own output.

  figure.py RECKON KNOWN_RULES FILE.svg

The cloud is the propane example of 003 and 004, in three surroundings: open (range 4), with obstacles (range 2), cluttered (range 1, a
detonation). The curves are the middles of reckon's intervals, and a curve ends where reckon refuses the distance. A colour is a rule, as
known_rules names it: along each curve that of the overpressure, in the bars below those of both figures. A dot is where it changes.
The dashed lines are the distances at which Rx is 0.2, 0.34 and 24.
"""
import itertools
import math
import subprocess
import sys

LINE = '110001%02X007A1200057803020000B540%08X0046'
METRES = (408320000000 / 101300) ** (1 / 3)  # Rx is the distance over this length
LEFT, TOP, WIDTH, HEIGHT = 70, 44, 640, 380
FIRST, LAST = 10, 10000  # m
LOW, HIGH = 100, 10**7  # Pa
BARS, BAR = TOP + HEIGHT + 72, 16  # the bars' top, and the height of one
# the rules by number: name and colour
RULES = (('undecided', '#333'), ('near-field value', '#7a3b9a'), ('detonation formula', '#b03020'), ('deflagration formula', '#2050a0'),
         ('deflagration formula at 0.34', '#2e8b57'))
# surroundings, and the overpressure at which a curve's name is written, where nothing else is drawn
CURVES = ((1, 2.4e6), (2, 3.1e5), (4, 5e4))


def distances():
    """In cm: even steps of the logarithm, and both sides of each step."""
    steps = {round(100 * FIRST * (LAST / FIRST) ** (k / 400)) for k in range(401)}
    for rx in (0.2, 0.34, 24):
        edge = int(100 * rx * METRES)
        steps |= {edge - 1, edge, edge + 1, edge + 2}
    return sorted(steps)


def told(program, lines):
    """The first answer of each record that a program prints."""
    text = ''.join(line + '\n' for line in lines)
    records = subprocess.run([program], input=text, capture_output=True, text=True, check=True).stdout.splitlines()
    assert len(records) == len(lines)
    return [record.split(' ')[1] for record in records]


def points(reckon, known_rules, surroundings):
    """(m, Pa, rule of the overpressure, rule of the impulse) for every distance that reckon accepts."""
    several, cm = [], distances()
    lines = [LINE % (surroundings, r) for r in cm]
    for r, body, rules in zip(cm, told(reckon, lines), told(known_rules, lines)):
        if body[0] == 'A':
            pressure, impulse = map(int, rules.split(','))
            several.append((r / 100, (int(body[3:11], 16) + int(body[11:19], 16)) / 2, pressure, impulse))
    return several


def stretches(several, which):
    """Each rule of a row of points, with the points that have it; the first of them is the last that has another, save at the start."""
    before = []
    for rule, group in itertools.groupby(several, key=lambda point: point[which]):
        group = list(group)
        yield rule, before + group
        before = group[-1:]


def across(metres):
    return LEFT + WIDTH * math.log(metres / FIRST) / math.log(LAST / FIRST)


def down(pascals):
    return TOP + HEIGHT * math.log(HIGH / pascals) / math.log(HIGH / LOW)


def text(x, y, words, anchor='middle', colour='#333'):
    return '<text x="%.1f" y="%.1f" text-anchor="%s" fill="%s">%s</text>' % (x, y, anchor, colour, words)


def line(x1, y1, x2, y2, style):
    return '<line x1="%.1f" y1="%.1f" x2="%.1f" y2="%.1f" %s/>' % (x1, y1, x2, y2, style)


def box(x, y, width, height, style):
    return '<rect x="%.1f" y="%.1f" width="%.1f" height="%.1f" %s/>' % (x, y, width, height, style)


def axes():
    parts = []
    grid = 'stroke="#ddd"'
    for power in range(1, 5):
        parts.append(line(across(10**power), TOP, across(10**power), TOP + HEIGHT, grid))
        parts.append(text(across(10**power), TOP + HEIGHT + 18, '%d' % 10**power))
    for power in range(2, 8):
        parts.append(line(LEFT, down(10**power), LEFT + WIDTH, down(10**power), grid))
        parts.append(text(LEFT - 6, down(10**power) + 4, '10<tspan dy="-5" font-size="9">%d</tspan>' % power, 'end'))
    parts.append(box(LEFT, TOP, WIDTH, HEIGHT, 'fill="none" stroke="#333"'))
    parts.append(text(LEFT + WIDTH / 2, TOP + HEIGHT + 38, 'distance, m'))
    parts.append('<text x="18" y="%d" text-anchor="middle" fill="#333" transform="rotate(-90 18 %d)">overpressure, Pa</text>' % (
        TOP + HEIGHT // 2, TOP + HEIGHT // 2))
    return parts


def steps():
    parts = []
    for rx, name in ((0.2, 'Rx 0.2, near field'), (0.34, 'Rx 0.34'), (24, 'Rx 24, far limit')):
        x = across(rx * METRES)
        parts.append(line(x, TOP, x, TOP + HEIGHT, 'stroke="#888" stroke-dasharray="4 4"'))
        parts.append(text(x, TOP - 8 if rx != 0.34 else TOP - 24, name))
    return parts


def curve(several, surroundings, pascals):
    """The curve, a dot after each change of its rule, and its name."""
    parts, dots = [text(LEFT + 8, down(pascals), 'surroundings %d' % surroundings, 'start')], []
    for rule, group in stretches(several, 2):
        shape = ' '.join('%.2f,%.2f' % (across(m), down(pa)) for m, pa, _, _ in group)
        parts.append('<polyline points="%s" fill="none" stroke="%s" stroke-width="2"/>' % (shape, RULES[rule][1]))
        if group[0] != several[0]:
            dots.append('<circle cx="%.2f" cy="%.2f" r="3.5" fill="%s"/>' % (across(group[1][0]), down(group[1][1]), RULES[rule][1]))
    return parts + dots


def bar(several, which, y, name):
    """The rules of a figure along the distance, each stretch with its rule's number where there is room for it."""
    parts = [text(LEFT - 6, y + 12, name, 'end')]
    for rule, group in stretches(several, which):
        left, right = across(group[0][0]), across(group[-1][0])
        parts.append(box(left, y, right - left, BAR, 'fill="%s"' % RULES[rule][1]))
        if right - left > 9:
            parts.append(text((left + right) / 2, y + 12, rule, colour='white'))
    return parts


def bars(curves):
    """Two bars for each surroundings, and what the colours and numbers are."""
    parts, y = [text(LEFT, BARS - 8, 'the rules that gave overpressure (ΔP) and impulse (I), by surroundings', 'start')], BARS
    for (surroundings, _), several in zip(CURVES, curves):
        for which, figure in ((2, 'ΔP'), (3, 'I')):
            parts += bar(several, which, y, '%d: %s' % (surroundings, figure))
            y += BAR + 2
        y += 5
    used = sorted({point[which] for several in curves for point in several for which in (2, 3)})
    x = LEFT - 30
    for rule in used:
        name, colour = RULES[rule]
        parts += [box(x, y + 6, 12, 12, 'fill="%s"' % colour), text(x + 17, y + 16, '%d %s' % (rule, name), 'start')]
        x += 43 + 6.3 * len(name)
    return parts


def main(words):
    if len(words) != 3:
        print(__doc__)
        return 2
    reckon, known_rules, file = words
    height = BARS + 6 * (BAR + 2) + 15 + 34
    curves = [points(reckon, known_rules, surroundings) for surroundings, _ in CURVES]
    parts = ['<svg xmlns="http://www.w3.org/2000/svg" width="740" height="%d" viewBox="0 0 740 %d" font-family="sans-serif" font-size="12">' % (
        height, height), '<rect width="740" height="%d" fill="white"/>' % height]
    parts += axes() + steps()
    for place, several in zip(CURVES, curves):
        parts += curve(several, *place)
    parts += bars(curves)
    with open(file, 'w', encoding='utf-8') as out:
        out.write('\n'.join(parts + ['</svg>', '']))
    return 0


if __name__ == '__main__':
    sys.exit(main(sys.argv[1:]))
