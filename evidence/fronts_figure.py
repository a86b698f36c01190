#!/usr/bin/env python3
"""Draws docs/fronts.svg, the overpressure of 500 t of petrol against distance, in a tank park and in an open field.

  fronts_figure.py RECKON FILE.svg

The two curves of now are the middles of reckon's intervals. The curve of before request 6 is the separate calculation's with no front held.
"""
import math
import sys

from figure import box, line, text, told
from reference import PETROL, accepted_of, air_pressure, changed, frame_line, reduced

LEFT, TOP, WIDTH, HEIGHT = 70, 30, 640, 330
FAR, HIGH = 2500, 140  # m, kPa
TANK_PARK, OPEN_FIELD = 3, 4
THRESHOLD = 30  # kPa
DISTANCES = range(50, FAR + 1, 10)  # m


def cases(around, distances):
    return [changed(PETROL, around=around, r=100 * metres) for metres in distances]


def answered(reckon, around):
    """The overpressures in kPa at some distances, by reckon."""
    def pressures(distances):
        bodies = told(reckon, [frame_line(case).decode() for case in cases(around, distances)])
        assert all(body[0] == 'A' for body in bodies)
        return [(int(body[3:11], 16) + int(body[11:19], 16)) / 2000 for body in bodies]
    return pressures


def not_held(around):
    """The same as it was before request 6."""
    def pressures(distances):
        return [float(reduced(*verdict, math.inf)[0] * air_pressure(verdict[0]) / 1000) for verdict in accepted_of(cases(around, distances))]
    return pressures


def across(metres):
    return LEFT + WIDTH * metres / FAR


def down(kilopascals):
    return TOP + HEIGHT * (1 - kilopascals / HIGH)


def axes():
    parts = []
    for metres in range(0, FAR + 1, 500):
        parts += [line(across(metres), TOP, across(metres), TOP + HEIGHT, 'stroke="#ddd"'), text(across(metres), TOP + HEIGHT + 18, '%d' % metres)]
    for pressure in range(0, HIGH + 1, 20):
        parts += [line(LEFT, down(pressure), LEFT + WIDTH, down(pressure), 'stroke="#ddd"'), text(LEFT - 6, down(pressure) + 4, '%d' % pressure, 'end')]
    middle = TOP + HEIGHT // 2
    parts += [box(LEFT, TOP, WIDTH, HEIGHT, 'fill="none" stroke="#333"'), text(LEFT + WIDTH / 2, TOP + HEIGHT + 38, 'distance, m'),
              '<text x="24" y="%d" text-anchor="middle" fill="#333" transform="rotate(-90 24 %d)">overpressure, kPa</text>' % (middle, middle)]
    return parts


def curve(pressures, style):
    shape = ' '.join('%.2f,%.2f' % (across(m), down(p)) for m, p in zip(DISTANCES, pressures(DISTANCES)))
    return '<polyline points="%s" fill="none" %s/>' % (shape, style)


def reach(pressures, colour):
    """The last whole metre at which the threshold is reached."""
    metres = range(DISTANCES[0], FAR)
    far = max(m for m, p in zip(metres, pressures(metres)) if p >= THRESHOLD)
    return [line(across(far), down(THRESHOLD), across(far), TOP + HEIGHT, 'stroke="%s" stroke-dasharray="4 4"' % colour),
            text(across(far) + 6, TOP + HEIGHT - 8, '%d m' % far, 'start', colour)]


def main(words):
    if len(words) != 2:
        print(__doc__)
        return 2
    park, field, before = answered(words[0], TANK_PARK), answered(words[0], OPEN_FIELD), not_held(OPEN_FIELD)
    blue, orange, red = '#2050a0', '#e0a020', '#b03020'
    height = TOP + HEIGHT + 54
    parts = ['<svg xmlns="http://www.w3.org/2000/svg" width="740" height="%d" viewBox="0 0 740 %d" font-family="sans-serif" font-size="12">' % (height, height),
             box(0, 0, 740, height, 'fill="white"'), *axes(),
             line(LEFT, down(THRESHOLD), LEFT + WIDTH, down(THRESHOLD), 'stroke="#888"'), text(LEFT + WIDTH - 6, down(THRESHOLD) - 6, '%d kPa' % THRESHOLD, 'end'),
             curve(before, 'stroke="%s" stroke-width="2"' % red), curve(park, 'stroke="%s" stroke-width="5"' % blue),
             curve(field, 'stroke="%s" stroke-width="2" stroke-dasharray="7 5"' % orange), *reach(before, red), *reach(field, blue),
             text(across(520), down(96), 'open field before request 6: the front runs at 383 m/s', 'start', red),
             text(across(520), down(86), 'tank park: 200 m/s', 'start', blue),
             text(across(520), down(76), 'open field now: 200 m/s, on the same curve', 'start', '#a07000'), '</svg>', '']
    with open(words[1], 'w', encoding='utf-8') as out:
        out.write('\n'.join(parts))
    return 0


if __name__ == '__main__':
    sys.exit(main(sys.argv[1:]))
