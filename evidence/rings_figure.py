#!/usr/bin/env python3
"""Draws docs/rings.svg, the rings of the propane example to scale, from the answers of the program known_rings.

  rings_figure.py KNOWN_RINGS FILE.svg

The cloud is the example of 004. On the left a plan with its rings at three thresholds; on the right a strip of each, 30 cm wide, in which the
two distances lie apart.
"""
import subprocess
import sys

from figure import line, text

LINE = '11000104007A1200057803020000B540000027100046'
THRESHOLDS = ((28000, '#b03020'), (12000, '#c07000'), (5000, '#2050a0'))
X, Y, METRE = 260, 268, 0.32  # the cloud's centre, and the plan's scale in pixels
LEFT, TOP, STRIP, CENTIMETRE = 560, 92, 130, 10  # the strips, and their scale


def rings(program):
    """(threshold, colour, inner, outer) of each threshold, in cm."""
    text = ''.join('%d %s\n' % (threshold, LINE) for threshold, _ in THRESHOLDS)
    records = subprocess.run([program], input=text, capture_output=True, text=True, check=True).stdout.splitlines()
    distances = [record.split(' ')[1].split('..') for record in records]
    return [(threshold, colour, int(inner), int(outer)) for (threshold, colour), (inner, outer) in zip(THRESHOLDS, distances)]


def kilopascals(threshold):
    return '%d kPa' % (threshold // 1000)


def plan(found):
    """The outer distance of each ring; at this scale the inner one is the same line."""
    parts = ['<circle cx="%d" cy="%d" r="3" fill="#333"/>' % (X, Y), text(X, Y + 18, 'cloud')]
    for threshold, colour, _, outer in found:
        radius = METRE * outer / 100
        parts.append('<circle cx="%d" cy="%d" r="%.2f" fill="none" stroke="%s" stroke-width="1.5"/>' % (X, Y, radius, colour))
        parts.append(text(X, Y - radius - 6, '%s, %.2f m' % (kilopascals(threshold), outer / 100), colour=colour))
    scale = 100 * METRE
    parts += [line(30, 508, 30 + 2 * scale, 508, 'stroke="#333"'), line(30, 503, 30, 513, 'stroke="#333"'),
              line(30 + 2 * scale, 503, 30 + 2 * scale, 513, 'stroke="#333"'), text(40 + 2 * scale, 512, '200 m', 'start')]
    return parts


def strip(number, threshold, colour, inner, outer):
    """30 cm across a ring: up to the inner distance the threshold is reached, from the outer one on it is not."""
    top = TOP + STRIP * number
    first, last = LEFT + 6 * CENTIMETRE, LEFT + (6 + outer - inner) * CENTIMETRE
    box = '<rect x="%d" y="%d" width="%.1f" height="44" fill="%s" fill-opacity="%s"/>'
    return [text(LEFT, top - 10, '%s: reached at %s cm, below at %s cm' % (kilopascals(threshold), format(inner, ','), format(outer, ',')), 'start', colour),
            box % (LEFT, top, first - LEFT, colour, '0.25'), box % (first, top, last - first, colour, '0.08'),
            line(first, top, first, top + 44, 'stroke="%s" stroke-width="2"' % colour), line(last, top, last, top + 44, 'stroke="%s" stroke-width="2"' % colour),
            '<rect x="%d" y="%d" width="%d" height="44" fill="none" stroke="#999"/>' % (LEFT, top, 30 * CENTIMETRE),
            text(LEFT, top + 62, 'toward the cloud', 'start', '#777'), text(LEFT + 30 * CENTIMETRE, top + 62, 'away from it', 'end', '#777')]


def main(words):
    if len(words) != 2:
        print(__doc__)
        return 2
    program, file = words
    found = rings(program)
    parts = ['<svg xmlns="http://www.w3.org/2000/svg" width="900" height="530" viewBox="0 0 900 530" font-family="sans-serif" font-size="12">',
             '<rect width="900" height="530" fill="white"/>', text(X, 14, '8 t of propane in the open (004)'), text(LEFT, 50, '30 cm across each ring', 'start')]
    parts += plan(found)
    for number, ring in enumerate(found):
        parts += strip(number, *ring)
    with open(file, 'w', encoding='utf-8') as out:
        out.write('\n'.join(parts + ['</svg>', '']))
    return 0


if __name__ == '__main__':
    sys.exit(main(sys.argv[1:]))
