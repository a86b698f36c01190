"""Times programs on one input in turn: `clock.py LINES ROUNDS NAME=COMMAND..`. Prints medians of processor time, as cases a second and as a ratio to plain_double.
A command can end in `<FILE`: an input of its own, of as many lines."""
import os
import statistics
import sys


def seconds(command, path):
    """The user and system time of one run over the file, its output thrown away."""
    pid = os.fork()
    if pid == 0:
        os.dup2(os.open(path, os.O_RDONLY), 0)
        os.dup2(os.open('/dev/null', os.O_WRONLY), 1)
        os.execv(command[0], command)
    _, status, usage = os.wait4(pid, 0)
    if status != 0:
        sys.exit('%s ended with status %d' % (command[0], status))
    return usage.ru_utime + usage.ru_stime


def main(path, rounds, programs):
    with open(path, 'rb') as file:
        cases = sum(1 for _ in file)
    names = [program.partition('=')[0] for program in programs]
    commands = [program.partition('=')[2].partition('<')[0].split() for program in programs]
    paths = [program.partition('<')[2] or path for program in programs]
    times = [[] for _ in programs]
    for turn in range(rounds + 1):
        for step in range(len(programs)):
            at = (turn + step) % len(programs)
            spent = seconds(commands[at], paths[at])
            if turn > 0:  # the first turn warms the caches
                times[at].append(spent)
    medians = dict(zip(names, map(statistics.median, times)))
    base = medians['plain_double']
    print('%d rounds, interleaved; medians of processor time' % rounds)
    print('%-22s %14s %10s %8s %17s' % ('program', 'cases/second', 'ns/case', 'ratio', 'lowest..highest'))
    for name, spent in sorted(medians.items(), key=lambda item: item[1]):
        ratios = [time / plain for time, plain in zip(times[names.index(name)], times[names.index('plain_double')])]
        print('%-22s %14s %10.0f %8.2f %9.2f..%.2f' % (name, format(round(cases / spent), ','), 1e9 * spent / cases, spent / base,
                                                       min(ratios), max(ratios)))


main(sys.argv[1], int(sys.argv[2]), sys.argv[3:])
