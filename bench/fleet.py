#!/usr/bin/env python3
"""Times what a delivered reply costs mdb_fleet.

usage: bench/fleet.py [PROGRAM] [--rounds N]

PROGRAM is crates/mdb_fleet/out/mdb_fleet where it is left out; nothing is built. At 3 and at 50 members two members win elections in turn,
and each election's reply is put on the wire. Then as many replies are delivered: the last one again and again, which changes nothing after
the first time, or each in its order, so that the primary changes each time. Both runs are compared with one that delivers nothing, by the
least processor time of N (9), and a line tells the microseconds of one delivery, with the shares of reading and of writing its line, which are taken
from a run whose deliveries name no reply. The rest is the driver's update.
"""
import argparse
import os
import resource
import subprocess

HERE = os.path.dirname(os.path.abspath(__file__))
ELECTIONS = 2000


def script(members, deliveries):
    """A run of so many members: elections in turn, and then these deliveries."""
    lines = ['fleet %d' % members]
    for election in range(ELECTIONS):
        lines += ['elect 0 %d' % (election % 2), 'ask 0 %d' % (election % 2)]
    return ''.join(line + '\n' for line in lines + ['deliver 0 %d' % number for number in deliveries]).encode()


def spent():
    """The processor seconds of all runs that ended."""
    used = resource.getrusage(resource.RUSAGE_CHILDREN)
    return used.ru_utime + used.ru_stime


def least(program, text, rounds):
    """The least processor time of some runs, in seconds."""
    times = []
    for _ in range(rounds):
        begun = spent()
        subprocess.run([program], input=text, stdout=subprocess.DEVNULL, check=True)
        times.append(spent() - begun)
    return min(times)


def main():
    """Prints the costs at each number of members."""
    reader = argparse.ArgumentParser(usage=__doc__.split('usage: ')[1])
    reader.add_argument('program', nargs='?', default=os.path.join(HERE, '../crates/mdb_fleet/out/mdb_fleet'))
    reader.add_argument('--rounds', type=int, default=9)
    given = reader.parse_args()
    for members in (3, 50):
        kinds = (('none', []), ('text alone', [999999] * ELECTIONS), ('nothing changes', [ELECTIONS - 1] * ELECTIONS), ('the primary changes', range(ELECTIONS)))
        took = {name: least(given.program, script(members, numbers), given.rounds) for name, numbers in kinds}
        for name in ('text alone', 'nothing changes', 'the primary changes'):
            print('%d members, %s: %.1f us a line' % (members, name, (took[name] - took['none']) / ELECTIONS * 1e6))


if __name__ == '__main__':
    main()
