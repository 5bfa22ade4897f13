#!/usr/bin/env python3
"""What an ask costs that is held back, handed on and finished, with 1, 8 and 64 tenants of share 1, over the built program; and what a stop costs
that frees the shares of two of three tenants, while 400 to 3,700 asks of two of them are held back.

usage: bench/proxy.py [--proxy PROGRAM] [--script PROGRAM] [--bench PROGRAM] [--runs N] [--only rounds|stops]

Each tenant holds a connection. A round is three lines: the tenant asks and is held back, returns its connection, by which the ask is handed on and
served, and collects. mdb_script runs the same rounds with a request in the place of the ask. Each script runs N times (9), the two programs and both
lengths in turn, and the least processor time counts. Told are microseconds a round, from the difference of two lengths, so that the start of the program, the
opening and the first asks are left out; and, to see whether a round costs more the more asks were made, a round of the first half and of the second.
An input has at most 131,072 bytes, which are some 2,400 rounds; mdb_bench does the same rounds without lines, up to 10,000 asks.
A script with a stop runs once where it takes more than ten seconds."""
import argparse
import os
import resource
import subprocess

CRATES = os.path.join(os.path.dirname(os.path.dirname(os.path.abspath(__file__))), 'crates')
TENANTS = (1, 8, 64)
SID = '000000000000000000000001'
ROUNDS = 2000
ASKS = 10000
HELD = (400, 800, 1600, 3700)


def script(tenants, rounds, is_proxy):
    """The lines of so many rounds."""
    ask, finish = ('ask 0 %d %d a:1', 'finish 0 %d ok') if is_proxy else ('request 0 %d a:1', 'return 0 %d ok')
    lines = ['shares=' + ','.join(['1'] * tenants)] if is_proxy else []
    lines.append('open seeds=a:1 lb max=%d connecting=%d' % (tenants, tenants))
    for t in range(tenants):
        lines.append(ask % ((t, t) if is_proxy else t))
    for t in range(tenants):
        lines.append('established 0 0 %d wire=21 sid=%s' % (t + 1, SID))
    held = list(range(tenants))
    for n in range(rounds):
        t, new = n % tenants, tenants + n
        lines += [ask % ((t, new) if is_proxy else new), finish % held[t], 'collect 0 %d' % new]
        held[t] = new
    return ''.join(line + '\n' for line in lines).encode()


def stopped(held, is_stopped):
    """Three tenants, of which the first holds its connection and those of the others are pending; so many asks of the first and of the second are held back, and then it stops."""
    lines = ['shares=1,1,1', 'open seeds=a:1 lb max=3 connecting=3', 'ask 0 0 1 a:1', 'established 0 0 1 wire=21 sid=%s' % SID, 'ask 0 1 2 a:1', 'ask 0 2 3 a:1']
    for tenant in (0, 1):
        lines += ['ask 0 %d %d a:1' % (tenant, 4 + tenant * held + n) for n in range(held)]
    if is_stopped:
        lines.append('stop 1')
    return ''.join(line + '\n' for line in lines).encode()


def tell_stops(program, runs):
    """Prints what a stop costs, by how many asks of each of two tenants are held back."""
    for held in HELD:
        least = {}
        for is_stopped in (False, True):
            data = stopped(held, is_stopped)
            if len(data) > 131072:
                raise SystemExit('%d bytes are too many' % len(data))
            for _ in range(runs):
                took = run(program, data)
                least[is_stopped] = min(least.get(is_stopped, 9e9), took)
                if took > 10:
                    break
        print('mdb_proxy       3 tenants, %4d asks held back of each of two: %7.2f s with a stop, %5.2f s without' % (held, least[True], least[False]), flush=True)


def processor_time():
    """Seconds of the processor that ended children took."""
    used = resource.getrusage(resource.RUSAGE_CHILDREN)
    return used.ru_utime + used.ru_stime


def run(program, data, words=()):
    """Seconds of the processor that one run takes, so that other work on the machine counts little."""
    before = processor_time()
    ended = subprocess.run([program, *words], input=data, capture_output=True, check=False)
    took = processor_time() - before
    if ended.returncode or ended.stderr:
        raise SystemExit('%s: status %d, %s' % (program, ended.returncode, ended.stderr.decode()))
    return took


def tell(name, tenants, least, whole):
    """Prints microseconds a round, from the least seconds of no, half and all rounds."""
    half = whole // 2
    pairs = ((least[whole] - least[0], whole), (least[half] - least[0], half), (least[whole] - least[half], whole - half))
    micros = [1e6 * seconds / rounds for seconds, rounds in pairs]
    print('%-15s %2d tenants, %5d rounds: %6.2f us a round; first half %6.2f, second half %6.2f' % (name, tenants, whole, *micros))


def without_lines(program, tenants, runs):
    """The rounds of mdb_bench, as many as make 10,000 asks."""
    rounds = ASKS - tenants
    least = {}
    for _ in range(runs):
        for n in (0, rounds // 2, rounds):
            least[n] = min(least.get(n, 9e9), run(program, b'', ('proxy', str(n), '1', '1', str(tenants))))
    tell('mdb_bench', tenants, least, rounds)


def main():
    """Reads the words, and prints the lines."""
    reader = argparse.ArgumentParser(usage=__doc__.split('usage: ')[1])
    reader.add_argument('--proxy', default=os.path.join(CRATES, 'mdb_proxy/out/mdb_proxy'))
    reader.add_argument('--script', default=os.path.join(CRATES, 'mdb_script/out/mdb_script'))
    reader.add_argument('--bench', default=os.path.join(CRATES, 'mdb_bench/out/mdb_bench'))
    reader.add_argument('--runs', type=int, default=9)
    reader.add_argument('--only', choices=('rounds', 'stops'))
    given = reader.parse_args()
    if not os.path.isfile(given.proxy):
        raise SystemExit('missing: %s' % given.proxy)
    if given.only != 'rounds':
        tell_stops(given.proxy, given.runs)
    if given.only != 'stops':
        tell_rounds(given)


def tell_rounds(given):
    """Prints what a round costs, for each number of tenants."""
    programs = [(given.proxy, True)] + ([(given.script, False)] if os.path.isfile(given.script) else [])
    for tenants in TENANTS:
        inputs = {(program, rounds): script(tenants, rounds, is_proxy) for program, is_proxy in programs for rounds in (0, ROUNDS // 2, ROUNDS)}
        least = {}
        for _ in range(given.runs):
            for key, data in inputs.items():
                least[key] = min(least.get(key, 9e9), run(key[0], data))
        for program, is_proxy in programs:
            tell('mdb_proxy' if is_proxy else 'mdb_script', tenants, {n: least[program, n] for n in (0, ROUNDS // 2, ROUNDS)}, ROUNDS)
        if os.path.isfile(given.bench):
            without_lines(given.bench, tenants, given.runs)


if __name__ == '__main__':
    main()
