"""Logs in the page: each is read without a complaint, counted, and drawn whole."""
import os
import re
import subprocess

from cases import lines_of
from faults import scripts
from log_counts import Counts, after_each, sizes, stretches
from mutants import changed, log_of
from plain import verdict

ROOT = os.path.dirname(os.path.dirname(os.path.abspath(__file__)))
LONG = 400  # entries of a log for which the plain definitions are asked after each
FINE = ('ends', 'stretches')
TALL = 12000  # pixels; a picture that is higher is compared in its counts alone


def stored(*path):
    with open(os.path.join(ROOT, *path), encoding='utf-8', newline='\n') as file:
        return file.read()


def worked():
    """The worked logs by name."""
    found = {'mdb_script': stored('crates', 'mdb_script', 'stdout'), 'mdb_auditor': stored('crates', 'mdb_auditor', 'stdin'), 'empty': '',
             'failover': stored('pages', 'examples', 'failover.log')}
    for number, (remark, _, log) in enumerate(scripts()):
        if not any(' ..' in line for line in log):
            found['%d: %s' % (number, remark[:60])] = ''.join(line + '\n' for line in log)
    return found


def folder(path):
    for name in sorted(os.listdir(path)) if path else []:
        with open(os.path.join(path, name), encoding='utf-8', newline='\n') as file:
            yield name, file.read()


def judge(auditor, text):
    """What the built auditor says of a log, or else what the plain definitions say."""
    if auditor is None:
        return verdict(text)
    return subprocess.run([auditor], input=text.encode(), stdout=subprocess.PIPE, timeout=120).stdout.decode().strip()


def compare_counts(checks, name, text):
    counts, page = Counts(text), checks.timeline('counts()')
    wanted = counts.as_page()
    checks.equal('counts of ' + name, {key: page[key] for key in wanted}, wanted, 'logs counted')
    return counts, page


def compare_places(checks, name, text, page):
    afters, drawn = after_each(text), checks.timeline('sizes()')
    checks.equal('changes of place in ' + name, page['stretches'], stretches(afters), 'logs with their changes of place')
    for entry, after in enumerate(afters):
        checks.equal('places after entry %d of %s' % (entry + 1, name), checks.timeline('places(%d)' % entry), after.places, 'sets of places')
        now = {int(pool): next((it[1:] for it in reversed(them) if it[0] <= entry), None) for pool, them in drawn.items()}
        checks.equal('sizes of pools after entry %d of %s' % (entry + 1, name), {pool: it for pool, it in now.items() if it}, sizes(after), 'sets of sizes')


def compare_picture(checks, name, counts, page):
    """In a window as high as all lanes, the picture has everything; in time parts of a bar may fall on one pixel."""
    height = checks.ask('document.getElementById("space").offsetHeight')
    if height > TALL:
        return
    checks.browser.size(1400, height + 300)
    checks.browser.settle()
    wanted = {**counts.as_drawn(), 'stretches': page['stretches']}
    for axis in ('time', 'entries'):
        checks.ask('document.getElementById("axis%s").click()' % axis)
        checks.browser.settle()
        drawn = checks.timeline('drawn()')
        keys = [key for key in wanted if axis == 'entries' or key not in FINE]
        checks.equal('picture of %s along %s' % (name, axis), {key: drawn[key] for key in keys}, {key: wanted[key] for key in keys}, 'whole pictures')
    checks.browser.size(1400, 900)


def draw(checks, name, text):
    """A legal log: no complaint, the right counts, the right places, the whole picture."""
    checks.open(name, text)
    if not checks.equal('complaints of ' + name, checks.timeline('unread()'), [], 'legal logs without a complaint'):
        return
    counts, page = compare_counts(checks, name, text)
    if page['lines'] <= LONG:
        compare_places(checks, name, text, page)
    compare_picture(checks, name, counts, page)


OPENING = 'open seeds=a:1'
SPELLED = re.compile(r'(line|event|fact|entry) (?:(\d+) )?(.*?) => (.*)')


def spellings():
    """Lines of a log that the cases of mdb_checks_low and mdb_checks_mid spell or refuse: whether it is the first one, the line, and whether it is read."""
    for case in [*lines_of('mdb_checks_low'), *lines_of('mdb_checks_mid')]:
        found = SPELLED.fullmatch(case)
        if found is None or '\\' in found[3]:
            continue
        kind, number, given, wanted = found.groups()
        if kind == 'line':
            yield number == '1', given + ' | Done', wanted == 'read'
        elif kind == 'entry':
            yield False, wanted[1:-3], True
        elif kind == 'fact':
            yield False, 'claim 5 | Done | ' + wanted, True
        else:
            yield False, 'claim 5 | Done | %s %s' % ('Pool 0' if wanted.startswith(('Pool', 'Connection')) else 'Sdam', wanted), True


def spell(checks):
    """The page reads what the cases read, and tells what they refuse."""
    cases = list(spellings())
    later = [(line, is_read) for is_first, line, is_read in cases if not is_first]
    checks.open('spellings', ''.join(line + '\n' for line in [OPENING + ' | Done'] + [line for line, _ in later]))
    told = {it['line'] - 1 for it in checks.timeline('unread()')}
    for number, (line, is_read) in enumerate(later):
        checks.equal('whether it reads %r' % line, number not in told, is_read, 'spellings')
    for is_first, line, is_read in cases:
        if is_first:
            checks.open('opening', line + '\n')
            checks.equal('whether it opens by %r' % line, checks.timeline('unread()') == [], is_read, 'spellings')


def mutate(checks, chance, logs, said):
    """Logs with one change: those that are still legal are drawn without a complaint too."""
    for number in range(said.mutants):
        kind, text = changed(chance, chance.choice(logs))
        checks.open('mutant', text)
        if judge(said.auditor, text).startswith('legal'):
            checks.equal('complaints of mutant %d (%s)' % (number, kind), checks.timeline('unread()'), [], 'legal mutants without a complaint')
        else:
            checks.true('mutant %d (%s) is drawn' % (number, kind), checks.timeline('counts()')['lines'] == text.count('\n'))


def run(checks, chance, said):
    logs = worked()
    if said.script:
        script = stored('pages', 'examples', 'failover.script').split('\n')[:-1]
        checks.true('mdb_script writes the log of the failover', log_of(said.script, script) == logs['failover'])
    for name, text in logs.items():
        checks.equal('verdict on ' + name, judge(said.auditor, text).split(' ')[0], 'legal', 'verdicts')
        draw(checks, name, text)
    for name, text in folder(said.logs):
        if judge(said.auditor, text).startswith('legal'):
            draw(checks, name, text)
    spell(checks)
    mutate(checks, chance, [text for text in logs.values() if text], said)
