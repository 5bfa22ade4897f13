#!/usr/bin/env python3
"""Writes scripts into the playground, in a real browser, and looks at what it makes of them.

usage: checks/page_playground.py [--browser PROGRAM] [--page FILE] [--pictures FOLDER]

FILE is what pages/build.py built: pages/playground.html where it is there, else pages/out/playground.html. Needs chromium and nothing else. The log of the failover
is to be that of pages/examples, byte for byte; a wrong line is marked and told with its reason, and the lines before it are run; each program is to write what is stored
beside its crate, in its tab; steps, links, words that are completed, tabs by keys, both themes and widths from 390 to 2560 pixels are tried; of a script of 2,000 lines a key is to take 100 milliseconds of a processor at most; where a browser has no
WebAssembly the page says so. The status is 0 where no check failed, 1 where one did, 2 where something is missing.
"""
import argparse
import json
import os
import shutil
import sys

sys.dont_write_bytecode = True
HERE = os.path.dirname(os.path.abspath(__file__))
PAGES = os.path.join(os.path.dirname(HERE), 'pages')
sys.path[:0] = [HERE, os.path.join(HERE, 'audit'), PAGES]
import page_looks
from browser import CTRL, Browser
from page_checks import Checks
from page_logs import stored

LINES, ANSWER = 2000, 100  # lines of the long script, and milliseconds
ROUNDS = 15  # keys of which the times are told


def text(checks, name):
    return checks.ask('document.getElementById("%s").textContent' % name)


def write(checks, script):
    """Puts a text in place of the script, as somebody who pastes it."""
    act = 'document.execCommand("insertText", false, %s)' % json.dumps(script) if script else 'document.execCommand("delete")'
    checks.ask('(() => { const it = document.getElementById("script"); it.focus(); it.select(); %s; })()' % act)
    checks.browser.settle()


def log(checks):
    return checks.ask('timeline.log()')


def example(checks, name):
    checks.ask('(() => { const it = document.getElementById("examples"); it.value = "%s"; it.dispatchEvent(new Event("change")); })()' % name)
    checks.browser.settle()


def failover(checks):
    example(checks, 'failover.script')
    checks.equal('the log of the failover', log(checks) == stored('pages', 'examples', 'failover.log'), True)
    checks.equal('no line is wrong', text(checks, 'wrong'), '')
    checks.equal('its timeline has no complaint', checks.timeline('unread()'), [])
    checks.equal('its timeline has each grant', checks.timeline('counts()')['grants'], log(checks).count(' | Granted '))
    checks.true('its lanes are drawn', checks.timeline('drawn()')['connections'] > 0, checks.timeline('drawn()'))


def wrong(checks):
    write(checks, 'open seeds=a:1\nhello 1 a:1 0 ok rtt=5 maxWireVersion=21\nreqest 2 1 a:1\nclaim 3\n')
    checks.equal('a wrong line', text(checks, 'wrong'), "line 3 is malformed: no step: 'reqest 2 1 a:1'")
    checks.equal('the lines before it', log(checks).count('\n'), 2)
    checks.equal('its mark', checks.ask('document.getElementById("wrongband").dataset.line'), '2')
    checks.equal('it is told to a reader of the screen', checks.ask('document.getElementById("script").getAttribute("aria-invalid")'), 'true')
    write(checks, 'claim 3\n')
    checks.equal('a step without an opening', text(checks, 'wrong'), 'line 1 comes before the line that opens')
    write(checks, 'open seeds=a:1\nopen seeds=a:1\n')
    checks.equal('a second opening', text(checks, 'wrong'), 'line 2 opens once more')
    write(checks, '')
    checks.equal('an empty script', (log(checks), text(checks, 'wrong')), ('', ''))


STORED = {'verdict': ('judged.log', 'mdb_auditor'), 'recording': ('findings.jsonl', 'mdb_recorded'), 'fleet': ('members.fleet', 'mdb_fleet'), 'tenants': ('shares.proxy', 'mdb_proxy')}


def tab(checks, name):
    checks.ask('document.getElementById("tab-%s").click()' % name)
    checks.browser.settle()


def programs(checks):
    """Each program writes in its tab what the native one wrote to standard output."""
    for name, (stored_as, crate) in STORED.items():
        tab(checks, name)
        example(checks, stored_as)
        checks.equal('what %s writes' % crate, log(checks), stored('crates', crate, 'stdout'))
        checks.equal('the tab of ' + crate, checks.ask('document.querySelector("[role=tab][aria-selected=true]").id'), 'tab-' + name)
        checks.equal('the picture of ' + crate, checks.ask('document.getElementById("view").offsetHeight > 0'), name in ('verdict', 'recording'))
        page_looks.names(checks)
        checks.keep('playground-' + name)
    tab(checks, 'fleet')
    write(checks, 'fleet 3\nelect 1 0\nelct 2 0\n')
    checks.equal('a wrong event', (text(checks, 'wrong'), log(checks).count('\n')), ("line 3 is malformed: no event: 'elct 2 0'", 1))
    tab(checks, 'tenants')
    write(checks, 'shares=2,1\nopen seeds=a:1 lb max=2\n')
    checks.equal('too great shares', text(checks, 'wrong'), "line 2 is malformed: fewer connections than the shares, 3: 'open seeds=a:1 lb max=2'")
    write(checks, 'shares=1,1\nopen seeds=a:1 lb max=2\nask 0 0 1 a:1\nfini')
    checks.browser.key(' ', CTRL)
    checks.equal('a word of a proxy that is completed', checks.ask('document.getElementById("script").value').split('\n')[3], 'finish ')
    tab(checks, 'script')


def verdicts(checks):
    failover(checks)
    checks.browser.wait('document.getElementById("verdict").textContent !== ""')
    checks.equal('the verdict of the log', text(checks, 'verdict'), 'mdb_auditor: legal entries=177')
    checks.ask('document.getElementById("judge").click()')
    changed = stored('pages', 'examples', 'failover.log').replace('Granted 5 ', 'Granted 6 ', 1)
    entry = next(at for at, line in enumerate(changed.split('\n')) if 'Granted 6 ' in line)
    write(checks, changed)
    checks.equal('the verdict of a log that was changed', log(checks), 'bad entry=%d why=grant\n' % (entry + 1))
    checks.true('its reason', text(checks, 'wrong').startswith('entry %d: a connection is granted' % (entry + 1)), text(checks, 'wrong'))
    checks.equal('the mark of the entry', checks.ask('document.getElementById("wrongband").dataset.line'), str(entry))
    tab(checks, 'script')
    checks.equal('the script is as it was', log(checks), stored('pages', 'examples', 'failover.log'))


def tabs_by_keys(checks):
    checks.ask('document.getElementById("tab-script").focus()')
    found = []
    for _ in range(5):
        checks.browser.key('ArrowRight')
        checks.browser.settle()
        found.append(checks.ask('document.activeElement.id'))
    checks.equal('tabs by keys', found, ['tab-verdict', 'tab-recording', 'tab-fleet', 'tab-tenants', 'tab-script'])
    tab(checks, 'fleet')
    example(checks, 'members.fleet')
    checks.ask('document.getElementById("first").click(); document.getElementById("forth").click()')
    checks.equal('steps without a picture', (text(checks, 'at'), checks.ask('document.getElementById("lineband").dataset.line')), ('3 of 15', '2'))
    tab(checks, 'script')


def words(checks):
    write(checks, 'open seeds=a:1,b:2\nreques')
    checks.browser.key(' ', CTRL)
    checks.equal('a word that is completed', checks.ask('document.getElementById("script").value'), 'open seeds=a:1,b:2\nrequest ')
    write(checks, 'open seeds=a:1,b:2\nrequest 3 7 ')
    checks.equal('what may follow', checks.ask("[...document.querySelectorAll('#hint button')].map((it) => it.textContent)"), ['a:1', 'b:2'])
    checks.equal('the shape of the line', checks.ask("document.querySelector('#hint code').textContent"), 'request MOMENT PARTY ADDR')


def steps(checks):
    failover(checks)
    checks.ask('document.getElementById("first").click(); document.getElementById("forth").click(); document.getElementById("forth").click()')
    checks.equal('two steps forth', (text(checks, 'at'), checks.timeline('selected()')['entry']), ('3 of 177', 2))
    checks.equal('the line of the step', checks.ask('document.getElementById("lineband").dataset.line'), '2')
    checks.ask('document.getElementById("back").click()')
    checks.equal('the row of the log', checks.ask("document.querySelector('#log [aria-selected=true] .number').textContent"), '2')
    checks.ask('document.getElementById("last").click()')
    checks.equal('the last step', text(checks, 'at'), '177 of 177')


def link(checks):
    write(checks, 'open seeds=a:1\nclaim 4\n')
    checks.ask('timeline.select(1); document.getElementById("link").click()')
    checks.browser.wait('location.hash.includes("entry=2")')
    checks.browser.goto(checks.ask('location.href'))
    checks.browser.wait('timeline.log() !== ""')
    checks.equal('a link holds the script and the step', (log(checks).count('\n'), checks.timeline('selected()')['entry']), (2, 1))
    tab(checks, 'fleet')
    write(checks, 'fleet 2\nelect 1 0\n')
    checks.ask('document.getElementById("link").click()')
    checks.browser.wait('location.hash.includes("tab=fleet")')
    checks.browser.goto(checks.ask('location.href'))
    checks.browser.wait('timeline.log() !== ""')
    checks.equal('a link holds the tab', (checks.ask('document.querySelector("[role=tab][aria-selected=true]").id'), log(checks).count('\n')), ('tab-fleet', 1))
    tab(checks, 'script')


def long_script():
    lines = ['open seeds=a:1 max=10', 'hello 1 a:1 0 ok rtt=5 maxWireVersion=21', 'request 2 1 a:1', 'established 3 0 1 wire=21', 'return 4 1 ok']
    party = 2
    while len(lines) < LINES:
        lines += ['request %d %d a:1' % (party + 3, party), 'return %d %d ok' % (party + 3, party)]
        party += 1
    return '\n'.join(lines[:LINES]) + '\n'


KEYS = """(async () => {
  const took = [];
  for (let many = 0; many < %d; many += 1) {
    const begun = performance.now();
    document.execCommand('insertText', false, 'claim 9999'[many %% 10]);
    await new Promise((done) => requestAnimationFrame(() => setTimeout(done)));
    took.push([performance.now() - begun, timeline.times().whole, timeline.times().library]);
  }
  return took;
})()"""


def answers(checks):
    """Times of keys: by the clock from the key to the end of the frame that shows its answer, and of the processor."""
    write(checks, long_script())
    checks.equal('the long script', log(checks).count('\n'), LINES)
    checks.ask('document.getElementById("script").setSelectionRange(1e9, 1e9)')
    checks.ask(KEYS % ROUNDS)
    cpu = checks.browser.seconds()
    took = checks.ask(KEYS % ROUNDS)
    cpu = 1000 * (checks.browser.seconds() - cpu) / ROUNDS
    half = [sorted(it[which] for it in took)[ROUNDS // 2] for which in range(3)]
    checks.facts.append('%d lines: a key takes %.0f ms of a processor; by the clock %.0f ms, at least %.0f (in the median %.0f to run and read, of these %.0f in the library)' % (
        LINES, cpu, half[0], min(it[0] for it in took), *half[1:]))
    checks.true('a key takes at most %d ms of a processor' % ANSWER, cpu <= ANSWER, cpu)


def looks(checks):
    failover(checks)
    page_looks.names(checks)
    for scheme in ('light', 'dark'):
        page_looks.contrasts(checks, scheme)
        page_looks.widths(checks, 'playground-' + scheme)
    checks.browser.scheme('light')


def without(checks):
    told = checks.browser.call('Page.addScriptToEvaluateOnNewDocument', source='delete window.WebAssembly')
    checks.browser.goto(checks.address)
    checks.browser.wait('document.getElementById("summary").textContent.includes("cannot")')
    checks.equal('without WebAssembly', text(checks, 'summary'), 'Scripts cannot be run here: this browser has no WebAssembly.')
    checks.browser.call('Page.removeScriptToEvaluateOnNewDocument', identifier=told['identifier'])


def run(checks):
    checks.browser.wait('timeline.log() !== ""')
    for part in (failover, wrong, words, verdicts, programs, tabs_by_keys, steps, link, answers, looks, without):
        part(checks)
    checks.equal('the page complained of nothing in its own log', checks.browser.faults(), [])
    checks.equal('the page asked only for itself', set(checks.browser.requested()) - {'file', 'about', 'data', 'blob'}, set())


def main():
    said = argparse.ArgumentParser(usage=__doc__.split('\n')[2][7:])
    said.add_argument('--browser', default='chromium')
    said.add_argument('--page')
    said.add_argument('--pictures')
    given = said.parse_args()
    found = [it for it in (given.page, os.path.join(PAGES, 'playground.html'), os.path.join(PAGES, 'out', 'playground.html')) if it and os.path.exists(it)]
    program = shutil.which(given.browser)
    if program is None or not found:
        print('missing: ' + (given.browser if program is None else 'playground.html (make -C pages playground)'))
        return 2
    checks = Checks(Browser(program), 'file://' + os.path.abspath(found[0]), given.pictures)
    try:
        run(checks)
    finally:
        checks.browser.close()
    print(checks.last_line())
    return 1 if checks.failed else 0


if __name__ == '__main__':
    sys.exit(main())
