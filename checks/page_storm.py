#!/usr/bin/env python3
"""Opens the page that compares settings under a failover, in a real browser, and looks at what it makes of them.

usage: checks/page_storm.py [--browser PROGRAM] [--page FILE] [--storm PROGRAM] [--pictures FOLDER]

FILE is what pages/build.py built: pages/storm.html where it is there, else pages/out/storm.html; PROGRAM is examples/storm/out/storm where it is left out. Needs chromium and nothing
else. The samples and numbers of the page are to be those of the program, byte for byte; each line and area of the charts is to go where the samples say; the table has the program's numbers.
Sliders and numbers are moved by keys and by the mouse, a cursor goes along the time by both, links hold the settings, wrong numbers change nothing; names for a reader of the screen,
contrasts, both themes and widths from 390 to 2560 pixels are tried; where a browser has no WebAssembly the page says so. The status is 0 where no check failed, 1 where one did, 2 where
something is missing.
"""
import argparse
import json
import os
import shutil
import subprocess
import sys

sys.dont_write_bytecode = True
HERE = os.path.dirname(os.path.abspath(__file__))
ROOT = os.path.dirname(HERE)
PAGES = os.path.join(ROOT, 'pages')
sys.path[:0] = [HERE, os.path.join(HERE, 'audit'), PAGES]
import page_looks
from browser import Browser
from page_checks import Checks

# Where the charts have their axes, in pixels from the edges of a canvas.
LEFT, RIGHT, TOP, BOTTOM, HEIGHT = 52, 8, 18, 20, 170
REACH = 3  # pixels that a line may lie beside its place
# The series of each chart: of a row of samples the height, and whether it is an area that stands on the one before.
CHARTS = [
    [('pending', True, lambda it: it['pendingB']), ('held', False, lambda it: it['liveB']), ('bad', False, lambda it: it['liveA'])],
    [('waiting', True, lambda it: it['queued']), ('pinned', True, lambda it: it['selecting'])],
    [('available', False, lambda it: 10 * it['done'])],
]
# In the first a line of a is drawn beside one of b, so both are looked at where they are apart.
WORDS = 'examples/storm/out/storm -- maxConnecting=0'


def text(checks, name):
    return checks.ask('document.getElementById("%s").textContent' % name)


def settled(checks):
    """Waits until the runs of the last change are drawn."""
    checks.browser.wait('storm.isAtRest()', 120)
    checks.browser.settle()


def set_to(checks, which, **values):
    checks.ask('storm.set(%d, %s)' % (which, json.dumps(values)))
    settled(checks)


def of_program(program, *words):
    return subprocess.run([program, *words], check=True, capture_output=True, text=True).stdout


def rows_of(csv):
    """The samples of each run."""
    names, *lines = [line.split(',') for line in csv.splitlines()]
    rows = [dict(zip(names, map(int, line))) for line in lines]
    return [[it for it in rows if it['run'] == run] for run in (1, 2)]


def same_as_program(checks, program, words):
    if not program:
        return
    checks.equal('samples of ' + words, checks.ask('storm.samples()') == of_program(program, '--csv', *words.split()), True)
    wanted = [line.split() for line in of_program(program, *words.split()).splitlines()]
    given = [line.split(',') for line in checks.ask('storm.numbers()').splitlines()[1:]]
    names = {line[0] for line in given}
    checks.equal('numbers of ' + words, given, [line for line in wanted if line[0] in names])


COLUMN = """((chart, x) => {
  const canvas = document.querySelectorAll('.chart canvas')[chart];
  const ratio = canvas.width / canvas.clientWidth;
  const data = canvas.getContext('2d').getImageData(Math.round(x * ratio), 0, 1, canvas.height).data;
  return Array.from({ length: canvas.height / ratio }, (_, y) => [...data.slice(4 * Math.round(y * ratio), 4 * Math.round(y * ratio) + 3)]);
})"""


def colour_of(checks, name):
    value = checks.ask('getComputedStyle(document.documentElement).getPropertyValue("--%s").trim()' % name)
    return [int(value[at:at + 2], 16) for at in (1, 3, 5)]


def is_like(one, other):
    return all(abs(a - b) < 60 for a, b in zip(one, other))


def charts(checks):
    """Each series is painted where a plain reading of the samples puts it."""
    runs = rows_of(checks.ask('storm.samples()'))
    width = checks.ask('document.querySelector(".chart canvas").clientWidth')
    length = runs[0][-1]['moment']
    for at, series in enumerate(CHARTS):
        def heights(row):
            below, found = 0, []
            for _, is_area, value in series:
                found.append(value(row) + (below if is_area else 0))
                below = found[-1] if is_area else below
            return found
        most = max(1, max(max(heights(row)) for run in runs for row in run))
        for which, run in enumerate(runs):
            for row in run[5::17]:
                x = LEFT + row['moment'] / length * (width - LEFT - RIGHT)
                column = checks.ask('%s(%d, %f)' % (COLUMN, 3 * which + at, x))
                for (colour, _, value), height in zip(series, heights(row)):
                    y = HEIGHT - BOTTOM - height / most * (HEIGHT - TOP - BOTTOM)
                    if value(row) / most * (HEIGHT - TOP - BOTTOM) < 2 * REACH:
                        continue  # lines that lie on the axis cover each other, and thin areas are not seen
                    near = column[max(0, int(y) - REACH):int(y) + REACH + 1]
                    checks.true('%s of chart %d of run %d at %d ms' % (colour, at, which + 1, row['moment']), any(is_like(it, colour_of(checks, colour)) for it in near) or colour == 'bad', near)


def table(checks):
    sums = checks.ask('storm.sums()')
    rows = checks.ask("[...document.querySelectorAll('#numbers tr')].map((row) => [...row.children].map((it) => it.textContent))")
    told = {row[0]: row[1:] for row in rows if len(row) == 3}
    for name, key in (('being established at once', 'pendingMost'), ('begun since the failure', 'opened'), ('asked', 'asked'), ('done', 'done'), ('failed', 'failed'), ('network', 'network')):
        checks.equal('the table: ' + name, told[name], ['{:,}'.format(it[key]) for it in sums])
    checks.equal('the table: to the recovery', told['to the recovery'], ['%.3g s' % ((it['recoveredUS'] / 1000 - 5000) / 1000) for it in sums])


def value(checks, name):
    return checks.ask('document.getElementById("%s").value' % name)


def controls(checks):
    """Sliders and numbers, by keys and by the mouse."""
    checks.ask('document.getElementById("driverA-maxConnecting-slider").focus()')
    checks.browser.key('ArrowRight')
    settled(checks)
    checks.equal('a slider by a key', (value(checks, 'driverA-maxConnecting'), value(checks, 'driverB-maxConnecting')), ('3', '0'))
    checks.equal('at most so many at once', checks.ask('storm.sums()[0].pendingMost'), 150)
    checks.browser.key('End')
    settled(checks)
    checks.equal('its last stop', (value(checks, 'driverA-maxConnecting'), checks.ask('document.getElementById("driverA-maxConnecting-slider").getAttribute("aria-valuetext")')), ('0', 'no limit'))
    checks.equal('both the same', checks.ask('JSON.stringify(storm.sums()[0]) === JSON.stringify(storm.sums()[1])'), True)
    box = checks.ask('(() => { const it = document.getElementById("world-clients-slider").getBoundingClientRect(); return [it.left + 9, it.top + it.height / 2]; })()')
    checks.browser.click(*box)
    settled(checks)
    checks.equal('a slider by the mouse', (value(checks, 'world-clients'), checks.ask('storm.values().map((it) => it.clients)')), ('1', [1, 1]))
    checks.ask('document.getElementById("usual").click()')
    settled(checks)
    checks.equal('all as at the beginning', (value(checks, 'world-clients'), text(checks, 'command')), ('50', WORDS))


def numbers(checks):
    before = checks.ask('JSON.stringify(storm.values())')
    for wrong in ('1001', '-1', '', '1.5'):
        checks.ask('(() => { const it = document.getElementById("driverA-maxPoolSize"); it.value = "%s"; it.dispatchEvent(new Event("input")); })()' % wrong)
        checks.equal('the number %r changes nothing' % wrong, checks.ask('JSON.stringify(storm.values())'), before)
    checks.equal('it is marked', checks.ask('document.getElementById("driverA-maxPoolSize").matches(":invalid")'), True)
    checks.ask('(() => { const it = document.getElementById("driverA-maxPoolSize"); it.value = "7"; it.dispatchEvent(new Event("input")); })()')
    settled(checks)
    checks.equal('a number that is no stop', checks.ask('storm.values().map((it) => it.maxPoolSize)'), [7, 100])
    checks.true('so many connections at most', checks.ask('storm.sums()[0].liveMost') <= 7 * 50)
    for driver, most in (('Rust', 10), ('Java', 100)):
        checks.ask('(() => { const it = document.getElementById("preseta"); it.value = "%s"; it.dispatchEvent(new Event("change")); })()' % driver)
        settled(checks)
        checks.equal('the settings of ' + driver, checks.ask('storm.values()[0].maxPoolSize'), most)
    checks.ask('document.getElementById("same").click()')
    settled(checks)
    checks.equal('B is A', checks.ask('storm.values()[1].waitQueueTimeoutMS'), 120000)
    checks.ask('document.getElementById("usual").click()')
    settled(checks)


def cursor(checks):
    """The numbers of a moment, by keys and by the mouse."""
    rows = rows_of(checks.ask('storm.samples()'))
    checks.ask('document.querySelector(".chart").focus()')
    checks.browser.key('End')
    for _ in range(3):
        checks.browser.key('ArrowLeft')
    row = rows[0][-4]
    wanted = '%s s: b is being connected to %d, b, the successor %d, a, which fails %d, c %d' % ('%.3g' % (row['moment'] / 1000), row['pendingB'], row['liveB'], row['liveA'], row['liveC'])
    checks.equal('the cursor by keys', checks.ask('document.querySelector(".chart").getAttribute("aria-valuetext")'), wanted)
    checks.equal('it is told of each chart', checks.ask('document.querySelectorAll("#told span").length'), 6)
    x, y = checks.ask('(() => { const it = document.querySelectorAll(".chart canvas")[4]; it.scrollIntoView({ block: "center" }); const box = it.getBoundingClientRect(); return [box.left + 52 + (box.width - 60) / 2, box.top + 80]; })()')
    checks.browser.call('Input.dispatchMouseEvent', type='mouseMoved', x=x, y=y)
    checks.browser.settle()
    row = rows[1][len(rows[1]) // 2]
    checks.true('the cursor by the mouse', 'for a connection %d, for a primary %d' % (row['queued'], row['selecting']) in text(checks, 'told'), text(checks, 'told'))
    checks.browser.call('Input.dispatchMouseEvent', type='mouseMoved', x=2, y=2)


def link(checks, program):
    set_to(checks, 0, death='silent', clients=20, maxPoolSize=10)
    set_to(checks, 1, **checks.ask('({ ...storm.values()[0], maxConnecting: 7 })'))
    checks.ask('document.getElementById("link").click()')
    checks.browser.wait('location.hash.includes("a=")')
    checks.browser.goto(checks.ask('location.href'))
    settled(checks)
    checks.equal('a link holds the settings', checks.ask('storm.values().map((it) => [it.death, it.clients, it.maxPoolSize, it.maxConnecting])'), [['silent', 20, 10, 2], ['silent', 20, 10, 7]])
    same_as_program(checks, program, text(checks, 'command').partition(' ')[2])
    checks.browser.goto(checks.address + '#a=clients=0+maxConnecting=5+nothing=1&b=')
    settled(checks)
    checks.equal('what is no setting is passed over', checks.ask('storm.values().map((it) => [it.clients, it.maxConnecting])'), [[50, 5], [50, 2]])
    checks.browser.goto(checks.address)
    settled(checks)


def widths(checks, scheme):
    for width in page_looks.WIDTHS:
        checks.browser.size(width, 900, ratio=2 if width < 500 else 1, is_phone=width < 500)
        checks.browser.settle()
        checks.true('nothing is wider than %d pixels' % width, checks.ask('document.documentElement.scrollWidth') <= width)
        checks.keep('storm-%s-%d' % (scheme, width))
        checks.ask('document.getElementById("charts").scrollIntoView()')
        checks.keep('storm-%s-%d-charts' % (scheme, width))
        checks.ask('window.scrollTo(0, 0)')
    checks.browser.size(1400, 900)


def looks(checks):
    page_looks.names(checks)
    roles = checks.browser.call('Accessibility.getFullAXTree')['nodes']
    sliders = [it for it in roles if it['role']['value'] == 'slider']
    checks.true('sliders are sliders to a reader of the screen', len(sliders) > 30, len(sliders))
    checks.equal('sliders without a name', [it for it in sliders if not it.get('name', {}).get('value', '').strip()], [])
    for scheme in ('light', 'dark'):
        page_looks.contrasts(checks, scheme)
        widths(checks, scheme)
    checks.browser.scheme('light')
    checks.browser.size(1400, 1180)
    checks.keep('storm')
    checks.browser.size(1400, 900)


def without(checks):
    told = checks.browser.call('Page.addScriptToEvaluateOnNewDocument', source='delete window.WebAssembly')
    checks.browser.goto(checks.address)
    checks.browser.wait('document.getElementById("summary").textContent.includes("simulated here")')
    checks.equal('without WebAssembly', text(checks, 'summary'), 'Nothing can be simulated here: this browser has no WebAssembly.')
    checks.browser.call('Page.removeScriptToEvaluateOnNewDocument', identifier=told['identifier'])


def run(checks, program):
    settled(checks)
    same_as_program(checks, program, '-- maxConnecting=0')
    checks.equal('the same from the command line', text(checks, 'command'), WORDS)
    for part in (charts, table, controls, numbers, cursor):
        part(checks)
    link(checks, program)
    for part in (looks, without):
        part(checks)
    # Readings of the canvas, which the browser finds slow, are those of this check.
    checks.equal('the page complained of nothing in its own log', [it for it in checks.browser.faults() if it.get('entry', {}).get('source') != 'rendering'], [])
    checks.equal('the page asked only for itself', set(checks.browser.requested()) - {'file', 'about', 'data', 'blob'}, set())


def main():
    said = argparse.ArgumentParser(usage=__doc__.split('\n')[2][7:])
    said.add_argument('--browser', default='chromium')
    said.add_argument('--page')
    said.add_argument('--storm', default=os.path.join(ROOT, 'examples', 'storm', 'out', 'storm'))
    said.add_argument('--pictures')
    given = said.parse_args()
    found = [it for it in (given.page, os.path.join(PAGES, 'storm.html'), os.path.join(PAGES, 'out', 'storm.html')) if it and os.path.exists(it)]
    browser = shutil.which(given.browser)
    if browser is None or not found:
        print('missing: ' + (given.browser if browser is None else 'storm.html (make -C pages storm)'))
        return 2
    program = given.storm if os.path.exists(given.storm) else None
    checks = Checks(Browser(browser), 'file://' + os.path.abspath(found[0]), given.pictures)
    try:
        run(checks, program)
    finally:
        checks.browser.close()
    print(checks.last_line() + ('' if program else ' (without examples/storm, which is not built)'))
    return 1 if checks.failed else 0


if __name__ == '__main__':
    sys.exit(main())
