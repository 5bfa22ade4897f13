"""How the page looks: names for a reader of the screen, contrasts, a narrow screen; and long logs in time."""
import sys
import os
import time

from log_made import made
from page_logs import ROOT, stored

sys.path.insert(0, os.path.join(ROOT, 'bench'))
from audit import log as audit_log

NAMED = {'button', 'textbox', 'searchbox', 'checkbox', 'radio', 'listbox', 'option', 'application', 'dialog', 'img', 'alert', 'heading'}
# Colours of text and of what is under it, which are to differ so much (WCAG: 4.5 for text, 3 for signs).
TEXTS = [('ink', 'page'), ('muted', 'page'), ('ink', 'panel'), ('muted', 'panel'), ('ink', 'lane'), ('muted', 'lane'), ('bad', 'page'), ('warn', 'page'), ('accent', 'panel'),
         ('onheld', 'held'), ('onprimary', 'primary'), ('onsecondary', 'secondary'), ('onother', 'other'), ('onnone', 'none'), ('onheld', 'pinned'), ('ink', 'mark'), ('bad', 'panel')]
SIGNS = [(name, ground) for name in ('pending', 'available', 'held', 'pinned', 'waiting', 'accent') for ground in ('page', 'lane')]
MEBIBYTE = 1_048_576
OPENING, FRAME = 3.0, 0.040  # processor seconds at most: of opening 8 MiB, and of the page for one frame


def names(checks):
    nodes = checks.browser.call('Accessibility.getFullAXTree')['nodes']
    bare = [it['role']['value'] for it in nodes if not it.get('ignored') and it['role']['value'] in NAMED and not it.get('name', {}).get('value', '').strip()]
    checks.equal('parts without a name', bare, [])


def light(colour):
    def part(text):
        value = int(text, 16) / 255
        return value / 12.92 if value <= 0.03928 else ((value + 0.055) / 1.055) ** 2.4
    return 0.2126 * part(colour[1:3]) + 0.7152 * part(colour[3:5]) + 0.0722 * part(colour[5:7])


def contrast(one, other):
    lights = sorted((light(one), light(other)))
    return (lights[1] + 0.05) / (lights[0] + 0.05)


def contrasts(checks, scheme):
    checks.browser.scheme(scheme)
    colour = lambda name: checks.ask('getComputedStyle(document.documentElement).getPropertyValue("--%s").trim()' % name)
    for pairs, least in ((TEXTS, 4.5), (SIGNS, 3)):
        for one, other in pairs:
            ratio = contrast(colour(one), colour(other))
            checks.true('contrast of %s on %s, %s' % (one, other, scheme), ratio >= least, '%.2f' % ratio)
    return colour('page')


WIDTHS = (390, 820, 1024, 1400, 2560)


def widths(checks, name):
    """The page on screens of many widths: nothing is wider than the screen, and lanes are drawn."""
    for width in WIDTHS:
        checks.browser.size(width, 900, ratio=2 if width < 500 else 1, is_phone=width < 500)
        checks.browser.settle()
        checks.true('nothing is wider than %d pixels' % width, checks.ask('document.documentElement.scrollWidth') <= width)
        checks.true('lanes are drawn on %d pixels' % width, checks.timeline('drawn()')['connections'] > 0)
        checks.keep('%s-%d' % (name, width))
    checks.browser.size(1400, 900)


FRAMES = '''(async () => {
  const scroll = document.getElementById('scroll');
  const wheel = (words) => scroll.dispatchEvent(new WheelEvent('wheel', { bubbles: true, cancelable: true, clientX: 700, clientY: 400, ...words }));
  for (let at = 0; at < 40; at += 1) {
    %s;
    await new Promise((done) => requestAnimationFrame(() => setTimeout(done, 0)));
  }
})()'''
MOVES = {'panning the whole': 'wheel({ deltaX: at % 2 ? 40 : -40 })', 'scrolling': 'scroll.scrollTop += 31', 'zooming': 'wheel({ deltaY: at < 20 ? -120 : 120, ctrlKey: true })'}


def long_log(checks, name, text):
    began, cpu = time.time(), checks.browser.seconds()
    checks.open(name, text)
    cpu = checks.browser.seconds() - cpu
    seconds = checks.timeline('opened()')['milliseconds'] / 1000
    checks.equal('complaints of ' + name, checks.timeline('unread()'), [], 'legal logs without a complaint')
    checks.equal('entries of ' + name, checks.timeline('counts()')['read'], text.count('\n'))
    checks.true('%s opens in time' % name, cpu < OPENING, '%.2f s' % cpu)
    told = []
    for move, code in MOVES.items():
        before = checks.browser.seconds()
        checks.ask(FRAMES % code)
        spent = (checks.browser.seconds() - before) / 40
        checks.true('%s of %s' % (move, name), spent < FRAME, '%.1f ms a frame' % (1000 * spent))
        told.append('%s %.1f' % (move, 1000 * spent))
    checks.facts.append('%s: %d entries open in %.1f s (%.1f s of the processor), a frame takes %s ms of it' % (name, text.count('\n'), seconds, cpu, ', '.join(told)))
    checks.keep(name.replace(' ', '-'))
    return began


def run(checks, is_quick):
    checks.open('failover.log', stored('pages', 'examples', 'failover.log'))
    grounds = [contrasts(checks, scheme) for scheme in ('light', 'dark')]
    checks.true('light and dark differ', grounds[0] != grounds[1], grounds)
    late = next(at for at, line in enumerate(stored('pages', 'examples', 'failover.log').split('\n')) if line.startswith('error '))
    checks.ask('document.getElementById("search").value = "#%d"; document.getElementById("searching").requestSubmit(); 1' % (late + 1))
    checks.ask('document.getElementById("search").value = ""; document.getElementById("search").dispatchEvent(new Event("input"))')
    checks.keep('dark')
    widths(checks, 'dark')
    checks.browser.scheme('light')
    checks.keep('timeline')
    names(checks)
    widths(checks, 'light')
    if not is_quick:
        long_log(checks, 'a long log', made(8 * MEBIBYTE))
        long_log(checks, 'a log of a hundred connections', audit_log(100, 8 * MEBIBYTE).decode())
