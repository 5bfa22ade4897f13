"""What the page does: pointers, wheel, touch, keys, search, the ways in, what cannot be read, looks, and long logs."""
import re

import page_keys
import page_looks
import page_numbers
import page_ways
from browser import CTRL, SHIFT
from log_counts import names
from page_logs import stored

FAILOVER = ('pages', 'examples', 'failover.log')
TEXT = "[...document.querySelectorAll('#selected .entry > div')].map((it) => it.textContent).join(' | ')"


def lines():
    return stored(*FAILOVER).split('\n')[:-1]


def entry_of(start):
    """The index of the first entry that begins so."""
    return next(at for at, line in enumerate(lines()) if line.startswith(start))


def clicks(checks):
    """A click on a bar shows the entry that made it so, and lights what that entry names."""
    late = entry_of('error ')
    party = lines()[late].split(' ')[2]
    grant = next(at for at, line in enumerate(lines()) if ' | Granted %s ' % party in line)
    name = next(part.split(' ')[2] for part in lines()[grant].split(' | ') if part.startswith('Granted %s ' % party))
    point = checks.point('connection', name, (grant + late) // 2)
    checks.browser.click(point['x'], point['y'])
    selected = checks.timeline('selected()')
    checks.equal('a click on a connection', (selected['thing'], selected['entry']), ('Connection ' + name, grant))
    checks.equal('the text of its entry', checks.ask(TEXT), lines()[grant])
    checks.true('what it names is lit', {'Connection ' + name, 'Request of party ' + party} <= set(selected['lit']), selected['lit'])
    point = checks.point('party', int(party), (grant + late) // 2)
    checks.browser.click(point['x'], point['y'])
    checks.equal('a click on a request', checks.timeline('selected()')['thing'], 'Request of party ' + party)
    point = checks.point('connection', name, late)
    checks.browser.click(point['x'], point['y'])
    checks.equal('a click on a late error', checks.timeline('selected()')['entry'], late)
    checks.true('the late error is told as one without effect', 'late error of party %s, without effect' % party in checks.ask('document.getElementById("selected").textContent'))
    checks.ask("[...document.querySelectorAll('#selected .name')].find((it) => it.textContent === '%s').click()" % party)
    checks.equal('a click on a name in the text', checks.timeline('selected()')['thing'], 'Request of party ' + party)


def lit(checks):
    """Each entry lights all that it names."""
    for entry, line in enumerate(lines()):
        checks.ask('timeline.select(%d)' % entry)
        shown = {re.sub('^(Request of|Take by|Warm request) (party )?', 'party ', it) for it in checks.timeline('selected()')['lit']}
        checks.equal('what entry %d names and does not light' % (entry + 1), names(line) - shown, set(), 'entries that light what they name')


def wheel(checks):
    browser = checks.browser
    checks.ask('document.getElementById("fit").click()')
    browser.settle()
    whole = checks.timeline('view()')
    x, y = 700, 500
    browser.wheel(x, y, dy=-300, modifiers=CTRL)
    near = checks.timeline('view()')
    checks.true('Ctrl and the wheel zoom in', near['to'] - near['from'] < 0.8 * (whole['to'] - whole['from']), near)
    place = lambda view: view['from'] + (x - 150) / (checks.ask('document.getElementById("lanes").clientWidth') - 150) * (view['to'] - view['from'])
    checks.true('what is under the pointer stays there', abs(place(near) - place(whole)) < 0.02 * (near['to'] - near['from']))
    browser.wheel(x, y, dy=120, modifiers=SHIFT)
    checks.true('Shift and the wheel pan', checks.timeline('view()')['from'] > near['from'])
    before = checks.timeline('view()')
    browser.wheel(x, y, dy=200)
    checks.ask('new Promise((done) => setTimeout(done, 300))')
    after = checks.timeline('view()')
    checks.true('the wheel alone scrolls', after['scroll'] > before['scroll'] and after['from'] == before['from'], after)
    checks.ask('document.getElementById("scroll").scrollTop = 0')
    after = checks.timeline('view()')
    browser.drag([(800, 500), (760, 480), (700, 440)])
    dragged = checks.timeline('view()')
    checks.true('a drag moves the picture both ways', dragged['from'] > after['from'] and dragged['scroll'] > after['scroll'], dragged)
    checks.ask('document.getElementById("fit").click(); document.getElementById("scroll").scrollTop = 0')
    browser.settle()
    checks.equal('the button shows the whole log', checks.timeline('view()')['from'], whole['from'])
    browser.drag([(300, 130), (400, 130), (500, 130)])
    checks.ask('document.getElementById("fit").click()')


def touch(checks):
    browser = checks.browser
    browser.size(700, 900, is_phone=True)
    checks.ask('document.getElementById("fit").click()')
    browser.settle()
    whole = checks.timeline('view()')
    y = checks.ask('document.getElementById("lanes").getBoundingClientRect().top') + 150
    browser.touch([(300, y), (400, y)], [(250, y), (450, y)], [(200, y), (500, y)], [(180, y), (540, y)])
    near = checks.timeline('view()')
    checks.true('two fingers zoom', near['to'] - near['from'] < 0.7 * (whole['to'] - whole['from']), near)
    browser.touch([(500, y)], [(450, y)], [(380, y)], [(300, y)])
    checks.true('one finger pans', checks.timeline('view()')['from'] > near['from'], checks.timeline('view()'))
    checks.ask('document.getElementById("fit").click()')
    browser.settle()
    point = checks.point('connection', '0.1', 30)
    browser.touch([(point['x'], point['y'])])
    checks.equal('a tap selects', checks.timeline('selected()')['thing'], 'Connection 0.1')
    browser.size(1400, 900)


def search(checks):
    def find(words):
        checks.ask('document.getElementById("search").focus(); document.getElementById("search").value = ""')
        for letter in words:
            checks.browser.key(letter)
        checks.browser.key('Enter')
        return checks.timeline('selected()')
    checks.equal('search for a connection', find('1.2')['thing'], 'Connection 1.2')
    checks.equal('search for a party', find('18')['thing'], 'Request of party 18')
    checks.equal('search for an address', find('db2')['thing'], 'Server db2:27017')
    checks.equal('search for a pool', find('pool 2')['thing'], 'Pool 2')
    checks.equal('search for an entry', find('#117')['entry'], 116)
    checks.equal('search for what is not there', (find('9.9')['entry'], checks.ask('document.getElementById("foundcount").textContent')), (116, '0 found'))
    checks.ask('document.getElementById("search").value = ""; document.getElementById("search").dispatchEvent(new Event("input"))')
    checks.browser.key('Escape')


def jumps(checks):
    wanted = [at for at, line in enumerate(lines()) if ' | Raised ' in line or ' err ' in line.split(' | ')[0] or line.startswith('error ')]
    rows = lambda: checks.ask("[...document.querySelectorAll('#jumps .row .number')].map((it) => Number(it.textContent.slice(1)) - 1)")
    checks.equal('the list to jump by', sorted(set(rows())), wanted)
    checks.equal('the texts of the list are whole', checks.ask("[...document.querySelectorAll('#jumps .row')].filter((it) => it.scrollHeight > it.clientHeight).length"), 0)
    checks.ask("document.querySelectorAll('#jumps .row')[0].click()")
    checks.equal('a jump', checks.timeline('selected()')['entry'], wanted[0])
    checks.ask("document.querySelector('#kinds input[value=\"error\"]').click()")
    checks.equal('the list without errors', [at for at in wanted if lines()[at].startswith('error ')][0] in rows(), False)
    checks.ask("document.querySelector('#kinds input[value=\"error\"]').click()")


def folding(checks):
    """A click on a pool's name hides its bars, and another one shows them."""
    many = lambda: (checks.browser.settle(), checks.timeline('drawn()')['requests'])[1]
    checks.ask('document.getElementById("fit").click(); document.getElementById("scroll").scrollTop = 0')
    before, point = many(), checks.point('pool', 0, 0)
    checks.browser.click(20, point['y'])
    folded = many()
    checks.browser.click(20, point['y'])
    checks.true('a click on the name of a pool folds it', folded < before == many(), (before, folded))


def moments(checks):
    """Moments above 2^53 are told as they are, and a refused step far ahead moves nothing."""
    opening = lines()[0]
    far = ['hello 9223372036854775807 db1:27017 0 err other msg=x | Changed false', 'claim 18446744073709551615 | Refused NotHolder', 'claim 9223372036854775809 | NoJob']
    checks.open('far', '\n'.join([opening, *far]) + '\n')
    checks.browser.key('Home')
    checks.ask('document.getElementById("scroll").focus()')
    checks.browser.key('Home')
    checks.browser.key('.')
    checks.true('a great moment', '9223372036854775807 ms' in checks.ask('document.getElementById("selected").textContent'), checks.ask('document.getElementById("selected").textContent'))
    near = [opening, 'claim 5 | NoJob', 'claim 1000000 | Refused NotHolder', 'claim 7 | NoJob']
    checks.open('near', '\n'.join(near) + '\n')
    checks.true('a refused step does not stretch the axis', checks.timeline('view()')['whole'][1] < 10, checks.timeline('view()'))


def run(checks, is_quick):
    checks.browser.size(1400, 900)
    checks.open('failover.log', stored(*FAILOVER))
    for part in (clicks, lit, wheel, touch, search, jumps, folding):
        part(checks)
    page_keys.run(checks, lines())
    moments(checks)
    page_ways.run(checks)
    page_numbers.run(checks)
    page_looks.run(checks, is_quick)
