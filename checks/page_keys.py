"""By keys alone: every control is reached by Tab, and in the picture every bar and every mark."""
import json

from browser import SHIFT

CONTROLS = {'pick', 'axistime', 'wider', 'closer', 'fit', 'bars', 'onlyserver', 'onlyfailed', 'link', 'png', 'search', 'themes', 'keys', 'scroll', 'mark', 'jumps'}
MOST = 60


def tab_through(checks):
    checks.ask('document.activeElement.blur(); document.querySelector("h1").setAttribute("tabindex", "-1"); document.querySelector("h1").focus()')
    found = set()
    for _ in range(MOST):
        checks.browser.key('Tab')
        found.add(checks.ask('document.activeElement.id || document.activeElement.value || document.activeElement.className'))
    checks.equal('controls that Tab does not reach', CONTROLS - found, set())


def walk_row(checks, found):
    """To the first stop of the row, and then to each behind it."""
    def stops(key):
        before = None
        while True:
            now = checks.timeline('selected()')
            found.add((now['thing'], now['entry']))
            if (now['thing'], now['entry']) == before:
                return
            before = (now['thing'], now['entry'])
            checks.browser.key(key)
    stops('ArrowLeft')
    stops('ArrowRight')


def walk(checks, rows):
    """All that the arrow keys come to."""
    checks.ask('document.getElementById("scroll").focus()')
    found = set()
    for _ in range(rows):
        walk_row(checks, found)
        checks.browser.key('ArrowDown')
    return found


SMALL = '''open seeds=a:1,b:1 max=1 | Done | Sdam TopologyOpening | Sdam TopologyDescriptionChanged Unknown/0 Unknown/2 | Opened 0 a:1 | Pool 0 PoolCreated a:1 max=1 min=- idle=- | Sdam ServerOpening a:1 | Opened 1 b:1 | Pool 1 PoolCreated b:1 max=1 min=- idle=- | Sdam ServerOpening b:1
hello 1 a:1 0 ok rtt=5 msg=isdbgrid minWireVersion=0 maxWireVersion=21 | Changed true | Pool 0 PoolReady a:1 | Sdam ServerDescriptionChanged a:1 Unknown Mongos | Sdam TopologyDescriptionChanged Unknown/2 Sharded/2
hello 2 b:1 1 ok rtt=7 msg=isdbgrid minWireVersion=0 maxWireVersion=21 | Changed true | Pool 1 PoolReady b:1 | Sdam ServerDescriptionChanged b:1 Unknown Mongos | Sdam TopologyDescriptionChanged Sharded/2 Sharded/2
request 3 1 a:1 | Establishing 0.1 | Pool 0 ConnectionCheckoutStarted a:1 | Pool 0 ConnectionCreated a:1 1 | Granted 1 0.1
request 3 2 a:1 | Waiting | Pool 0 ConnectionCheckoutStarted a:1
request 4 3 b:1 | Establishing 1.1 | Pool 1 ConnectionCheckoutStarted b:1 | Pool 1 ConnectionCreated b:1 1 | Granted 3 1.1
established 5 0 1 wire=21 | Done | Pool 0 ConnectionReady a:1 1 2 | Pool 0 ConnectionCheckedOut a:1 1 2
claim 4 | Refused TimeBack 5
established 6 1 1 wire=21 | Done | Pool 1 ConnectionReady b:1 1 2 | Pool 1 ConnectionCheckedOut b:1 1 2
pin 7 3 | Done
return 8 3 ok | Done
take 9 4 1 1 | Pooled 1.1
hello 10 a:1 0 err network msg=x | Changed true | Sdam ServerDescriptionChanged a:1 Mongos Unknown | Sdam TopologyDescriptionChanged Sharded/2 Sharded/2 | Raised 0 - network msg=x | Pool 0 PoolCleared a:1 service=- interrupt=false | Ended 2 Cleared network msg=x | Pool 0 ConnectionCheckoutFailed a:1 ConnectionError 7
error 11 1 network msg=late | Changed false
return 12 1 ok | Done | Pool 0 ConnectionCheckedIn a:1 1 | Pool 0 ConnectionClosed a:1 1 Stale service=-
return 13 4 dropped | Done
unpin 14 1 1 | Done | Pool 1 ConnectionCheckedIn b:1 1 | Pool 1 ConnectionClosed b:1 1 Dropped service=-
'''
# What the arrow keys are to come to: of each thing the entries that change it, counted from 0.
REACHED = {
    ('Connection 0.1', 3), ('Connection 0.1', 6), ('Connection 0.1', 13), ('Connection 0.1', 14), ('Connection 1.1', 5), ('Connection 1.1', 8),
    ('Connection 1.1', 10), ('Connection 1.1', 11), ('Connection 1.1', 15), ('Connection 1.1', 16), ('Request of party 1', 3), ('Request of party 1', 6),
    ('Request of party 1', 14), ('Request of party 2', 4), ('Request of party 2', 12), ('Request of party 3', 5), ('Request of party 3', 8),
    ('Request of party 3', 10), ('Take by party 4', 11), ('Take by party 4', 15), ('Server a:1', 0), ('Server a:1', 1), ('Server a:1', 12),
    ('Server b:1', 0), ('Server b:1', 2), ('Pool 0', 1), ('Pool 0', 12), ('Pool 1', 2), (None, 7),
}


def keys(checks, lines):
    """Single keys, on the log of the failover."""
    press = checks.browser.key
    checks.ask('document.getElementById("scroll").focus()')
    press('Home')
    checks.equal('Home', checks.timeline('selected()')['entry'], 0)
    press('.')
    press('.')
    press(',')
    checks.equal('the next entry twice and back once', checks.timeline('selected()')['entry'], 1)
    press('End')
    checks.equal('End', checks.timeline('selected()')['entry'], len(lines) - 1)
    press('p')
    checks.equal('the last clear, refusal or error', lines[checks.timeline('selected()')['entry']].split(' ')[0], 'error')
    press('Home')
    press('n')
    checks.true('the first clear, refusal or error', ' err ' in lines[checks.timeline('selected()')['entry']])
    whole = checks.timeline('view()')
    for _ in range(4):
        press('+')
    near = checks.timeline('view()')
    checks.true('plus zooms in', near['to'] - near['from'] < 0.5 * (whole['to'] - whole['from']), near)
    press('ArrowRight', SHIFT)
    checks.true('Shift and an arrow pan', checks.timeline('view()')['from'] > near['from'])
    press('-')
    press('f')
    checks.true('F shows the whole log', abs(checks.timeline('view()')['from'] - whole['from']) < 0.01)
    press('t')
    checks.equal('T goes to entries', checks.timeline('view()')['axis'], 'entries')
    press('t')
    checks.equal('and back to time', checks.timeline('view()')['axis'], 'time')
    press('?')
    checks.equal('the question mark opens the keys', checks.ask('document.getElementById("help").open'), True)
    press('Escape')
    checks.equal('Escape closes them', checks.ask('document.getElementById("help").open'), False)
    press('v')
    checks.browser.settle()
    checks.equal('V hides the bars', checks.timeline('drawn()')['connections'], 0)
    press('v')
    checks.ask('document.getElementById("jumps").focus()')
    press('End')
    press('ArrowUp')
    press('ArrowDown')
    checks.equal('arrows in the list jump', checks.timeline('selected()')['entry'], next(at for at, line in enumerate(lines) if line.startswith('error ')))
    press('/')
    checks.equal('the slash goes to the search', checks.ask('document.activeElement.id'), 'search')
    press('Escape')
    checks.equal('Escape goes to the picture', checks.ask('document.activeElement.id'), 'scroll')
    press('Escape')
    checks.equal('Escape selects nothing', checks.timeline('selected()')['entry'], -1)


def run(checks, lines):
    tab_through(checks)
    keys(checks, lines)
    checks.open('small', SMALL)
    checks.equal('complaints of the small log', checks.timeline('unread()'), [])
    found = walk(checks, 16)
    checks.equal('what the arrow keys do not reach', REACHED - found, set())
    checks.ask('document.getElementById("scroll").focus()')
    many = lambda: (checks.browser.settle(), checks.timeline('drawn()')['connections'])[1]
    before = many()
    checks.browser.key('Enter')
    folded = many()
    checks.browser.key('Enter')
    checks.equal('Enter hides the bars of a pool and shows them', (before - folded, many()), (1, before))
    checks.true('the screen reader is told', 'Entry' in checks.ask('document.getElementById("live").textContent'), json.dumps(sorted(map(str, found)))[:200])
