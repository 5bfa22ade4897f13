"""The numbers at the top of the page and beside the picture, marks, filters, links and recordings, against a plain reading of the text."""
import json
import math
import urllib.parse

from log_counts import entries
from page_logs import stored

FAILOVER = ('pages', 'examples', 'failover.log')
TEXT = 'document.getElementById("%s").%s'


def moment(step):
    return 0 if step.startswith('open') else int(step.split(' ')[1])


class Plain:
    """Of a log of a replica set with one outage: when it had no primary, and each caller's request."""

    def __init__(self, text):
        self.asked, self.ready, self.ends, holders = {}, {}, {}, {}
        self.lost = self.found = self.error = self.checked_out = None
        for at, (step, _, facts) in enumerate(entries(text)):
            words = step.split(' ')
            if words[0] == 'request':
                self.asked[words[2]] = (at, moment(step))
            if self.lost is None and words[0] in ('hello', 'beaten') and ' err ' in step and self.error is None:
                self.error = (at, moment(step))
            for said in (it.split(' ') for it in facts):
                if said[0] == 'Granted':
                    holders[said[2]] = said[1]
                elif said[0] == 'Ended':
                    self.ends[said[1]] = said[2]
                elif said[2:3] == ['ConnectionCheckedOut']:
                    party = holders['%s.%s' % (said[1], said[4])]
                    self.ready.setdefault(party, (at, moment(step)))
                    if self.found and self.checked_out is None and said[3] == self.primary:
                        self.checked_out = (at, moment(step))
                elif said[1:2] == ['ServerDescriptionChanged'] and said[4] == 'RsPrimary':
                    self.primary = said[2]
                elif said[1:2] == ['TopologyDescriptionChanged']:
                    before, after = (it.split('/')[0] for it in said[2:4])
                    if (before, after) == ('ReplicaSetWithPrimary', 'ReplicaSetNoPrimary'):
                        self.lost = (at, moment(step))
                    elif self.lost and after == 'ReplicaSetWithPrimary' and self.found is None:
                        self.found = (at, moment(step))

    def sums(self, is_in):
        """A column of the table: of the requests whose entry is meant."""
        parties = [it for it, (at, _) in self.asked.items() if is_in(at)]
        waits = sorted(self.ready[it][1] - self.asked[it][1] for it in parties if it in self.ready)
        nearest = lambda percent: '%d ms' % waits[math.ceil(len(waits) * percent / 100) - 1] if waits else '–'
        ends = sum(self.ends.get(it) == 'Cleared' for it in parties)
        waiting = sum(it not in self.ready and it not in self.ends for it in parties)
        return [len(parties), len(waits), ends, waiting, nearest(50), nearest(99), nearest(100)]


def figures(checks, plain):
    shown = checks.ask("[...document.querySelectorAll('.figure')].map((it) => it.textContent)")
    checks.equal('how long', shown, ['%d ms no primary' % (plain.found[1] - plain.lost[1]), '%d ms first error to first check-out' % (plain.checked_out[1] - plain.error[1])])
    checks.ask("document.querySelectorAll('.figure')[1].click()")
    checks.equal('the entry of a length', checks.timeline('selected()')['entry'], plain.error[0])


def sums(checks, plain):
    table = checks.ask("[...document.querySelectorAll('#sums tr')].map((it) => [...it.children].map((cell) => cell.textContent))")
    lost, found = plain.lost[0], plain.found[0]
    columns = [plain.sums(lambda at: at < lost), plain.sums(lambda at: lost <= at < found), plain.sums(lambda at: at >= found)]
    names = ['asked', 'had a connection', 'Cleared', 'waits still', 'wait, p50', 'wait, p99', 'wait, greatest']
    checks.equal('the sums', table, [['', 'before', 'no primary', 'behind']] + [[name, *(str(it[row]) for it in columns)] for row, name in enumerate(names)])


def marks(checks):
    checks.ask('document.getElementById("scroll").focus()')
    for key in ('Home', 'm', 'End', 'm'):
        checks.browser.key(key)
    last = entries(stored(*FAILOVER))
    told = 'A is entry 1, B is entry %d: %d ms, %d entries apart' % (len(last), moment(last[-1][0]) - moment(last[1][0]), len(last) - 1)
    checks.equal('the time between two marks', checks.ask(TEXT % ('between', 'textContent')), told)


def choose(checks, name, value):
    checks.ask('(() => { const it = document.getElementById("%s"); it.%s; it.dispatchEvent(new Event("change")); })()' % (name, value))
    checks.browser.size(1400, 2600)
    checks.browser.settle()
    return checks.timeline('drawn()')


def filters(checks, plain):
    drawn = choose(checks, 'onlyserver', 'value = "db2:27017"')
    checks.equal('only one server', (drawn['servers'], drawn['pools']), (1, 1))
    choose(checks, 'onlyserver', 'value = ""')
    late = {step.split(' ')[2] for step, _, _ in entries(stored(*FAILOVER)) if step.startswith('error ')}
    drawn = choose(checks, 'onlyfailed', 'checked = true')
    checks.equal('only parties that failed', drawn['requests'], len(set(plain.ends) | late))
    checks.keep('failed-only')
    drawn = choose(checks, 'onlyfailed', 'checked = false')
    checks.equal('all again', (drawn['servers'], drawn['requests']), (3, len(plain.asked)))
    checks.browser.size(1400, 900)


def tips(checks):
    """A stretch of the topology and of a server tells what it is, and can be picked."""
    change = next(at for at, (_, _, facts) in enumerate(entries(stored(*FAILOVER))) if any('RsPrimary Unknown' in it for it in facts))
    point = checks.point('address', 'db1:27017', change // 2)
    checks.browser.call('Input.dispatchMouseEvent', type='mouseMoved', x=point['x'], y=point['y'])
    checks.true('a stretch of a server has a tooltip', checks.ask(TEXT % ('tip', 'textContent')).startswith('db1:27017: RsPrimary, '), checks.ask(TEXT % ('tip', 'textContent')))
    checks.browser.click(point['x'], point['y'])
    checks.equal('a stretch of a server is picked', checks.timeline('selected()')['thing'], 'Server db1:27017')
    top = checks.ask('document.getElementById("lanes").getBoundingClientRect().top')
    point = checks.point('address', 'db1:27017', change)
    checks.browser.call('Input.dispatchMouseEvent', type='mouseMoved', x=point['x'] + 12, y=top + 10)
    checks.true('a stretch of the topology has a tooltip', checks.ask(TEXT % ('tip', 'textContent')).startswith('ReplicaSetNoPrimary, 3 servers, 16 ms'), checks.ask(TEXT % ('tip', 'textContent')))


def leaving(checks):
    """A picture as a file, and a link that leads back."""
    checks.ask('(() => { URL.createObjectURL = (blob) => { window.given = blob; return "data:,"; }; HTMLAnchorElement.prototype.click = () => {}; document.getElementById("png").click(); })()')
    checks.browser.wait('window.given !== undefined')
    size = checks.ask('createImageBitmap(window.given).then((it) => [window.given.type, it.width, it.height])')
    checks.equal('the picture is a PNG of all lanes', (size[0], size[1]), ('image/png', checks.ask('document.getElementById("lanes").clientWidth')))
    checks.true('it is as high as all lanes', size[2] >= checks.ask('document.getElementById("space").offsetHeight'), size)
    checks.ask('timeline.select(58); document.getElementById("link").click()')
    checks.browser.wait('location.hash.includes("entry=59")')
    checks.browser.goto(checks.ask('location.href'))
    checks.browser.wait('timeline.opened() !== null')
    checks.equal('a link leads to the entry', (checks.timeline('selected()')['entry'], checks.ask('timeline.log()') == stored(*FAILOVER)), (58, True))


def example(checks):
    checks.browser.goto(checks.address)
    checks.ask('document.getElementById("example").click()')
    checks.browser.wait('timeline.opened() !== null')
    checks.equal('the example of the empty page', checks.ask('timeline.log()') == stored(*FAILOVER), True)


RECORDED = [
    (0, 'pool', 'ConnectionPoolCreated', {'address': 'a:1', 'maxPoolSize': 2}), (0, 'sdam', 'ServerOpening', {'address': 'a:1'}),
    (1, 'sdam', 'ServerDescriptionChanged', {'address': 'a:1', 'from': 'Unknown', 'to': 'RSPrimary'}), (1, 'pool', 'ConnectionPoolReady', {'address': 'a:1'}),
    (2, 'pool', 'ConnectionCheckOutStarted', {'address': 'a:1', 'caller': 7}), (2, 'pool', 'ConnectionCreated', {'address': 'a:1', 'connectionId': 1, 'caller': 7}),
    (3, 'pool', 'ConnectionCheckOutStarted', {'address': 'a:1', 'caller': 8}), (6, 'pool', 'ConnectionReady', {'address': 'a:1', 'connectionId': 1}),
    (6, 'pool', 'ConnectionCheckedOut', {'address': 'a:1', 'connectionId': 1, 'caller': 7}), (7, 'beat', 'ServerHeartbeatStarted', {'address': 'a:1'}),
    (8, 'beat', 'ServerHeartbeatFailed', {'address': 'a:1'}), (8, 'sdam', 'ServerDescriptionChanged', {'address': 'a:1', 'from': 'RSPrimary', 'to': 'Unknown'}),
    (8, 'pool', 'ConnectionPoolCleared', {'address': 'a:1'}), (8, 'pool', 'ConnectionCheckOutFailed', {'address': 'a:1', 'reason': 'connectionError', 'caller': 8}),
    (9, 'pool', 'ConnectionCheckedIn', {'address': 'a:1', 'connectionId': 1}), (9, 'pool', 'ConnectionClosed', {'address': 'a:1', 'connectionId': 1, 'reason': 'stale'}),
    (20, 'sdam', 'ServerDescriptionChanged', {'address': 'a:1', 'from': 'Unknown', 'to': 'RSPrimary'}), (20, 'pool', 'ConnectionPoolReady', {'address': 'a:1'}),
    (21, 'pool', 'ConnectionCheckOutStarted', {'address': 'a:1', 'caller': 7}), (21, 'pool', 'ConnectionCreated', {'address': 'a:1', 'connectionId': 2, 'caller': 7}),
    (23, 'pool', 'ConnectionReady', {'address': 'a:1', 'connectionId': 2}), (23, 'pool', 'ConnectionCheckedOut', {'address': 'a:1', 'connectionId': 2, 'caller': 7}),
]


def recorded(checks):
    """A recording of another driver, drawn as a log is."""
    line = lambda t, kind, event, more: json.dumps({'t': 5 + t / 1000, 'kind': kind, 'event': event, **more})
    text = ''.join(line(*it) + '\n' for it in RECORDED) + '{"kind":"other","event":"Told"}\n{"kind":"pool","event":"ConnectionClosed"}\n'
    checks.open('driver.jsonl', text)
    counts = checks.timeline('counts()')
    wanted = {'servers': 1, 'pools': 1, 'created': 2, 'closed': {'Stale': 1}, 'ended': {'Failed': 1}, 'requests': {'request': 3}, 'had': 2, 'jumps': {'failed check': 1, 'clear': 1}, 'types': 4, 'live': [1]}
    checks.equal('counts of a recording', {key: counts[key] for key in wanted}, wanted)
    checks.equal('what is malformed in it', [it['line'] for it in checks.timeline('unread()')], [len(RECORDED) + 1])
    for entry, places in ((5, {'0.1': 'pending'}), (8, {'0.1': 'with a party 1'}), (15, {}), (21, {'0.2': 'with a party 3'})):
        checks.equal('places after event %d' % (entry + 1), checks.timeline('places(%d)' % entry), places)
    checks.equal('how long of a recording', checks.ask("[...document.querySelectorAll('.figure b')].map((it) => it.textContent)"), ['12 ms', '15 ms'])
    checks.ask('timeline.select(8)')
    checks.equal('what an event names is lit', checks.timeline('selected()')['lit'], ['Connection 0.1', 'Pool 0', 'Request of party 1', 'Server a:1'])
    checks.keep('recording')


def run(checks):
    checks.browser.goto(checks.address)
    text = stored(*FAILOVER)
    checks.open('failover.log', text)
    plain = Plain(text)
    for part, words in ((figures, [plain]), (sums, [plain]), (marks, []), (filters, [plain]), (tips, []), (leaving, []), (example, []), (recorded, [])):
        part(checks, *words)
    checks.browser.goto(checks.address)
