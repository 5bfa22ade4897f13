"""How a log comes in, and what is said of lines that cannot be read."""
import os
import subprocess
import sys
import tempfile
import urllib.parse

from page_logs import ROOT, stored
from page_keys import SMALL


def summary(checks):
    return checks.ask('document.getElementById("summary").textContent')


def opened(checks, name, count):
    checks.browser.wait('timeline.counts !== undefined && document.body.classList.contains("opened") && timeline.opened() !== null && timeline.counts().lines === %d' % count)
    checks.true(name, '%d entries' % count in summary(checks), summary(checks))


def fragments(checks):
    log = stored('crates', 'mdb_script', 'stdout')
    checks.browser.goto(checks.address + '#name=worked&axis=entries&entry=3&log=' + urllib.parse.quote(log))
    opened(checks, 'a log in the fragment', 5)
    checks.equal('the entry and the axis of the fragment', (checks.timeline('selected()')['entry'], checks.timeline('view()')['axis']), (2, 'entries'))
    link = subprocess.run([sys.executable, os.path.join(ROOT, 'pages', 'link.py'), '--entry', '4', '--axis', 'entries'], input=SMALL.encode(), stdout=subprocess.PIPE, check=True)
    checks.browser.goto(link.stdout.decode().strip())
    opened(checks, 'a packed log in the fragment', SMALL.count('\n'))
    checks.equal('the entry of the packed log', checks.timeline('selected()')['entry'], 3)
    checks.browser.goto(checks.address + '#log=%')
    checks.browser.wait('document.getElementById("summary").textContent.includes("no log that can be read")')
    checks.browser.goto(checks.address)
    checks.equal('no log is open without a fragment', summary(checks), 'No log is open.')


def files(checks):
    with tempfile.TemporaryDirectory() as folder:
        path = os.path.join(folder, 'picked.log')
        with open(path, 'w', encoding='ascii', newline='\n') as file:
            file.write(SMALL)
        root = checks.browser.call('DOM.getDocument')['root']['nodeId']
        node = checks.browser.call('DOM.querySelector', nodeId=root, selector='#file')['nodeId']
        checks.browser.call('DOM.setFileInputFiles', nodeId=node, files=[path])
        opened(checks, 'a file that is picked', SMALL.count('\n'))
        other = os.path.join(folder, 'dropped.log')
        with open(other, 'w', encoding='ascii', newline='\n') as file:
            file.write(stored('pages', 'examples', 'failover.log'))
        for kind in ('dragEnter', 'dragOver', 'drop'):
            checks.browser.call('Input.dispatchDragEvent', type=kind, x=500, y=400, data={'items': [], 'files': [other], 'dragOperationsMask': 1})
        opened(checks, 'a file that is dropped', stored('pages', 'examples', 'failover.log').count('\n'))


BAD = [  # a line, and what is to be said of it
    ('', 'an empty line'),
    ('request 3 1 a:1', 'no reply behind the step'),
    ('ask 3 1 a:1 | Done', 'no step'),
    ('request 03 1 a:1 | Done', 'no number'),
    ('request 3 1 a | Done', 'no address'),
    ('request 3 1 a:1 | Perhaps', 'no reply'),
    ('request 3 1 a:1 | Refused Why', 'no refusal'),
    ('request 3 1 a:1 | Done | Grant 1 0.1', 'no fact'),
    ('request 3 1 a:1 | Done | Pool 0 ConnectionLost a:1 1', 'no event of a pool'),
    ('request 3 1 a:1 | Done | Granted 1 01', 'no connection'),
    ('error 3 1 network | Changed true', 'no message of an error'),
    ('request 3 1 a:1 | Done | caf\u00e9', 'a character that no log has'),
    ('open seeds=a:1 | Done', 'only the first line opens'),
]


def unread(checks):
    """Bad lines among good ones: each is told with its number and why, and the rest is drawn."""
    good = SMALL.split('\n')[:-1]
    text = '\n'.join(good[:3] + [line for line, _ in BAD] + good[3:]) + '\n'
    checks.open('bad lines', text)
    told = checks.timeline('unread()')
    checks.equal('the lines that are told', [it['line'] for it in told], list(range(3, 3 + len(BAD))))
    for (line, why), it in zip(BAD, told):
        checks.true('what is said of %r' % line, it['why'].startswith(why), it['why'])
    counts = checks.timeline('counts()')
    checks.equal('the rest is drawn', (counts['read'], counts['created'], counts['grants']), (len(good), 2, 2))
    checks.equal('the alert', checks.ask('document.getElementById("complaintcount").textContent'), '%d lines could not be read as an entry. All else is drawn.' % len(BAD))
    checks.keep('bad-lines')
    checks.open('cut', SMALL[:-1])
    checks.equal('a last line without newline', [(it['line'], it['isDrawn']) for it in checks.timeline('unread()')], [(len(good) - 1, True)])
    checks.open('a part', ''.join(line + '\n' for line in good[6:]))
    told = checks.timeline('unread()')
    checks.equal('a part of a log', (len(told), told[0]['isDrawn'], checks.timeline('counts()')['connections']), (1, True, 2))
    checks.open('no log', '\u0000\u0001 no log at all\n' * 50)
    checks.equal('no log at all', (checks.timeline('counts()')['read'], len(checks.timeline('unread()'))), (0, 50))
    checks.open('crlf', SMALL.replace('\n', '\r\n'))
    checks.equal('lines that end as on Windows', (checks.timeline('counts()')['read'], checks.timeline('unread()')), (len(good), []))


def run(checks):
    fragments(checks)
    files(checks)
    unread(checks)
