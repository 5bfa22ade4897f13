#!/usr/bin/env python3
"""Opens the pages in Firefox without a window, by Marionette: that they draw and run there what they do in chromium.

usage: checks/page_firefox.py [--browser PROGRAM] [--playground FILE] [--storm FILE] [--pictures FOLDER]

Needs firefox-esr (Debian's package of that name) and nothing else. The timeline draws the failover of pages/examples, whose counts are to be those of checks/log_counts.py;
the playground, where it is built (pages/playground.html, else pages/out/playground.html), runs its script, whose log is to be the stored one, and the programs in its tabs, which are to
write what is stored; the page of settings under a failover (storm.html, there too) is to come to what examples/storm does, where that is built. checks/page.py, page_playground.py and
page_storm.py try all else, in chromium. The status is 0 where no check failed, 1 where one did, 2 where the browser is missing.
"""
import argparse
import base64
import json
import os
import shutil
import socket
import subprocess
import sys
import tempfile
import time

sys.dont_write_bytecode = True
HERE = os.path.dirname(os.path.abspath(__file__))
PAGES = os.path.join(os.path.dirname(HERE), 'pages')
sys.path[:0] = [HERE, os.path.join(HERE, 'audit')]
from log_counts import Counts
from page_logs import stored

PATIENCE = 300  # seconds


def free_port():
    with socket.socket() as taken:
        taken.bind(('127.0.0.1', 0))
        return taken.getsockname()[1]


class Firefox:
    """A session of Marionette: messages are a length, a colon and JSON."""

    def __init__(self, program):
        self.folder, port = tempfile.mkdtemp(), free_port()
        with open(os.path.join(self.folder, 'user.js'), 'w', encoding='ascii') as file:
            file.write('user_pref("marionette.port", %d);\nuser_pref("app.update.enabled", false);\nuser_pref("datareporting.policy.dataSubmissionEnabled", false);\n' % port)
        self.process = subprocess.Popen([program, '--headless', '--marionette', '--no-remote', '--profile', self.folder], stdout=subprocess.DEVNULL, stderr=subprocess.DEVNULL)
        self.socket, self.rest, self.number = self.connected(port), b'', 0
        self.message()
        self.call('WebDriver:NewSession')
        self.call('WebDriver:SetTimeouts', script=PATIENCE * 1000, pageLoad=PATIENCE * 1000)

    def connected(self, port):
        until = time.time() + PATIENCE
        while True:
            try:
                return socket.create_connection(('127.0.0.1', port), PATIENCE)
            except OSError:
                if time.time() > until:
                    raise
                time.sleep(0.5)

    def message(self):
        while b':' not in self.rest:
            self.rest += self.socket.recv(65536)
        length, self.rest = self.rest.split(b':', 1)
        while len(self.rest) < int(length):
            self.rest += self.socket.recv(65536)
        said, self.rest = self.rest[:int(length)], self.rest[int(length):]
        return json.loads(said)

    def call(self, name, **words):
        self.number += 1
        said = json.dumps([0, self.number, name, words]).encode()
        self.socket.sendall(b'%d:%s' % (len(said), said))
        _, _, fault, result = self.message()
        if fault:
            raise SystemExit('%s: %s' % (name, fault['message']))
        return result

    def goto(self, path):
        self.call('WebDriver:Navigate', url='file://' + path)

    def ask(self, expression):
        """The value of an expression of the page: a text, a number or a truth."""
        return self.call('WebDriver:ExecuteScript', script='const page = window.wrappedJSObject ?? window; const timeline = page.timeline; return (%s);' % expression, args=[])['value']

    def wait(self, condition):
        until = time.time() + PATIENCE
        while not self.ask(condition):
            if time.time() > until:
                raise SystemExit('it never came: ' + condition)
            time.sleep(0.3)

    def picture(self, path):
        with open(path, 'wb') as file:
            file.write(base64.b64decode(self.call('WebDriver:TakeScreenshot', full=False)['value']))

    def close(self):
        self.process.terminate()
        self.process.wait()
        shutil.rmtree(self.folder, ignore_errors=True)


class Checks:
    """A count of what was compared."""

    def __init__(self):
        self.done = self.failed = 0

    def equal(self, name, given, wanted):
        self.done += 1
        if given != wanted:
            self.failed += 1
            print('%s: %.600r, and not %.600r' % (name, given, wanted))


def kept(firefox, folder, name):
    if folder:
        os.makedirs(folder, exist_ok=True)
        firefox.picture(os.path.join(folder, name + '.png'))


def timeline(firefox, checks, folder):
    firefox.goto(os.path.join(PAGES, 'timeline.html'))
    firefox.wait('timeline !== undefined')
    firefox.ask('document.getElementById("example").click()')
    firefox.wait('timeline.opened() !== null')
    text = stored('pages', 'examples', 'failover.log')
    wanted, counts = Counts(text).as_page(), json.loads(firefox.ask('page.JSON.stringify(timeline.counts())'))
    checks.equal('counts of the failover', {key: counts[key] for key in wanted}, wanted)
    checks.equal('complaints', firefox.ask('timeline.unread().length'), 0)
    checks.equal('how long', firefox.ask('document.getElementById("figures").textContent'), '16 ms no primary26 ms first error to first check-out')
    firefox.ask('document.getElementById("scroll").focus()')
    checks.equal('lanes are drawn', firefox.ask('timeline.drawn().connections') > 0, True)
    kept(firefox, folder, 'firefox-timeline')


def playground(firefox, checks, path, folder):
    firefox.goto(path)
    firefox.wait('timeline !== undefined && (timeline.log() !== "" || document.getElementById("summary").textContent.includes("cannot"))')
    checks.equal('the log of the failover', firefox.ask('timeline.log()'), stored('pages', 'examples', 'failover.log'))
    checks.equal('no line is wrong', firefox.ask('document.getElementById("wrong").textContent'), '')
    firefox.ask('(document.getElementById("script").value += "reqest 1", document.getElementById("script").dispatchEvent(new Event("input")))')
    firefox.wait('document.getElementById("wrong").textContent !== ""')
    checks.equal('a wrong line', firefox.ask('document.getElementById("wrong").textContent'), "line 178 is malformed: no step: 'reqest 1'")
    for tab, crate in (('verdict', 'mdb_auditor'), ('recording', 'mdb_recorded'), ('fleet', 'mdb_fleet'), ('tenants', 'mdb_proxy')):
        firefox.ask('page.document.getElementById("tab-%s").click()' % tab)
        firefox.ask('(page.document.getElementById("examples").selectedIndex = 0, page.document.getElementById("examples").dispatchEvent(new Event("change")))')
        checks.equal('what %s writes' % crate, firefox.ask('timeline.log()'), stored('crates', crate, 'stdout'))
    kept(firefox, folder, 'firefox-playground')


def storm(firefox, checks, path, folder):
    firefox.goto(path)
    firefox.wait('page.storm !== undefined && page.storm.isAtRest()')
    program = os.path.join(PAGES, os.pardir, 'examples', 'storm', 'out', 'storm')
    if os.path.exists(program):
        wanted = subprocess.run([program, '--csv', '--', 'maxConnecting=0'], check=True, capture_output=True, text=True).stdout
        checks.equal('the samples of a storm', firefox.ask('page.storm.samples()') == wanted, True)
    checks.equal('its charts', firefox.ask('document.querySelectorAll(".chart").length'), 6)
    firefox.ask('(page.storm.set(0, page.Object.assign(new page.Object(), { maxConnecting: 7 })), 1)')
    firefox.wait('page.storm.isAtRest()')
    checks.equal('another setting', firefox.ask('page.storm.sums()[0].pendingMost'), 350)
    kept(firefox, folder, 'firefox-storm')


def built(given, name):
    """A page that is built, or nothing."""
    found = [it for it in (given, os.path.join(PAGES, name), os.path.join(PAGES, 'out', name)) if it and os.path.exists(it)]
    return os.path.abspath(found[0]) if found else None


def main():
    said = argparse.ArgumentParser(usage=__doc__.split('\n')[2][7:])
    said.add_argument('--browser', default='firefox-esr')
    said.add_argument('--playground')
    said.add_argument('--storm')
    said.add_argument('--pictures')
    given = said.parse_args()
    program = shutil.which(given.browser)
    if program is None:
        print('missing: ' + given.browser)
        return 2
    firefox, checks = Firefox(program), Checks()
    try:
        timeline(firefox, checks, given.pictures)
        pages = [(playground, built(given.playground, 'playground.html')), (storm, built(given.storm, 'storm.html'))]
        for look, path in pages:
            if path:
                look(firefox, checks, path, given.pictures)
    finally:
        firefox.close()
    lacking = [look.__name__ for look, path in pages if not path]
    print('%d checks%s, %d failed' % (checks.done, ' (not built: %s)' % ', '.join(lacking) if lacking else '', checks.failed))
    return 1 if checks.failed else 0


if __name__ == '__main__':
    sys.exit(main())
