"""What each check of the page uses: the browser, the page, and a count of what was compared."""
import json
import os
from collections import Counter


class Checks:
    def __init__(self, browser, address, pictures):
        self.browser, self.address, self.pictures = browser, address, pictures
        self.done, self.failed = Counter(), 0
        self.facts = []
        if pictures:
            os.makedirs(pictures, exist_ok=True)
        browser.goto(address)

    def equal(self, name, given, wanted, kind='checks of behaviour'):
        """Counts the check, and tells where it fails."""
        self.done[kind] += 1
        if given != wanted:
            self.failed += 1
            print('%s: %.600r, and not %.600r' % (name, given, wanted))
        return given == wanted

    def true(self, name, given, told=''):
        return self.equal(name + (' (%s)' % (told,) if told != '' and not given else ''), bool(given), True)

    def ask(self, expression):
        return self.browser.ask(expression)

    def timeline(self, call):
        return json.loads(self.browser.ask('JSON.stringify(timeline.%s)' % call))

    def open(self, name, text):
        self.browser.ask('timeline.open(%s, %s).then(() => 1)' % (json.dumps(name), json.dumps(text)))

    def keep(self, name):
        if self.pictures:
            self.browser.settle()
            self.browser.picture(os.path.join(self.pictures, name + '.png'))

    def point(self, kind, key, entry):
        return self.timeline('where(%s, %s, %d)' % (json.dumps(kind), json.dumps(key), entry))

    def last_line(self):
        kinds = ', '.join('%d %s' % (many, kind) for kind, many in self.done.items())
        return '; '.join(self.facts + [kinds]) + ', %d failed' % self.failed
