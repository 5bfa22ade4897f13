"""A page in chromium without a window, by the DevTools protocol over two pipes: nothing but Python's own library."""
import base64
import fcntl
import json
import os
import shutil
import subprocess
import tempfile
import time
from collections import Counter

FLAGS = ['--headless=new', '--no-sandbox', '--disable-gpu', '--no-first-run', '--disable-background-networking', '--disable-component-update',
         '--disable-sync', '--remote-debugging-pipe', '--mute-audio']
SHIFT, CTRL = 8, 2  # modifiers of an event
CODES = {'ArrowLeft': 37, 'ArrowUp': 38, 'ArrowRight': 39, 'ArrowDown': 40, 'Tab': 9, 'Enter': 13, 'Escape': 27, 'Home': 36, 'End': 35,
         'PageUp': 33, 'PageDown': 34}


class Fault(Exception):
    pass


def above(end):
    """A copy of a pipe's end with a number above those that the browser is to have."""
    copy = fcntl.fcntl(end, fcntl.F_DUPFD, 20)
    os.close(end)
    return copy


class Browser:
    def __init__(self, program, width=1400, height=900):
        self.folder = tempfile.mkdtemp()
        theirs, ours = os.pipe()
        self.answers, answering = os.pipe()
        theirs, answering = above(theirs), above(answering)

        def take_pipes():
            os.dup2(theirs, 3)
            os.dup2(answering, 4)
        self.process = subprocess.Popen([program, *FLAGS, '--user-data-dir=' + self.folder, 'about:blank'], close_fds=False, preexec_fn=take_pipes,
                                        stdout=subprocess.DEVNULL, stderr=subprocess.DEVNULL)
        os.close(theirs)
        os.close(answering)
        self.commands = os.fdopen(ours, 'wb', 0)
        self.number, self.rest, self.events, self.session = 0, b'', [], None
        target = self.call('Target.createTarget', url='about:blank')['targetId']
        self.session = self.call('Target.attachToTarget', targetId=target, flatten=True)['sessionId']
        for domain in ('Page', 'Runtime', 'Log', 'Network', 'DOM', 'Accessibility'):
            self.call(domain + '.enable')
        self.call('Performance.enable', timeDomain='threadTicks')
        self.size(width, height)

    def message(self):
        while b'\0' not in self.rest:
            piece = os.read(self.answers, 1 << 20)
            if not piece:
                raise Fault('the browser ended')
            self.rest += piece
        first, self.rest = self.rest.split(b'\0', 1)
        return json.loads(first)

    def call(self, method, **words):
        self.number += 1
        said = {'id': self.number, 'method': method, 'params': words}
        if self.session:
            said['sessionId'] = self.session
        self.commands.write(json.dumps(said).encode() + b'\0')
        while True:
            answer = self.message()
            if answer.get('id') == self.number:
                if 'error' in answer:
                    raise Fault('%s: %s' % (method, answer['error']['message']))
                return answer['result']
            if 'method' in answer:
                self.events.append(answer)

    def ask(self, expression):
        """The value of an expression of the page, awaited."""
        answer = self.call('Runtime.evaluate', expression=expression, returnByValue=True, awaitPromise=True)
        if 'exceptionDetails' in answer:
            raise Fault(answer['exceptionDetails'].get('exception', {}).get('description', 'a fault of the page'))
        return answer['result'].get('value')

    def settle(self):
        """Two frames later."""
        self.ask('new Promise((done) => requestAnimationFrame(() => requestAnimationFrame(() => done(1))))')

    def goto(self, address):
        """A page anew, also where only the fragment differs."""
        self.call('Page.navigate', url='about:blank')
        self.wait('location.href === "about:blank"')
        self.call('Page.navigate', url=address)
        self.wait('window.timeline !== undefined || window.storm !== undefined')

    def wait(self, condition, seconds=30):
        until = time.time() + seconds
        while time.time() < until:
            try:
                if self.ask(condition):
                    return
            except Fault:
                pass  # between two pages
            time.sleep(0.05)
        raise Fault('it never came: ' + condition)

    def size(self, width, height, ratio=1, is_phone=False):
        self.call('Emulation.setDeviceMetricsOverride', width=width, height=height, deviceScaleFactor=ratio, mobile=is_phone)
        self.call('Emulation.setTouchEmulationEnabled', enabled=is_phone)

    def scheme(self, name):
        self.call('Emulation.setEmulatedMedia', features=[{'name': 'prefers-color-scheme', 'value': name}])

    def picture(self, path):
        data = self.call('Page.captureScreenshot', format='png')['data']
        with open(path, 'wb') as file:
            file.write(base64.b64decode(data))

    def click(self, x, y):
        for kind in ('mouseMoved', 'mousePressed', 'mouseReleased'):
            self.call('Input.dispatchMouseEvent', type=kind, x=x, y=y, button='none' if kind == 'mouseMoved' else 'left', clickCount=1)

    def wheel(self, x, y, dx=0, dy=0, modifiers=0):
        self.call('Input.dispatchMouseEvent', type='mouseWheel', x=x, y=y, deltaX=dx, deltaY=dy, modifiers=modifiers)
        self.settle()

    def drag(self, points):
        for kind, (x, y) in zip(['mousePressed'] + ['mouseMoved'] * (len(points) - 2) + ['mouseReleased'], points):
            self.call('Input.dispatchMouseEvent', type=kind, x=x, y=y, button='left', buttons=1, clickCount=1)
        self.settle()

    def touch(self, *moves):
        """Each move is a list of points; the fingers are lifted at the end."""
        for number, points in enumerate(moves):
            self.call('Input.dispatchTouchEvent', type='touchStart' if number == 0 else 'touchMove', touchPoints=[{'x': x, 'y': y, 'id': at} for at, (x, y) in enumerate(points)])
        self.call('Input.dispatchTouchEvent', type='touchEnd', touchPoints=[])
        self.settle()

    def key(self, name, modifiers=0):
        code = CODES[name] if name in CODES else ord(name.upper()) if name.isalnum() else 0
        said = {'key': name, 'windowsVirtualKeyCode': code, 'modifiers': modifiers}
        text = '\r' if name == 'Enter' else name if len(name) == 1 else ''
        self.call('Input.dispatchKeyEvent', type='keyDown' if text else 'rawKeyDown', **said, **({'text': text} if text else {}))
        self.call('Input.dispatchKeyEvent', type='keyUp', **said)

    def seconds(self):
        """Processor seconds of the page's main thread so far."""
        return {it['name']: it['value'] for it in self.call('Performance.getMetrics')['metrics']}['TaskDuration']

    def faults(self):
        """What the page complained of in its own log."""
        return [it['params'] for it in self.events if it['method'] in ('Runtime.exceptionThrown', 'Log.entryAdded')]

    def requested(self):
        """The kinds of addresses that the page asked for."""
        return Counter(it['params']['request']['url'].partition(':')[0] for it in self.events if it['method'] == 'Network.requestWillBeSent')

    def close(self):
        self.process.terminate()
        self.process.wait()
        shutil.rmtree(self.folder, ignore_errors=True)
