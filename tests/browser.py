"""A page in Chromium without a window, over the pipes of its debugging protocol, by Python's standard library alone."""
import base64
import json
import os
import shutil
import subprocess
import sys
import time

FLAGS = ['--headless=new', '--no-sandbox', '--disable-gpu', '--disable-dev-shm-usage', '--hide-scrollbars', '--no-first-run', '--remote-debugging-pipe',
         '--force-device-scale-factor=1']


class Browser:
    """One tab; messages end in NUL. What goes wrong ends the program with the name given."""

    def __init__(self, name, folder, size):
        self.name, self.number, self.session, self.errors, self.rest = name, 0, None, [], b''
        ours, theirs = os.pipe(), os.pipe()
        command = [shutil.which('chromium'), *FLAGS, '--user-data-dir=' + folder, '--window-size=%d,%d' % size, 'about:blank']
        self.process = subprocess.Popen(['sh', '-c', 'exec "$@" 3<&%d 4>&%d' % (ours[0], theirs[1]), 'sh', *command], pass_fds=(ours[0], theirs[1]),
                                        stdout=subprocess.DEVNULL, stderr=subprocess.DEVNULL)
        os.close(ours[0])
        os.close(theirs[1])
        self.to, self.back = ours[1], theirs[0]
        target = self.ask('Target.createTarget', url='about:blank')['targetId']
        self.session = self.ask('Target.attachToTarget', targetId=target, flatten=True)['sessionId']
        self.ask('Emulation.setDeviceMetricsOverride', width=size[0], height=size[1], deviceScaleFactor=1, mobile=False)
        for part in ('Page', 'Runtime'):
            self.ask(part + '.enable')

    def fail(self, text):
        sys.exit('%s: %s' % (self.name, text))

    def message(self):
        while b'\0' not in self.rest:
            more = os.read(self.back, 1 << 20)
            if not more:
                self.fail('Chromium has ended')
            self.rest += more
        text, self.rest = self.rest.split(b'\0', 1)
        return json.loads(text)

    def ask(self, method, **told):
        self.number += 1
        question = {'id': self.number, 'method': method, 'params': told}
        if self.session:
            question['sessionId'] = self.session
        os.write(self.to, json.dumps(question).encode() + b'\0')
        while True:
            answer = self.message()
            if answer.get('method') == 'Runtime.exceptionThrown':
                self.errors.append(answer['params']['exceptionDetails']['text'])
            if answer.get('id') == self.number:
                return answer['result'] if 'result' in answer else self.fail('%s: %s' % (method, answer['error']))

    def evaluate(self, script):
        return self.ask('Runtime.evaluate', expression=script, returnByValue=True, awaitPromise=True)

    def value(self, script):
        answer = self.evaluate(script)
        return self.fail('%s: %s' % (script, answer['exceptionDetails'])) if 'exceptionDetails' in answer else answer['result'].get('value')

    def until(self, script, what):
        """Waits for it; while it fails it does not hold."""
        end = time.monotonic() + 30
        while not self.evaluate(script)['result'].get('value'):
            if time.monotonic() > end:
                self.fail('not seen: ' + what)
            time.sleep(0.02)

    def load(self, path, ready):
        self.ask('Page.navigate', url='file://' + os.path.abspath(path))
        self.until('document.readyState === "complete" && ' + ready, 'the page')

    def mouse(self, kind, x, y, **more):
        self.ask('Input.dispatchMouseEvent', type=kind, x=x, y=y, **more)

    def click(self, x, y):
        self.mouse('mouseMoved', x, y)
        self.mouse('mousePressed', x, y, button='left', clickCount=1)
        self.mouse('mouseReleased', x, y, button='left', clickCount=1)

    def picture(self, path):
        with open(path, 'wb') as file:
            file.write(base64.b64decode(self.ask('Page.captureScreenshot')['data']))

    def end(self):
        self.ask('Browser.close')
        self.process.wait(20)
